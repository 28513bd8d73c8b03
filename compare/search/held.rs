//! The count of entries held to counts made by hand, and to the original's own.

use cases::stated::{self, Also};
use common::answers::text;
use common::random::Rng;
use common::sheet::Sheet;
use draw::sheets::{self, Size};
use oracle::{bridge, doors};

/// Trees in document 01's notation, equal letters ok and others 140; the entries
/// written down by hand.
const BY_HAND: [(&str, &str, u128); 14] = [
    // One entry for two leaves; a walk enters for each item that it tries.
    ("a", "a", 1),
    ("S[a,b]", "S[a,b]", 3),
    ("S[a,b]", "S[a,c(0,1),b]", 4),
    // It ends at a failure that is not skipped.
    ("S[a,b]", "S[c,b]", 2),
    // Element and choice, the element wrapped, then each alternative.
    ("a", "C(0,2)[b,a]", 4),
    // The first reading fails by its range, the second by the base's minimum.
    ("a", "C(2,2)[b,a]", 2),
    // The first fails by its range, the second asks both alternatives.
    ("a(0,2)", "C(0,1)[b,a]", 4),
    // Both readings ask both.
    ("c", "C(0,2)[b,a]", 6),
    // At each of two levels both readings: 2 + 2 (2 + 2).
    ("b", "S(0,2)[S(0,2)[a]]", 10),
    // A base that may not occur.
    ("a", "S(0,0)[a]", 2),
    // The base wrapped, then the first item.
    ("S[a,a]", "b", 3),
    // Each member of a group against a wildcard.
    ("S[w,C[w,w]]", "w(0,*)", 5),
    // Base elements taken by name enter no rule.
    ("A[a,b]", "A[b,a]", 1),
    // The early pass.
    ("S(0,0)[a]", "S(0,2)[b]", 0),
];

/// Random small sheets, and those of which the original is asked.
const RANDOM: u64 = 2000;
const MOST_ENTRIES: u128 = 20_000;

pub fn check(seed: u64) -> Result<(), String> {
    for (derived, base, entries) in BY_HAND {
        let counted = entries::count(&stated::sheet(derived, base, &Also::Nothing)).marked.entries;
        if counted != entries {
            return Err(format!("{derived} | {base}: {counted} entries, by hand {entries}"));
        }
    }
    for case in 0..RANDOM {
        let sheet = sheets::sheet(&mut Rng::new(seed, case), Size::Any);
        as_original(&sheet).map_err(|what| format!("random sheet {case}: {what}"))?;
    }
    Ok(())
}

/// Whether the original marks and enters as counted, and no more often than
/// document 02 §14 allows. Of a base that may not occur it marks otherwise (§5).
pub fn as_original(sheet: &Sheet) -> Result<(), String> {
    let counted = entries::count(sheet);
    let (ceiling, counted) = (counted.ceiling(), counted.marked);
    let answer = expected::sheet::mark(&sheet.encode());
    if counted.mark != answer.mark {
        return Err(format!("{}, expected {}", text(counted.mark), text(answer.mark)));
    }
    if counted.entries > ceiling {
        return Err(format!("{} entries, at most {ceiling}", counted.entries));
    }
    if answer.ruled.is_some() || counted.entries > MOST_ENTRIES {
        return Ok(());
    }
    let before = doors::entries();
    bridge::mark(sheet);
    let entered = u128::from(doors::entries() - before);
    if entered != counted.entries {
        return Err(format!("{} entries, the Rust {entered}", counted.entries));
    }
    Ok(())
}
