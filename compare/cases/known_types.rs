//! Verdicts on two types and fillings of a sheet, written down by hand from
//! document 02 §6, to hold the second reading and the oracle as well as the
//! library to them.

use common::answers::{NOT_DERIVED, REFUSED, TYPE_NUMBER};
use common::sheet::{Bodies, LEAF_KIND, Leaf, Sheet, ZERO};
use common::tree::{KIND, Tree};

const OK: u32 = 0;
const FAILS: u32 = NOT_DERIVED;
const UNLISTED: u32 = REFUSED + TYPE_NUMBER;

/// The derived type's number, the base's, and the answer.
pub const VERDICTS: [(u32, u32, u32); 58] = [
    // anyType and anySimpleType as base.
    (0, 0, OK),
    (1, 0, OK),
    (0, 1, OK),
    (1, 1, OK),
    (2, 0, OK),
    (2, 1, OK),
    (49, 0, OK),
    (49, 1, OK),
    // They as derived.
    (0, 2, FAILS),
    (1, 2, FAILS),
    (0, 49, FAILS),
    (1, 24, FAILS),
    // string and what is derived from it.
    (2, 2, OK),
    (25, 2, OK),
    (2, 25, FAILS),
    (26, 25, OK),
    (27, 26, OK),
    (28, 27, FAILS),
    (31, 29, OK),
    (32, 2, OK),
    (33, 30, OK),
    (33, 32, FAILS),
    (30, 33, FAILS),
    // A list type is not derived from its items' type.
    (21, 28, FAILS),
    (22, 32, FAILS),
    (23, 33, FAILS),
    // anyAtomicType is above none of the others.
    (2, 24, FAILS),
    (24, 2, FAILS),
    (24, 24, OK),
    // decimal and what is derived from it.
    (34, 4, OK),
    (4, 34, FAILS),
    (35, 34, OK),
    (38, 35, OK),
    (38, 36, FAILS),
    (41, 40, OK),
    (41, 37, OK),
    (41, 4, OK),
    (41, 36, FAILS),
    (46, 42, OK),
    (46, 36, OK),
    (46, 37, FAILS),
    (43, 36, OK),
    (43, 42, FAILS),
    (5, 4, FAILS),
    // Durations and times.
    (47, 8, OK),
    (47, 10, FAILS),
    (48, 7, OK),
    (49, 7, OK),
    (48, 49, FAILS),
    (7, 48, FAILS),
    // What the list does not have, whatever the other one is.
    (50, 0, UNLISTED),
    (0, 50, UNLISTED),
    (50, 50, UNLISTED),
    (255, 1, UNLISTED),
    (256, 0, UNLISTED),
    (4, 256 + 4, UNLISTED),
    (65536 + 34, 4, UNLISTED),
    (u32::MAX, u32::MAX, UNLISTED),
];

/// What it shows, the sheet and the types that are handed in; and the sheet
/// afterwards, or the refusal.
pub type Known = (&'static str, Vec<u8>, Vec<u8>, Result<Vec<u8>, u32>);

pub fn known() -> Vec<Known> {
    [pairs(), what_stays(), numbers(), lengths(), orders()].concat()
}

/// A table's rows with a stroke between them: `.` ok, `?` undecided, `!` 148,
/// `o` 140, `x` 152.
fn table(rows: &str) -> Vec<u8> {
    let verdict = |letter| match letter {
        '.' => 0,
        '?' => 1,
        '!' => 148,
        'o' => 140,
        'x' => 152,
        _ => panic!("no verdict: {letter}"),
    };
    rows.chars().filter(|letter| *letter != '/').map(verdict).collect()
}

/// Leaves by their kinds, e and w, and the second table. The first table has 1
/// throughout; the trees are the first leaf and the last.
fn sheet(leaves: &str, second: &str) -> Sheet {
    let leaf = |kind| if kind == 'e' { Leaf::element(7) } else { Leaf::wildcard(2) };
    let leaves: Vec<Leaf> = leaves.chars().map(leaf).collect();
    let last = leaves.len() - 1;
    let tree = |leaf: usize| Tree::leaf(leaves[leaf].kind, leaf as u8, (1, Some(1)));
    let (first, second) = (vec![1; leaves.len() * leaves.len()], table(second));
    Sheet { first, second, derived: tree(0), base: tree(last), leaves }
}

/// A filling that comes about, by the second table before and after.
pub(crate) fn fills(
    what: &'static str,
    leaves: &str,
    before: &str,
    types: &[u8],
    after: &str,
) -> Known {
    let after = sheet(leaves, after).encode();
    (what, sheet(leaves, before).encode(), types.to_vec(), Ok(after))
}

pub(crate) fn refused(what: &'static str, leaves: &str, second: &str, types: &[u8]) -> Known {
    (what, sheet(leaves, second).encode(), types.to_vec(), Err(17))
}

/// Row derived, column base.
fn pairs() -> Vec<Known> {
    vec![
        fills("one element", "e", "?", &[34], "."),
        fills("anyType alone", "e", "?", &[0], "."),
        fills("integer and decimal", "ee", "??/??", &[34, 4], "../!."),
        fills("decimal and integer", "ee", "??/??", &[4, 34], ".!/.."),
        fills("anyType and anySimpleType", "ee", "??/??", &[0, 1], "../.."),
        fills("anyType and string", "ee", "??/??", &[0, 2], ".!/.."),
        fills("string and anySimpleType", "ee", "??/??", &[2, 1], "../!."),
        fills("boolean and float", "ee", "??/??", &[3, 5], ".!/!."),
        fills("a type twice", "ee", "??/??", &[49, 49], "../.."),
        fills("three of a chain", "eee", "???/???/???", &[41, 37, 4], ".../!../!!."),
        fills("two below one", "eee", "???/???/???", &[38, 34, 43], "..!/!.!/!.."),
        fills("one verdict alone", "eee", "..o/..?/x..", &[2, 4, 34], "..o/..!/x.."),
    ]
}

/// What is not 1, what is a wildcard's, and the first table.
fn what_stays() -> Vec<Known> {
    vec![
        fills("nothing undecided", "ee", ".o/x!", &[3, 5], ".o/x!"),
        fills("others stay", "ee", ".?/?x", &[34, 4], "../!x"),
        fills("ok stays where the types fail", "ee", "../..", &[2, 3], "../.."),
        fills("148 stays where the types do not", "ee", "!!/!!", &[34, 34], "!!/!!"),
        fills("a wildcard after", "ew", "??/??", &[2, 4], ".?/??"),
        fills("a wildcard before", "we", "??/??", &[2, 4], "??/?."),
        fills("a wildcard between", "ewe", "???/???/???", &[34, 4, 4], ".?./???/!?."),
        fills("wildcards alone", "ww", "??/??", &[2, 4], "??/??"),
    ]
}

/// Those of the list are 0 to 49. A wildcard's is not read.
fn numbers() -> Vec<Known> {
    vec![
        fills("49", "e", "?", &[49], "."),
        refused("50", "e", "?", &[50]),
        refused("255", "e", "?", &[255]),
        refused("50 first", "ee", "??/??", &[50, 2]),
        refused("50 last", "ee", "??/??", &[2, 50]),
        refused("50 and nothing undecided", "ee", "../..", &[2, 50]),
        fills("a wildcard's 50", "ew", "??/??", &[2, 50], ".?/??"),
        fills("a wildcard's 255", "we", "??/??", &[255, 2], "??/?."),
        fills("two wildcards' 255", "ww", "??/??", &[255, 255], "??/??"),
        refused("50 beside a wildcard's", "ew", "??/??", &[50, 50]),
    ]
}

/// As many as there are leaves, wildcards among them.
fn lengths() -> Vec<Known> {
    vec![
        refused("none for one", "e", "?", &[]),
        refused("two for one", "e", "?", &[2, 2]),
        refused("one for two", "ee", "??/??", &[2]),
        refused("three for two", "ee", "??/??", &[2, 2, 2]),
        refused("256 and one for one", "e", "?", &[2; 257]),
        refused("for elements only", "ew", "??/??", &[2]),
        refused("none for a wildcard", "w", "?", &[]),
        refused("two for a wildcard", "w", "?", &[2, 2]),
        refused("too many and 50", "ee", "??/??", &[2, 50, 2]),
        refused("too few, nothing undecided", "ee", "../..", &[2]),
    ]
}

/// The sheet's refusals come first.
pub(crate) fn orders() -> Vec<Known> {
    let faults: [(&'static str, fn(&mut Bodies), u32); 5] = [
        ("leaf", |b| b.leaves[LEAF_KIND] = 2, 3),
        ("first table", |b| b.first[3] = 2, 4),
        ("second table", |b| b.second[3] = 139, 4),
        ("base tree", |b| b.base[KIND] = 9, 5),
        ("derived tree", |b| b.derived[KIND] = 9, 10),
    ];
    let good = || sheet("ee", "??/??").encode();
    let mut out = Vec::new();
    for (what, fault, number) in faults {
        let mut bodies = Bodies::split(&good());
        fault(&mut bodies);
        for types in [&[34, 4][..], &[34], &[], &[50, 50]] {
            out.push((what, bodies.join(), types.to_vec(), Err(number)));
        }
    }
    let mut contents = good();
    contents[ZERO] = 1;
    let shorter = good()[1..].to_vec();
    for bytes in [contents, shorter, Vec::new()] {
        for types in [&[34, 4][..], &[34], &[]] {
            out.push(("contents", bytes.clone(), types.to_vec(), Err(1)));
        }
    }
    out
}
