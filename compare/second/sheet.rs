//! Document 01's refusals of a sheet, read a second time, in their order: 1
//! length and contents, 3 leaves, 4 verdicts, 5 to 9 the base tree, 10 to 14
//! the derived tree (tree.rs).

use common::bytes::short;
use common::sheet::{
    CONTENTS, Counts, LEAF_BYTES, LEAF_KIND, MOST_LEAVES, NAME, PROCESSING, Places, TOTAL, ZERO,
};
use common::tree::{MOST_RECORDS, RECORD};

use crate::tree::{self, OF_BASE, OF_DERIVED};

/// The number of the first refusal, and what shows it.
pub struct Refusal {
    pub number: u32,
    pub place: String,
}

pub fn first_refusal(bytes: &[u8]) -> Option<Refusal> {
    let refuse = |number, place| Some(Refusal { number, place });
    let Some(places) = contents(bytes) else {
        return refuse(1, "the contents or the length".into());
    };
    let leaves: Vec<&[u8]> = bytes[places.leaves].chunks_exact(LEAF_BYTES).collect();
    if let Some(at) = leaves.iter().position(|leaf| !leaf_good(leaf)) {
        return refuse(3, format!("leaf {at}"));
    }
    for (name, place) in [("first", places.first), ("second", places.second)] {
        let verdict_good = |verdict: &u8| matches!(verdict, 0 | 1 | 140..=152);
        if let Some(at) = bytes[place].iter().position(|verdict| !verdict_good(verdict)) {
            let (row, column) = (at / leaves.len(), at % leaves.len());
            return refuse(4, format!("the {name} table's row {row}, column {column}"));
        }
    }
    let kinds: Vec<u8> = leaves.iter().map(|leaf| leaf[LEAF_KIND]).collect();
    let trees = [("base", places.base, OF_BASE), ("derived", places.derived, OF_DERIVED)];
    for (name, place, lowest) in trees {
        if let Some(refusal) = tree::refusal_in_sheet(&bytes[place], lowest, &kinds) {
            let place = format!("record {} (from 0) of the {name} tree", refusal.record);
            return refuse(refusal.number, place);
        }
    }
    None
}

/// Where the bodies stand, unless this is refusal 1.
fn contents(bytes: &[u8]) -> Option<Places> {
    if bytes.len() < CONTENTS {
        return None;
    }
    let counts = Counts::read(bytes);
    let Counts { leaves: n, derived: d, base: b } = counts;
    let total = CONTENTS + LEAF_BYTES * n + 2 * n * n + RECORD * d + RECORD * b;
    let good = (1..=MOST_LEAVES).contains(&n)
        && [d, b].iter().all(|records| (1..=MOST_RECORDS).contains(records))
        && bytes[ZERO] == 0
        && usize::from(short(bytes, TOTAL)) == total
        && bytes.len() == total;
    good.then(|| counts.places())
}

fn leaf_good(leaf: &[u8]) -> bool {
    match leaf[LEAF_KIND] {
        0 => leaf[PROCESSING] == 0,
        1 => leaf[PROCESSING] <= 2 && short(leaf, NAME) == 0,
        _ => false,
    }
}
