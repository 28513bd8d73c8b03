//! Document 01's refusals of a tree, read a second time: a plain scan over the
//! records with a stack of the groups that are open. A tree alone and a derived
//! tree are refused with 10 to 14, a base tree with 5 to 9.

use common::bytes::number;
use common::sheet::MOST_LEAVES;
use common::tree::{
    KIND, Kind, LEAF, MARK, MAX, MIN, MOST_DEPTH, MOST_RECORDS, RECORD, ZEROS, count,
};

/// The number of the first refusal, and the record (from 0) that shows it.
#[derive(Debug, Clone, Copy, PartialEq, Eq)]
pub struct Refusal {
    pub number: u32,
    pub record: usize,
}

/// The lowest of the five numbers, that of the fields. Pair, all-group, depth
/// and item counts follow.
pub const OF_BASE: u32 = 5;
pub const OF_DERIVED: u32 = 10;

/// A group whose items are being read.
struct Open {
    awaited: usize,
    is_all: bool,
}

/// The first refusal of a tree alone.
pub fn first_refusal(bytes: &[u8]) -> Option<Refusal> {
    let records = bytes.len() / RECORD;
    if bytes.len() % RECORD != 0 || records == 0 || records > MOST_RECORDS {
        return Some(Refusal { number: OF_DERIVED + 4, record: 0 });
    }
    scan(bytes, OF_DERIVED, |_, leaf| usize::from(leaf) < MOST_LEAVES)
}

/// The first refusal of a tree in a sheet, of whole records. `kinds` are those
/// of the sheet's leaves.
pub fn refusal_in_sheet(bytes: &[u8], lowest: u32, kinds: &[u8]) -> Option<Refusal> {
    scan(bytes, lowest, |kind, leaf| kinds.get(usize::from(leaf)) == Some(&kind))
}

/// `fits` says of a leaf's kind and number whether there is such a leaf.
fn scan(bytes: &[u8], lowest: u32, fits: impl Fn(u8, u8) -> bool) -> Option<Refusal> {
    let mut open: Vec<Open> = Vec::new();
    for (at, record) in bytes.chunks_exact(RECORD).enumerate() {
        let refuse = |number| Some(Refusal { number, record: at });
        if at > 0 && open.is_empty() {
            return refuse(lowest + 4);
        }
        if !fields_good(record, &fits) {
            return refuse(lowest);
        }
        let bounded = record[MARK] == 0;
        if bounded && number(record, MIN) > number(record, MAX) {
            return refuse(lowest + 1);
        }
        let is_all = record[KIND] == Kind::All as u8;
        let maximum_is_1 = bounded && number(record, MAX) == 1;
        let in_all = open.last().is_some_and(|group| group.is_all);
        if (is_all && !maximum_is_1) || (in_all && record[KIND] != Kind::Element as u8) {
            return refuse(lowest + 2);
        }
        if open.len() + 1 > MOST_DEPTH {
            return refuse(lowest + 3);
        }
        if let Some(group) = open.last_mut() {
            group.awaited -= 1;
        }
        // A leaf and an empty group await nothing and are closed below.
        open.push(Open { awaited: count(record), is_all });
        while open.last().is_some_and(|group| group.awaited == 0) {
            open.pop();
        }
    }
    let records = bytes.len() / RECORD;
    (!open.is_empty()).then_some(Refusal { number: lowest + 4, record: records })
}

/// Each field in its range, whatever the others of the tree are.
fn fields_good(record: &[u8], fits: &impl Fn(u8, u8) -> bool) -> bool {
    let numbers = match record[KIND] {
        0 | 1 => fits(record[KIND], record[LEAF]) && count(record) == 0,
        2..=4 => record[LEAF] == 0,
        _ => false,
    };
    let maximum = match record[MARK] {
        0 => true,
        1 => number(record, MAX) == 0,
        _ => false,
    };
    let zeros = record[ZEROS].iter().all(|byte| *byte == 0);
    numbers && maximum && zeros
}
