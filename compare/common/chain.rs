//! Document 02 §1's chain of trees and its bytes: written out, and read back
//! from bytes whose length is as the counts say. The chain's layout stands here
//! only (a record's stands in tree.rs).

use crate::bytes::{put_short, short};
use crate::tree::{RECORD, Tree};

pub const MOST_LEVELS: usize = 17;
/// The byte with the number of levels.
pub const LEVELS: usize = 0;
/// The record counts, one after another: where they start, and how long each
/// is; 16 bits, as `bytes::short` reads them.
pub const COUNTS: usize = 1;
pub const COUNT_BYTES: usize = 2;

/// Root type first; an absent level is `None`.
pub type Chain = Vec<Option<Tree>>;

pub fn encode(chain: &[Option<Tree>]) -> Vec<u8> {
    let records = |own: &Option<Tree>| own.as_ref().map_or(Vec::new(), Tree::encode);
    write(&chain.iter().map(records).collect::<Vec<_>>())
}

/// The chain of bytes whose trees are accepted; panics on most others.
pub fn decode(bytes: &[u8]) -> Chain {
    let own = |records: &[u8]| (!records.is_empty()).then(|| Tree::decode(records));
    levels(bytes).into_iter().map(own).collect()
}

/// Counts of the levels' records, then the records. What needs more bits than
/// its field has keeps its lowest.
pub fn write(levels: &[Vec<u8>]) -> Vec<u8> {
    let mut out = vec![0; count_place(levels.len())];
    out[LEVELS] = levels.len() as u8;
    for (level, records) in levels.iter().enumerate() {
        put_short(&mut out, count_place(level), records.len() / RECORD);
    }
    levels.iter().for_each(|records| out.extend(records));
    out
}

/// Where the record count of a level (from 0) stands; that of the level after
/// the last is where the records start.
pub fn count_place(level: usize) -> usize {
    COUNTS + COUNT_BYTES * level
}

/// The record counts that the levels' number asks for; none where there are
/// fewer bytes.
pub fn counts(bytes: &[u8]) -> Option<Vec<usize>> {
    let places = (0..usize::from(*bytes.get(LEVELS)?)).map(count_place);
    places.map(|at| (at + COUNT_BYTES <= bytes.len()).then(|| short(bytes, at).into())).collect()
}

/// The records of each level, none for an absent one.
pub fn levels(bytes: &[u8]) -> Vec<&[u8]> {
    let counts = counts(bytes).expect("counts");
    let mut rest = &bytes[count_place(counts.len())..];
    let level = |count: usize| {
        let (own, others) = rest.split_at(RECORD * count);
        rest = others;
        own
    };
    counts.into_iter().map(level).collect()
}

/// The levels in document 01's notation.
pub fn text(chain: &[Option<Tree>]) -> String {
    let level = |own: &Option<Tree>| own.as_ref().map_or("absent".into(), Tree::to_string);
    chain.iter().map(level).collect::<Vec<_>>().join("; ")
}
