//! A tree of document 01, and its records: written out, and read back from
//! bytes that are known to be accepted. The record's layout stands here only.

use std::ops::Range;

use crate::bytes::{number, put_number, put_short, short};

pub const RECORD: usize = 16;
pub const MOST_RECORDS: usize = 1000;
pub const MOST_DEPTH: usize = 12;
/// Places of a record's fields.
pub const KIND: usize = 0;
pub const LEAF: usize = 1;
/// 16 bits, which `count` reads.
pub const COUNT: usize = 2;
pub const MARK: usize = 4;
pub const ZEROS: Range<usize> = 5..8;
/// 32 bits each, as `bytes::number` reads them.
pub const MIN: usize = 8;
pub const MAX: usize = 12;

#[derive(Debug, Clone, Copy, PartialEq, Eq)]
pub enum Kind {
    Element,
    Wildcard,
    Sequence,
    Choice,
    All,
}

impl Kind {
    pub const EVERY: [Kind; 5] =
        [Kind::Element, Kind::Wildcard, Kind::Sequence, Kind::Choice, Kind::All];

    pub fn is_leaf(self) -> bool {
        matches!(self, Kind::Element | Kind::Wildcard)
    }
}

/// A maximum of `None` is unbounded.
pub type Pair = (u32, Option<u32>);

#[derive(Debug, Clone, PartialEq, Eq)]
pub struct Tree {
    pub kind: Kind,
    /// 0 for a group.
    pub leaf: u8,
    pub pair: Pair,
    /// Empty for a leaf.
    pub items: Vec<Tree>,
}

impl Tree {
    pub fn leaf(kind: Kind, leaf: u8, pair: Pair) -> Tree {
        Tree { kind, leaf, pair, items: Vec::new() }
    }

    pub fn group(kind: Kind, pair: Pair, items: Vec<Tree>) -> Tree {
        Tree { kind, leaf: 0, pair, items }
    }

    pub fn records(&self) -> usize {
        1 + self.items.iter().map(Tree::records).sum::<usize>()
    }

    pub fn depth(&self) -> usize {
        1 + self.items.iter().map(Tree::depth).max().unwrap_or(0)
    }

    /// Whether a group has more items than a byte can count.
    pub fn is_wide(&self) -> bool {
        self.items.len() > u8::MAX.into() || self.items.iter().any(Tree::is_wide)
    }

    /// The record `k` (from 0) with what is below it.
    pub fn record(&mut self, k: usize) -> &mut Tree {
        if k == 0 {
            return self;
        }
        let mut k = k - 1;
        for item in &mut self.items {
            let records = item.records();
            if k < records {
                return item.record(k);
            }
            k -= records;
        }
        panic!("no such record")
    }

    pub fn encode(&self) -> Vec<u8> {
        let mut out = Vec::new();
        self.write(&mut out);
        out
    }

    fn write(&self, out: &mut Vec<u8>) {
        let mut record = record(self.kind, self.items.len(), self.pair);
        assert!(count(&record) == self.items.len(), "more items than a count can tell");
        record[LEAF] = self.leaf;
        out.extend(record);
        for item in &self.items {
            item.write(out);
        }
    }

    /// The tree of bytes that are accepted; panics on others.
    pub fn decode(bytes: &[u8]) -> Tree {
        let mut records = bytes.chunks_exact(RECORD);
        let tree = Tree::read(&mut records);
        assert!(records.next().is_none(), "records after the tree");
        tree
    }

    fn read<'a>(records: &mut impl Iterator<Item = &'a [u8]>) -> Tree {
        let record = records.next().expect("a record");
        Tree {
            kind: Kind::EVERY[usize::from(record[KIND])],
            leaf: record[LEAF],
            pair: pair(record),
            items: (0..count(record)).map(|_| Tree::read(records)).collect(),
        }
    }
}

/// A record with these fields, and all others 0.
pub fn record(kind: Kind, count: usize, pair: Pair) -> [u8; RECORD] {
    let mut record = [0; RECORD];
    record[KIND] = kind as u8;
    put_count(&mut record, count);
    put_pair(&mut record, pair);
    record
}

/// The item count of a record.
#[inline]
pub fn count(record: &[u8]) -> usize {
    short(record, COUNT).into()
}

/// A count that the field has no room for keeps its lowest bits.
pub fn put_count(record: &mut [u8], count: usize) {
    put_short(record, COUNT, count);
}

/// Minimum and maximum of an accepted record.
#[inline]
pub fn pair(record: &[u8]) -> Pair {
    (number(record, MIN), (record[MARK] == 0).then(|| number(record, MAX)))
}

/// Sets minimum, maximum and unbounded mark of a record.
pub fn put_pair(record: &mut [u8], (min, max): Pair) {
    record[MARK] = max.is_none().into();
    put_number(record, MIN, min);
    put_number(record, MAX, max.unwrap_or(0));
}
