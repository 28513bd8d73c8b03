//! Document 01's exam sheet and its bytes: written out, and read back from
//! bytes that are known to be accepted. The sheet's layout stands here only (a
//! record's stands in tree.rs).

use std::ops::Range;

use crate::bytes::{put_short, short};
use crate::tree::{Kind, RECORD, Tree};

pub const MOST_LEAVES: usize = 64;
/// The contents, and the places of their fields.
pub const CONTENTS: usize = 8;
pub const LEAVES: usize = 0;
pub const ZERO: usize = 1;
/// 16 bits each, as `bytes::short` reads them.
pub const DERIVED: usize = 2;
pub const BASE: usize = 4;
pub const TOTAL: usize = 6;
/// A leaf, and the places of its fields.
pub const LEAF_BYTES: usize = 4;
pub const LEAF_KIND: usize = 0;
pub const PROCESSING: usize = 1;
/// 16 bits.
pub const NAME: usize = 2;

#[derive(Debug, Clone, Copy, PartialEq, Eq)]
pub struct Leaf {
    /// An element or a wildcard.
    pub kind: Kind,
    /// 0 skip, 1 lax, 2 strict; 0 for an element.
    pub processing: u8,
    /// The local name number; 0 for a wildcard.
    pub name: u16,
}

impl Leaf {
    pub fn element(name: u16) -> Leaf {
        Leaf { kind: Kind::Element, processing: 0, name }
    }

    pub fn wildcard(processing: u8) -> Leaf {
        Leaf { kind: Kind::Wildcard, processing, name: 0 }
    }
}

#[derive(Debug, Clone, PartialEq, Eq)]
pub struct Sheet {
    pub leaves: Vec<Leaf>,
    /// The tables, by rows: row derived, column base (`at`).
    pub first: Vec<u8>,
    pub second: Vec<u8>,
    pub derived: Tree,
    pub base: Tree,
}

impl Sheet {
    /// Where the tables have the verdict on a derived and a base leaf.
    pub fn at(&self, derived: u8, base: u8) -> usize {
        usize::from(derived) * self.leaves.len() + usize::from(base)
    }

    pub fn encode(&self) -> Vec<u8> {
        let leaves = self.leaves.iter().flat_map(|leaf| {
            let mut bytes = [0; LEAF_BYTES];
            bytes[LEAF_KIND] = leaf.kind as u8;
            bytes[PROCESSING] = leaf.processing;
            put_short(&mut bytes, NAME, leaf.name.into());
            bytes
        });
        let bodies = Bodies {
            leaves: leaves.collect(),
            first: self.first.clone(),
            second: self.second.clone(),
            derived: self.derived.encode(),
            base: self.base.encode(),
        };
        bodies.join()
    }

    /// The sheet of bytes that are accepted; panics on most others.
    pub fn decode(bytes: &[u8]) -> Sheet {
        let bodies = Bodies::split(bytes);
        let leaves = bodies.leaves.chunks_exact(LEAF_BYTES).map(|leaf| Leaf {
            kind: Kind::EVERY[usize::from(leaf[LEAF_KIND])],
            processing: leaf[PROCESSING],
            name: short(leaf, NAME),
        });
        Sheet {
            leaves: leaves.collect(),
            derived: Tree::decode(&bodies.derived),
            base: Tree::decode(&bodies.base),
            first: bodies.first,
            second: bodies.second,
        }
    }
}

/// Where the bodies stand in a sheet; the base tree is the last of them.
pub struct Places {
    pub leaves: Range<usize>,
    pub first: Range<usize>,
    pub second: Range<usize>,
    pub derived: Range<usize>,
    pub base: Range<usize>,
}

/// What the contents count: leaves, derived records, base records.
#[derive(Debug, Clone, Copy)]
pub struct Counts {
    pub leaves: usize,
    pub derived: usize,
    pub base: usize,
}

impl Counts {
    /// The counts of a string that has contents, good or not.
    pub fn read(bytes: &[u8]) -> Counts {
        Counts {
            leaves: bytes[LEAVES].into(),
            derived: short(bytes, DERIVED).into(),
            base: short(bytes, BASE).into(),
        }
    }

    /// A count that its field has no room for keeps its lowest bits.
    pub fn put(self, bytes: &mut [u8]) {
        bytes[LEAVES] = self.leaves as u8;
        put_short(bytes, DERIVED, self.derived);
        put_short(bytes, BASE, self.base);
    }

    pub fn places(self) -> Places {
        let n = self.leaves;
        let mut at = CONTENTS;
        let mut body = |length| {
            at += length;
            at - length..at
        };
        Places {
            leaves: body(LEAF_BYTES * n),
            first: body(n * n),
            second: body(n * n),
            derived: body(RECORD * self.derived),
            base: body(RECORD * self.base),
        }
    }
}

/// The bodies of a sheet as byte strings.
#[derive(Debug, Clone)]
pub struct Bodies {
    pub leaves: Vec<u8>,
    pub first: Vec<u8>,
    pub second: Vec<u8>,
    pub derived: Vec<u8>,
    pub base: Vec<u8>,
}

impl Bodies {
    /// Contents that count the bodies, then the bodies. A count or a total that
    /// its field has no room for keeps its lowest bits.
    pub fn join(&self) -> Vec<u8> {
        let counts = Counts {
            leaves: self.leaves.len() / LEAF_BYTES,
            derived: self.derived.len() / RECORD,
            base: self.base.len() / RECORD,
        };
        let mut out = vec![0; CONTENTS];
        counts.put(&mut out);
        for body in [&self.leaves, &self.first, &self.second, &self.derived, &self.base] {
            out.extend_from_slice(body);
        }
        let total = out.len();
        put_short(&mut out, TOTAL, total);
        out
    }

    /// The bodies of a sheet whose contents are good.
    pub fn split(bytes: &[u8]) -> Bodies {
        let places = Counts::read(bytes).places();
        let body = |place: Range<usize>| bytes[place].to_vec();
        Bodies {
            leaves: body(places.leaves),
            first: body(places.first),
            second: body(places.second),
            derived: body(places.derived),
            base: body(places.base),
        }
    }
}

/// Contents, leaves, rows of the tables and records, each by itself; where the
/// counts do not fit the length, all bytes in one row.
pub fn hex(bytes: &[u8]) -> String {
    let digits = |part: &[u8]| part.iter().map(|byte| format!("{byte:02x}")).collect::<String>();
    let fits = |bytes: &[u8]| Counts::read(bytes).places().base.end == bytes.len();
    if bytes.len() < CONTENTS || !fits(bytes) {
        return digits(bytes);
    }
    let bodies = Bodies::split(bytes);
    let n = Counts::read(bytes).leaves.max(1);
    let parts = [
        (&bodies.leaves, LEAF_BYTES),
        (&bodies.first, n),
        (&bodies.second, n),
        (&bodies.derived, RECORD),
        (&bodies.base, RECORD),
    ];
    let mut told = vec![digits(&bytes[..CONTENTS])];
    for (body, length) in parts {
        told.extend(body.chunks(length).map(digits));
    }
    told.join(" ")
}
