//! Sheets, trees and chains as Rust values, and their bytes. Take this file into
//! a crate as a module beside marker.rs (`mod marker; mod sheet;`). It uses `core`
//! and `alloc`: trees are values that own their items, which is handier than calls
//! in the bytes' order, as link/sheet.h has them for a buffer.
//!
//! What is encoded has document 01's layout and limits: a sheet or a tree is not
//! refused, a chain with 16 at most (its joined tree is over the limits). This is
//! tested (link/test_sheet.rs), not proved. What breaks a limit is a `BuildError`.

// A program may use a part of it.
#![allow(dead_code)]

extern crate alloc;

use alloc::{vec, vec::Vec};
use core::fmt;

use super::marker::{MOST_DEPTH, MOST_LEAVES, MOST_LEVELS, MOST_RECORDS, RECORD};

// The layout (docs/LAYOUT.md): sizes, and places in the contents, a leaf, a record.
const CONTENTS_SIZE: usize = 8;
const LEAF_SIZE: usize = 4;
const AT_LEAVES: usize = 0;
const AT_DERIVED: usize = 2;
const AT_BASE: usize = 4;
const AT_TOTAL: usize = 6;
const AT_LEAF_KIND: usize = 0;
const AT_PROCESS: usize = 1;
const AT_NAME: usize = 2;
const AT_KIND: usize = 0;
const AT_LEAF: usize = 1;
const AT_COUNT: usize = 2;
const AT_UNBOUNDED: usize = 4;
const AT_MIN: usize = 8;
const AT_MAX: usize = 12;

// The kinds of a record; the first two are a leaf's too.
const ELEMENT: u8 = 0;
const WILDCARD: u8 = 1;
const SEQUENCE: u8 = 2;
const CHOICE: u8 = 3;
const ALL: u8 = 4;

// The reasons that a paper sets.
const LEAST_SET: u8 = 140;
const MOST_SET: u8 = 152;

/// Why there are no bytes. It displays as a sentence.
#[derive(Debug, Clone, Copy, PartialEq, Eq, Hash)]
pub enum BuildError {
    /// A sheet has no leaves.
    NoLeaves,
    /// A sheet has over 64 leaves.
    TooManyLeaves,
    /// No leaf of the sheet has this number and kind; of a tree alone, or of a
    /// chain: the number is above 63.
    UnknownLeaf(Leaf),
    /// A verdict with this reason, which is not from 140 to 152.
    NoVerdict(u8),
    /// The minimum is above the maximum.
    Pair(u32, u32),
    /// An all-group's maximum isn't 1, or an all's item is no element.
    AllGroup,
    /// A tree's depth is above 12.
    TooDeep,
    /// A tree has over 1000 records.
    TooManyRecords,
    /// A chain has 0 or over 17 levels: so many.
    Levels(usize),
    /// The bytes are no tree.
    NoTree,
}

impl fmt::Display for BuildError {
    fn fmt(&self, f: &mut fmt::Formatter<'_>) -> fmt::Result {
        match self {
            BuildError::NoLeaves => f.write_str("a sheet without leaves"),
            BuildError::TooManyLeaves => write!(f, "a sheet of over {MOST_LEAVES} leaves"),
            BuildError::UnknownLeaf(leaf) => write!(f, "no leaf is {leaf:?}"),
            BuildError::NoVerdict(reason) => write!(f, "no verdict has the reason {reason}"),
            BuildError::Pair(min, max) => write!(f, "the minimum {min} is above the maximum {max}"),
            BuildError::AllGroup => {
                f.write_str("an all-group's maximum isn't 1, or an all's item is no element")
            }
            BuildError::TooDeep => write!(f, "the depth is above {MOST_DEPTH}"),
            BuildError::TooManyRecords => write!(f, "a tree of over {MOST_RECORDS} records"),
            BuildError::Levels(levels) => write!(f, "{levels} levels, not 1 to {MOST_LEVELS}"),
            BuildError::NoTree => f.write_str("the bytes are no tree"),
        }
    }
}

impl core::error::Error for BuildError {}

/// A leaf: its kind, and its number among the leaves of its sheet.
#[derive(Debug, Clone, Copy, PartialEq, Eq, Hash)]
pub enum Leaf {
    Element(u8),
    Wildcard(u8),
}

impl Leaf {
    /// The leaf as a particle with the pair (1,1).
    pub fn once(self) -> Particle {
        Particle::once(Term::Leaf(self))
    }

    /// The leaf as a particle; a maximum of `None` is unbounded.
    pub fn occurs(self, min: u32, max: impl Into<Option<u32>>) -> Particle {
        self.once().occurs(min, max)
    }

    // Its kind and its number.
    fn fields(self) -> (u8, u8) {
        match self {
            Leaf::Element(number) => (ELEMENT, number),
            Leaf::Wildcard(number) => (WILDCARD, number),
        }
    }
}

/// A wildcard's process contents.
#[derive(Debug, Clone, Copy, PartialEq, Eq, Hash)]
pub enum Process {
    Skip = 0,
    Lax = 1,
    Strict = 2,
}

/// What a table says of a derived and a base leaf.
#[derive(Debug, Clone, Copy, PartialEq, Eq, Hash)]
pub enum Verdict {
    Ok,
    Undecided,
    /// A reason that the paper sets, from 140 to 152.
    Reason(u8),
}

impl Verdict {
    fn number(self) -> Result<u8, BuildError> {
        match self {
            Verdict::Ok => Ok(0),
            Verdict::Undecided => Ok(1),
            Verdict::Reason(reason @ LEAST_SET..=MOST_SET) => Ok(reason),
            Verdict::Reason(other) => Err(BuildError::NoVerdict(other)),
        }
    }
}

/// A tree: a leaf or a group, and how often it occurs.
#[derive(Debug, Clone, PartialEq, Eq, Hash)]
pub struct Particle {
    pub term: Term,
    pub min: u32,
    /// `None` is unbounded.
    pub max: Option<u32>,
}

/// A leaf, or a group with its items.
#[derive(Debug, Clone, PartialEq, Eq, Hash)]
pub enum Term {
    Leaf(Leaf),
    Sequence(Vec<Particle>),
    Choice(Vec<Particle>),
    All(Vec<Particle>),
}

impl Particle {
    fn once(term: Term) -> Particle {
        Particle { term, min: 1, max: Some(1) }
    }

    /// A sequence of these items, with the pair (1,1).
    pub fn sequence(items: impl Into<Vec<Particle>>) -> Particle {
        Particle::once(Term::Sequence(items.into()))
    }

    /// A choice of these items, with the pair (1,1).
    pub fn choice(items: impl Into<Vec<Particle>>) -> Particle {
        Particle::once(Term::Choice(items.into()))
    }

    /// An all-group of these items, with the pair (1,1).
    pub fn all(items: impl Into<Vec<Particle>>) -> Particle {
        Particle::once(Term::All(items.into()))
    }

    /// The same with another pair; a maximum of `None` is unbounded.
    pub fn occurs(self, min: u32, max: impl Into<Option<u32>>) -> Particle {
        Particle { min, max: max.into(), ..self }
    }

    /// The bytes of a tree alone, whose leaf numbers are below `MOST_LEAVES`.
    pub fn encode(&self) -> Result<Vec<u8>, BuildError> {
        Tree::encode(self, None)
    }

    /// The tree that has these bytes, as `marker::effective_particle` or
    /// `marker::tidy` writes them, or `marker::item` finds them.
    pub fn decode(tree: &[u8]) -> Result<Particle, BuildError> {
        let mut rest = tree;
        let particle = decode_item(&mut rest, 1)?;
        // A field that has another value than a record's is encoded otherwise.
        if rest.is_empty() && particle.encode()? == tree {
            Ok(particle)
        } else {
            Err(BuildError::NoTree)
        }
    }
}

// The tree at the start of the bytes, which are left behind.
fn decode_item(bytes: &mut &[u8], depth: usize) -> Result<Particle, BuildError> {
    if depth > MOST_DEPTH {
        return Err(BuildError::TooDeep);
    }
    if bytes.len() < RECORD {
        return Err(BuildError::NoTree);
    }
    let (record, rest) = bytes.split_at(RECORD);
    *bytes = rest;
    let number = |at: usize| {
        u32::from_le_bytes([record[at], record[at + 1], record[at + 2], record[at + 3]])
    };
    let count = u16::from_le_bytes([record[AT_COUNT], record[AT_COUNT + 1]]);
    let mut items = Vec::new();
    for _ in 0..count {
        items.push(decode_item(bytes, depth + 1)?);
    }
    let term = match record[AT_KIND] {
        ELEMENT => Term::Leaf(Leaf::Element(record[AT_LEAF])),
        WILDCARD => Term::Leaf(Leaf::Wildcard(record[AT_LEAF])),
        SEQUENCE => Term::Sequence(items),
        CHOICE => Term::Choice(items),
        ALL => Term::All(items),
        _ => return Err(BuildError::NoTree),
    };
    let max = if record[AT_UNBOUNDED] == 0 { Some(number(AT_MAX)) } else { None };
    Ok(Particle { term, min: number(AT_MIN), max })
}

// The leaves of a sheet; `None` for a tree alone, which does not know them.
type Leaves<'a> = Option<&'a [[u8; LEAF_SIZE]]>;

// A tree's bytes, as they are written.
struct Tree<'a> {
    bytes: Vec<u8>,
    leaves: Leaves<'a>,
}

impl Tree<'_> {
    fn encode(particle: &Particle, leaves: Leaves<'_>) -> Result<Vec<u8>, BuildError> {
        let mut tree = Tree { bytes: Vec::new(), leaves };
        tree.put(particle, 1)?;
        Ok(tree.bytes)
    }

    fn put(&mut self, particle: &Particle, depth: usize) -> Result<(), BuildError> {
        let (kind, leaf, items) = match &particle.term {
            Term::Leaf(leaf) => (leaf.fields().0, known(self.leaves, *leaf)?, &[][..]),
            Term::Sequence(items) => (SEQUENCE, 0, &items[..]),
            Term::Choice(items) => (CHOICE, 0, &items[..]),
            Term::All(items) => (ALL, 0, &items[..]),
        };
        if let Some(max) = particle.max.filter(|max| particle.min > *max) {
            return Err(BuildError::Pair(particle.min, max));
        }
        let element = |item: &Particle| matches!(item.term, Term::Leaf(Leaf::Element(_)));
        if kind == ALL && !(particle.max == Some(1) && items.iter().all(element)) {
            return Err(BuildError::AllGroup);
        }
        if depth > MOST_DEPTH {
            return Err(BuildError::TooDeep);
        }
        // With the items that are to come; so every count has its 16 bits.
        if self.bytes.len() / RECORD + items.len() >= MOST_RECORDS {
            return Err(BuildError::TooManyRecords);
        }
        let mut record = [0; RECORD];
        record[AT_KIND] = kind;
        record[AT_LEAF] = leaf;
        put(&mut record, AT_COUNT, &(items.len() as u16).to_le_bytes());
        record[AT_UNBOUNDED] = u8::from(particle.max.is_none());
        put(&mut record, AT_MIN, &particle.min.to_le_bytes());
        put(&mut record, AT_MAX, &particle.max.unwrap_or(0).to_le_bytes());
        self.bytes.extend(record);
        items.iter().try_for_each(|item| self.put(item, depth + 1))
    }
}

// Writes bytes over those from a place on.
fn put(bytes: &mut [u8], at: usize, value: &[u8]) {
    bytes[at..at + value.len()].copy_from_slice(value);
}

// The number of a leaf that is there and of its kind.
fn known(leaves: Leaves<'_>, leaf: Leaf) -> Result<u8, BuildError> {
    let (kind, number) = leaf.fields();
    let place = usize::from(number);
    let there = match leaves {
        Some(leaves) => leaves.get(place).is_some_and(|fields| fields[AT_LEAF_KIND] == kind),
        None => place < MOST_LEAVES,
    };
    there.then_some(number).ok_or(BuildError::UnknownLeaf(leaf))
}

/// A sheet's leaves and its verdicts, two tables. Unless told otherwise, equal
/// leaves are ok and others have the reason 140, in both.
#[derive(Debug, Clone, Default)]
pub struct Sheet {
    leaves: Vec<[u8; LEAF_SIZE]>,
    // Table, derived leaf, base leaf, verdict; the last one counts.
    verdicts: Vec<(usize, usize, usize, u8)>,
}

impl Sheet {
    /// A sheet without leaves.
    pub fn new() -> Sheet {
        Sheet::default()
    }

    /// Adds an element with this local name number.
    pub fn element(&mut self, name: u16) -> Result<Leaf, BuildError> {
        self.add(ELEMENT, 0, name).map(Leaf::Element)
    }

    /// Adds a wildcard.
    pub fn wildcard(&mut self, process: Process) -> Result<Leaf, BuildError> {
        self.add(WILDCARD, process as u8, 0).map(Leaf::Wildcard)
    }

    fn add(&mut self, kind: u8, process: u8, name: u16) -> Result<u8, BuildError> {
        if self.leaves.len() == MOST_LEAVES {
            return Err(BuildError::TooManyLeaves);
        }
        let mut leaf = [0; LEAF_SIZE];
        leaf[AT_LEAF_KIND] = kind;
        leaf[AT_PROCESS] = process;
        put(&mut leaf, AT_NAME, &name.to_le_bytes());
        self.leaves.push(leaf);
        Ok((self.leaves.len() - 1) as u8)
    }

    /// Sets what the first table says of a derived and a base leaf.
    pub fn first(&mut self, derived: Leaf, base: Leaf, is: Verdict) -> Result<(), BuildError> {
        self.set(0, derived, base, is)
    }

    /// Sets what the second table says of a derived and a base leaf.
    pub fn second(&mut self, derived: Leaf, base: Leaf, is: Verdict) -> Result<(), BuildError> {
        self.set(1, derived, base, is)
    }

    fn set(&mut self, table: usize, d: Leaf, b: Leaf, is: Verdict) -> Result<(), BuildError> {
        let (row, column) = (known(Some(&self.leaves), d)?, known(Some(&self.leaves), b)?);
        self.verdicts.push((table, row.into(), column.into(), is.number()?));
        Ok(())
    }

    /// The bytes of the sheet with these trees.
    pub fn encode(&self, derived: &Particle, base: &Particle) -> Result<Vec<u8>, BuildError> {
        let n = self.leaves.len();
        if n == 0 {
            return Err(BuildError::NoLeaves);
        }
        let mut tables = vec![LEAST_SET; 2 * n * n];
        (0..2 * n).for_each(|row| tables[row * n + row % n] = 0);
        for &(table, row, column, verdict) in &self.verdicts {
            tables[(table * n + row) * n + column] = verdict;
        }
        let derived = Tree::encode(derived, Some(&self.leaves))?;
        let base = Tree::encode(base, Some(&self.leaves))?;
        let leaves = self.leaves.concat();
        let mut bytes = [&[0; CONTENTS_SIZE][..], &leaves, &tables, &derived, &base].concat();
        let total = bytes.len();
        bytes[AT_LEAVES] = n as u8;
        put(&mut bytes, AT_DERIVED, &((derived.len() / RECORD) as u16).to_le_bytes());
        put(&mut bytes, AT_BASE, &((base.len() / RECORD) as u16).to_le_bytes());
        put(&mut bytes, AT_TOTAL, &(total as u16).to_le_bytes());
        Ok(bytes)
    }
}

/// The bytes of a chain of trees that extend one another, root type first; a level
/// of `None` has no tree.
pub fn encode_chain(levels: &[Option<Particle>]) -> Result<Vec<u8>, BuildError> {
    if levels.is_empty() || levels.len() > MOST_LEVELS {
        return Err(BuildError::Levels(levels.len()));
    }
    let (mut counts, mut trees) = (vec![levels.len() as u8], Vec::new());
    for level in levels {
        let tree = level.as_ref().map_or(Ok(Vec::new()), Particle::encode)?;
        counts.extend(((tree.len() / RECORD) as u16).to_le_bytes());
        trees.extend(tree);
    }
    counts.extend(trees);
    Ok(counts)
}
