//! What tidying did to the accepted trees, counted, and the closing line that
//! tells it.

use std::fmt;

use common::tree::Tree;

use crate::kept::Asked;

/// What is looked for among the trees handed in.
#[derive(Clone, Copy)]
pub enum Sought {
    /// Emptiness lost, with a maximum of 0 below the root and no empty choice.
    EmptinessByZero,
    /// Emptiness lost, with an empty choice below the root and no maximum of 0.
    EmptinessByChoice,
    WordLost,
    /// Altered, though the three sentences of document 02 §8 hold.
    ThreeHold,
    HigherMinimum,
}

/// The words for each, and the records of its smallest trees.
const SOUGHT: [(&str, usize); 5] = [
    ("emptiness lost by a maximum of 0", 3),
    ("emptiness lost by an empty choice", 3),
    ("a word lost", 2),
    ("altered though document 02's three sentences hold", 2),
    ("a higher total minimum", 3),
];

/// How often it came up, and the first tree of all small ones with it.
#[derive(Default)]
struct Times {
    count: u64,
    smallest: Option<Tree>,
}

#[derive(Default)]
pub struct Facts {
    /// Whether the trees now handed in are all small ones by their records, so
    /// that the first of them with something is a smallest.
    pub by_records: bool,
    /// Buffers that a tidied tree was tidied into.
    pub buffers: u64,
    altered: u64,
    alone: u64,
    less_deep: u64,
    /// Trees handed in of which a sentence does not hold, by the sentence.
    broken: [u64; 4],
    /// Altered ones by what stands below their root: neither a maximum of 0 nor
    /// an empty choice, an empty choice alone, a maximum of 0.
    below: [u64; 3],
    /// Those whose words were compared, in the same way, and their words.
    worded: [u64; 3],
    words: u64,
    /// Emptiness lost with both a maximum of 0 and an empty choice.
    emptiness_by_both: u64,
    sought: [Times; 5],
}

/// The place of a tree in `below` and `worded`.
fn place(tree: &Asked) -> usize {
    match (tree.zero_below(), tree.empty_choice_below) {
        (false, false) => 0,
        (false, true) => 1,
        (true, _) => 2,
    }
}

impl Facts {
    /// Counts a tree handed in with its tidied tree.
    pub fn tree(&mut self, before: &Asked, after: &Asked) {
        for (count, holds) in self.broken.iter_mut().zip(before.sentences) {
            *count += u64::from(!holds);
        }
        if before.bytes == after.bytes {
            self.alone += 1;
            return;
        }
        self.altered += 1;
        self.below[place(before)] += 1;
        self.less_deep += u64::from(after.tree.depth() < before.tree.depth());
        if before.sentences[..3].iter().all(|holds| *holds) {
            self.found(Sought::ThreeHold, &before.tree);
        }
    }

    pub fn emptiness_lost(&mut self, before: &Asked) {
        match (before.zero_below(), before.empty_choice_below) {
            (true, false) => self.found(Sought::EmptinessByZero, &before.tree),
            (false, true) => self.found(Sought::EmptinessByChoice, &before.tree),
            _ => self.emptiness_by_both += 1,
        }
    }

    /// Counts the words of an altered tree, and those that are left.
    pub fn words(&mut self, before: &Asked, own: usize, left: usize) {
        self.worded[place(before)] += 1;
        self.words += own as u64;
        if left < own {
            self.found(Sought::WordLost, &before.tree);
        }
    }

    pub fn found(&mut self, sought: Sought, tree: &Tree) {
        let times = &mut self.sought[sought as usize];
        times.count += 1;
        if self.by_records && times.smallest.is_none() {
            times.smallest = Some(tree.clone());
        }
    }

    /// Whether all of it came up, what is sought first at so many records.
    pub fn covered(&self) -> bool {
        let counts = [self.altered, self.alone, self.less_deep, self.emptiness_by_both];
        let mut counts = counts.iter().chain(&self.broken).chain(&self.below).chain(&self.worded);
        let known = |(times, (_, records)): (&Times, (&str, usize))| {
            times.smallest.as_ref().is_some_and(|tree| tree.records() == records)
        };
        counts.all(|count| *count > 0) && self.sought.iter().zip(SOUGHT).all(known)
    }
}

impl fmt::Display for Facts {
    fn fmt(&self, f: &mut fmt::Formatter<'_>) -> fmt::Result {
        let [zero, own_kind, one_item, choice] = self.broken;
        let [neither, empty, zeros] = self.below;
        let [worded, worded_empty, worded_zeros] = self.worded;
        write!(
            f,
            "all tidy: {} trees tidied twice (the second time into {} buffers), \
             {} left alone and {} altered ({} less deep); \
             handed in with a maximum of 0 below the root: {zero}, with a (1,1) item of the \
             group's kind: {own_kind}, with a (1,1) group of one item: {one_item}, with a \
             sequence of one (1,1) choice: {choice}; \
             altered with no maximum of 0 below the root and no empty choice: {neither}, \
             with an empty choice: {empty}, with a maximum of 0: {zeros}; \
             of these the words compared of {worded}, {worded_empty} and {worded_zeros} \
             ({} words)",
            self.alone + self.altered,
            self.buffers,
            self.alone,
            self.altered,
            self.less_deep,
            self.words,
        )?;
        for ((what, _), times) in SOUGHT.iter().zip(&self.sought) {
            write!(f, "; {what}: {}", times.count)?;
            match &times.smallest {
                Some(tree) => write!(f, ", from {} records on ({tree})", tree.records())?,
                None => write!(f, ", by no small tree")?,
            }
        }
        write!(f, "; emptiness lost by both: {}", self.emptiness_by_both)
    }
}
