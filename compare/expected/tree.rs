//! What the entries for one tree must answer on a byte string. The Rust has no
//! refusals, no 'too large' and no item bytes: refusals and total ranges are
//! the second reading's, items the records of the decoded tree. The Rust's own
//! total range is here beside it.

use common::answers::BEYOND;
use common::tree::{RECORD, Tree};
use oracle::bridge::{self, Leaves};
use oracle::doors;

pub struct Answers {
    /// The minimum and the maximum.
    pub total: (u64, u64),
    /// What the Rust answers for it, which has to be the same with the caps;
    /// nothing where the tree is refused.
    pub rust_total: Option<(u64, u64)>,
    pub emptiable: u32,
    /// The root's items, each as its run of records.
    pub items: Vec<Vec<u8>>,
    /// The tidied tree, or the number of the refusal.
    pub tidied: Result<Vec<u8>, u32>,
    /// What the Rust makes of its own tidied tree when it is asked to tidy that;
    /// nothing where the tree is refused.
    pub tidied_again: Option<Vec<u8>>,
}

pub fn answers(bytes: &[u8]) -> Answers {
    match second::tree::first_refusal(bytes) {
        Some(refusal) => refused(refusal.number),
        None => accepted(bytes),
    }
}

fn refused(number: u32) -> Answers {
    let beyond = BEYOND + u64::from(number);
    Answers {
        total: (beyond, beyond),
        rust_total: None,
        emptiable: number,
        items: Vec::new(),
        tidied: Err(number),
        tidied_again: None,
    }
}

fn accepted(bytes: &[u8]) -> Answers {
    let tree = Tree::decode(bytes);
    assert!(tree.encode() == bytes, "reading and writing a tree is not the identity");
    let particle = Leaves::none().particle(&tree);
    let (min, max) = doors::effective_total_range(&particle);
    let tidied = doors::normalize(&particle);
    Answers {
        total: second::total::total(&tree),
        rust_total: Some((min.into(), max.map_or(BEYOND, u64::from))),
        emptiable: doors::emptiable(&particle).into(),
        items: tree.items.iter().map(Tree::encode).collect(),
        tidied: Ok(bridge::tree(&tidied).encode()),
        tidied_again: Some(bridge::tree(&doors::normalize(&tidied)).encode()),
    }
}

impl Answers {
    /// The answer of tidying a tree of `length` bytes into a buffer of `room`,
    /// and what is written to its start. Refusal 2, a buffer shorter than the
    /// tree handed in, comes last.
    pub fn tidied_into(&self, length: usize, room: usize) -> (u64, &[u8]) {
        match &self.tidied {
            Err(number) => (BEYOND + u64::from(*number), &[]),
            Ok(_) if room < length => (BEYOND + 2, &[]),
            Ok(bytes) => ((bytes.len() / RECORD) as u64, bytes),
        }
    }

    /// The length of the k-th item, 0 where there is none, and what is written
    /// to the start of a buffer of `room` bytes: an item that does not fit is
    /// not written.
    pub fn item_into(&self, k: usize, room: usize) -> (usize, &[u8]) {
        let item = self.items.get(k).map_or(&[][..], |item| item);
        (item.len(), if item.len() <= room { item } else { &[] })
    }
}
