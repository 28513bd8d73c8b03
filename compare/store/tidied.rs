//! Tidied trees among the stored answers, to be tidied again (document 02 §8):
//! what the Rust makes of known and of random trees, with what it makes of that,
//! in buffers longer than the tree, exactly as long, and one byte shorter.

use std::collections::HashSet;

use common::notation::parse;
use common::random::Rng;
use common::tree::MOST_RECORDS;
use draw::{disguise, trees};
use expected::tree::{Answers, answers};

use crate::shares::{Round, Stored};
use crate::trees::tidied;

/// Trees that tidying alters, or nearly: a root of maximum 0, one without items,
/// all-groups with what is taken out of others, sequences around a choice.
const KNOWN: [&str; 28] = [
    "a(0,0)",
    "S[]",
    "C[]",
    "A[]",
    "S(0,0)[a,b]",
    "S(0,0)[a(0,0)]",
    "S[a(0,0)]",
    "C[a(0,0)]",
    "C[a,b(0,0)]",
    "C[a,C[]]",
    "C[C[],C[]]",
    "S[C[]]",
    "S(0,1)[C[]]",
    "S(0,0)[C[a,b]]",
    "S(2,3)[C[a,b]]",
    "S(2,3)[S[C[a,b]]]",
    "S(2,3)[C[a,b],w(0,0)]",
    "S(2,3)[C(0,1)[a,b]]",
    "C(2,3)[C[a,b]]",
    "C(2,3)[S[a,b]]",
    "S[C[S[a,b]],w]",
    "S[S(1,2)[a,b],S[S[w]]]",
    "C[S[C[a,b],c(0,0)],e]",
    "C[S(0,*)[C[a,b]],C[w,e]]",
    "A[a(0,0),b]",
    "S[A[a(0,0)]]",
    "S(0,1)[A[a(0,0),b(0,1)]]",
    "C[A(0,1)[a],A[]]",
];

/// How many random trees that tidying alters, each with a tidied tree of its own;
/// up to so many records, and so many changes that tidying mostly takes back.
const RANDOM: usize = 100;
const RECORDS: usize = 8;
const CHANGES: usize = 4;

pub fn store(stored: &mut Stored, seed: u64) {
    let mut rng = Round::TidiedTrees.rng(seed, 0);
    let mut met = HashSet::new();
    for text in KNOWN {
        let bytes = of_rust(&parse(text).encode());
        if met.insert(bytes.clone()) {
            again(stored, &mut rng, &bytes);
        }
    }
    of_many_records(stored, &mut rng);
    let most = met.len() + RANDOM;
    for draw in 1.. {
        let mut rng = Round::TidiedTrees.rng(seed, draw);
        let tree = disguise::tree(&mut rng, RECORDS, CHANGES).encode();
        let bytes = of_rust(&tree);
        if bytes != tree && met.insert(bytes.clone()) {
            again(stored, &mut rng, &bytes);
        }
        if met.len() == most {
            return;
        }
    }
}

/// The tree as the Rust tidies it.
fn of_rust(tree: &[u8]) -> Vec<u8> {
    answers(tree).tidied.expect("a tree of ours")
}

/// What must be answered on a tidied tree.
fn on_tidied(bytes: &[u8]) -> Answers {
    let answers = answers(bytes);
    assert!(answers.tidied.as_deref() == Ok(bytes), "the Rust alters a tidied tree");
    answers
}

fn again(stored: &mut Stored, rng: &mut Rng, bytes: &[u8]) {
    let answers = on_tidied(bytes);
    let length = bytes.len();
    for room in [length + rng.within(1, 20), length, length - 1] {
        let case = tidied(rng, bytes, &answers, room);
        assert!(stored.add(case), "stored already");
    }
}

/// A tree of the most records, and so many of them in its root that a count needs
/// more than a byte once it is tidied.
fn of_many_records(stored: &mut Stored, rng: &mut Rng) {
    loop {
        let tree = trees::usual_tree_of(rng, MOST_RECORDS).encode();
        let bytes = of_rust(&tree);
        let answers = on_tidied(&bytes);
        if bytes != tree && answers.items.len() > 256 {
            let case = tidied(rng, &bytes, &answers, bytes.len());
            assert!(stored.add(case), "stored already");
            return;
        }
    }
}
