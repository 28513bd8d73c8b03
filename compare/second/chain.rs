//! Document 02 §1 read a second time: what is refused of a chain, in its order,
//! and the bytes of the joined tree. The buffer is not asked here: 2 comes
//! after all of these.

use common::chain::{self, MOST_LEVELS, count_place};
use common::tree::{Kind, RECORD, record};

use crate::tree;

/// The number of the first refusal, and what shows it.
#[derive(Debug)]
pub struct Refusal {
    pub number: u32,
    pub place: String,
}

/// The records of the joined tree, none for 'no content'; or the first refusal.
pub fn joined(bytes: &[u8]) -> Result<Vec<u8>, Refusal> {
    let refuse = |number, place| Err(Refusal { number, place });
    let Some(counts) = counts(bytes) else {
        return refuse(15, "the levels or the length".into());
    };
    let mut at = count_place(counts.len());
    let mut present: Vec<&[u8]> = Vec::new();
    for (level, count) in (1..).zip(&counts) {
        let own = &bytes[at..at + RECORD * count];
        at += own.len();
        if own.is_empty() {
            continue;
        }
        if let Some(refusal) = tree::first_refusal(own) {
            let place = format!("record {} (from 0) of level {level}", refusal.record);
            return refuse(refusal.number, place);
        }
        present.push(own);
    }
    let joined = join(&present);
    // Its trees are good, so all that can be wrong is its size.
    match if joined.is_empty() { None } else { tree::first_refusal(&joined) } {
        None => Ok(joined),
        Some(tree::Refusal { number: 13, .. }) => refuse(16, "the joined tree's depth".into()),
        Some(tree::Refusal { number: 14, record: 0 }) => {
            refuse(16, "the joined tree's records".into())
        }
        Some(refusal) => panic!("a tree joined of good ones: {refusal:?}"),
    }
}

/// The record count of each level, unless this is refusal 15.
fn counts(bytes: &[u8]) -> Option<Vec<usize>> {
    let counts = chain::counts(bytes)?;
    let total = count_place(counts.len()) + RECORD * counts.iter().sum::<usize>();
    let good = (1..=MOST_LEVELS).contains(&counts.len()) && bytes.len() == total;
    good.then_some(counts)
}

/// Each further tree is the second item of a (1,1) sequence around all before
/// it, so these sequences stand in front of the trees, the last one's first.
fn join(present: &[&[u8]]) -> Vec<u8> {
    let around = record(Kind::Sequence, 2, (1, Some(1)));
    let mut out = around.repeat(present.len().saturating_sub(1));
    present.iter().for_each(|own| out.extend_from_slice(own));
    out
}
