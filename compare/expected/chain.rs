//! What `effective_particle` must answer on a chain: the second reading's
//! refusal, or the oracle's joined tree. The second reading joins bytes too, and
//! must come to the oracle's tree.

use common::answers::BEYOND;
use common::chain;
use common::tree::{MOST_DEPTH, MOST_RECORDS, RECORD, Tree};
use oracle::bridge;

pub struct Answer {
    /// The joined tree's records, none for 'no content'; or the number of the
    /// refusal.
    pub joined: Result<Vec<u8>, u32>,
}

pub fn effective_particle(bytes: &[u8]) -> Answer {
    match second::chain::joined(bytes) {
        Err(refusal) if refusal.number < 16 => Answer { joined: Err(refusal.number) },
        read => Answer { joined: of_good_trees(bytes, read.ok()) },
    }
}

/// The chain's trees are good each; `read` is what the second reading joins
/// them to, unless it refuses that.
fn of_good_trees(bytes: &[u8], read: Option<Vec<u8>>) -> Result<Vec<u8>, u32> {
    let chain = chain::decode(bytes);
    assert!(chain::encode(&chain) == bytes, "reading and writing a chain is not the identity");
    let tree = bridge::effective_particle(&chain);
    let over = |tree: &Tree| tree.records() > MOST_RECORDS || tree.depth() > MOST_DEPTH;
    let joined = match &tree {
        Some(tree) if over(tree) => None,
        Some(tree) => Some(tree.encode()),
        None => Some(Vec::new()),
    };
    assert!(joined == read, "the second reading joins otherwise than the oracle");
    joined.ok_or(16)
}

impl Answer {
    /// The answer for a buffer of `room` bytes, and what is written to its
    /// start. Refusal 2, a buffer shorter than the joined tree, comes last.
    pub fn joined_into(&self, room: usize) -> (u64, &[u8]) {
        match &self.joined {
            Err(number) => (BEYOND + u64::from(*number), &[]),
            Ok(joined) if room < joined.len() => (BEYOND + 2, &[]),
            Ok(joined) => ((joined.len() / RECORD) as u64, joined),
        }
    }
}
