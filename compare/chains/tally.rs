//! What was compared on chains, counted, and the closing line that tells it.

use std::fmt;

use common::answers::BEYOND;
use common::chain::{self, LEVELS, MOST_LEVELS};
use common::tree::{MOST_DEPTH, MOST_RECORDS, Tree};
use expected::chain::Answer;

/// The refusals, in their order.
const REFUSALS: [u32; 8] = [15, 10, 11, 12, 13, 14, 16, 2];

#[derive(Default)]
pub struct Tally {
    pub known: u64,
    pub lengths: u64,
    pub small: u64,
    pub random: u64,
    /// Random chains with a group of more items than a byte can count.
    pub wide: u64,
    pub damaged: u64,
    pub longer: u64,
    /// Joined trees that were the base of a sheet.
    pub bases: u64,
    /// Chains that are not refused, by their levels.
    levels: [u64; MOST_LEVELS + 1],
    /// Joined trees of one tree, of two, of more.
    joined: [u64; 3],
    /// Joined trees of the most records, and of the most depth.
    most: [u64; 2],
    /// Calls: those with a joined tree, those with 'no content', the refused
    /// ones by number.
    written: u64,
    no_content: u64,
    refused: [u64; 17],
}

impl Tally {
    /// Counts a chain by what is expected of it.
    pub fn chain(&mut self, bytes: &[u8], expected: &Answer) {
        let Ok(joined) = &expected.joined else {
            return;
        };
        self.levels[usize::from(bytes[LEVELS])] += 1;
        if !joined.is_empty() {
            let present = chain::levels(bytes).iter().filter(|own| !own.is_empty()).count();
            self.joined[present.min(3) - 1] += 1;
            let tree = Tree::decode(joined);
            self.most[0] += u64::from(tree.records() == MOST_RECORDS);
            self.most[1] += u64::from(tree.depth() == MOST_DEPTH);
        }
    }

    /// Counts the answer of a call.
    pub fn answer(&mut self, answer: u64) {
        match answer.checked_sub(BEYOND) {
            Some(number) => self.refused[number as usize] += 1,
            None if answer == 0 => self.no_content += 1,
            None => self.written += 1,
        }
    }

    /// What did not come up.
    pub fn missing(&self) -> Vec<String> {
        let mut counts = vec![
            ("no content".into(), self.no_content),
            ("a base of a sheet".into(), self.bases),
            ("a wide group".into(), self.wide),
            ("a joined tree of the most records".into(), self.most[0]),
            ("a joined tree of the most depth".into(), self.most[1]),
        ];
        let joined = self.joined.iter().zip(["one tree", "two trees", "more trees"]);
        counts.extend(joined.map(|(count, of)| (format!("joined of {of}"), *count)));
        counts.extend((1..=MOST_LEVELS).map(|n| (format!("{n} levels"), self.levels[n])));
        counts.extend(REFUSALS.map(|n| (format!("refused {n}"), self.refused[n as usize])));
        counts.into_iter().filter(|(_, count)| *count == 0).map(|(what, _)| what).collect()
    }
}

impl fmt::Display for Tally {
    fn fmt(&self, f: &mut fmt::Formatter<'_>) -> fmt::Result {
        let refused = REFUSALS.map(|n| format!("{n}: {}", self.refused[n as usize]));
        let [lone, two, more] = self.joined;
        let [records, depth] = self.most;
        write!(
            f,
            "all equal: {} known chains, {} lengths, {} small chains, {} random chains \
             ({} of them wide), {} damaged chains; \
             joined of one tree {lone}, of two {two}, of more {more} \
             (of the most records {records}, of the most depth {depth}, \
             base of a sheet {}); answers: joined {}, no content {}, refused {}; \
             {} longer chains, of which the original drops what it inherits",
            self.known,
            self.lengths,
            self.small,
            self.random,
            self.wide,
            self.damaged,
            self.bases,
            self.written,
            self.no_content,
            refused.join(", "),
            self.longer,
        )
    }
}
