//! What was compared, counted, and the closing line that tells it.

use std::fmt;

use common::answers::{BEYOND, TOO_LARGE};
use common::tree::{KIND, RECORD, count};
use expected::tree::Answers;

use crate::fact_tally::Facts;

#[derive(Default)]
pub struct Tally {
    pub small: u64,
    /// Small trees with pairs that leave them short words.
    pub short: u64,
    pub untidy: u64,
    pub random: u64,
    /// Random trees with a group of more items than a byte can count.
    pub wide: u64,
    pub known: u64,
    pub damaged: u64,
    /// Strings refused with 10, 11, 12, 13, 14.
    refused: [u64; 5],
    accepted: u64,
    /// Records of accepted trees by kind, and empty groups among them.
    records: [u64; 5],
    empty_groups: u64,
    /// Totals: minimum 0, 4294967295, too large; maximum 0, 4294967295, too
    /// large, unbounded.
    edges: [u64; 7],
    pub totals: u64,
    pub emptiable: u64,
    pub items: u64,
    /// Places that no item has.
    pub no_items: u64,
    pub buffers: u64,
    /// Buffers that a tree was tidied into.
    pub tidied: u64,
    /// What tidying did; this has a closing line of its own.
    pub facts: Facts,
}

impl Tally {
    /// Counts a byte string by what is expected of it.
    pub fn string(&mut self, bytes: &[u8], expected: &Answers) {
        match expected.tidied {
            Err(number) => self.refused[number as usize - 10] += 1,
            Ok(_) => self.accept(bytes, expected.total),
        }
    }

    fn accept(&mut self, bytes: &[u8], (min, max): (u64, u64)) {
        self.accepted += 1;
        for record in bytes.chunks_exact(RECORD) {
            let kind = usize::from(record[KIND]);
            self.records[kind] += 1;
            self.empty_groups += u64::from(kind > 1 && count(record) == 0);
        }
        const MOST: u64 = BEYOND - 1;
        let minima = [0, MOST, TOO_LARGE].map(|edge| min == edge);
        let maxima = [0, MOST, TOO_LARGE, BEYOND].map(|edge| max == edge);
        for (count, edge) in self.edges.iter_mut().zip(minima.into_iter().chain(maxima)) {
            *count += u64::from(edge);
        }
    }

    /// Each edge of a total range came up.
    pub fn covers_totals(&self) -> bool {
        self.edges.iter().all(|count| *count > 0)
    }
}

impl fmt::Display for Tally {
    fn fmt(&self, f: &mut fmt::Formatter<'_>) -> fmt::Result {
        let [e, w, s, c, a] = self.records;
        let [r10, r11, r12, r13, r14] = self.refused;
        let [min0, min_top, min_over, max0, max_top, max_over, unbounded] = self.edges;
        write!(
            f,
            "all equal: {} small trees, {} of short words, {} untidy trees, \
             {} random trees ({} of them wide), {} known strings, {} damaged strings; \
             {} accepted (records: {e} elements, {w} wildcards, {s} sequences, {c} choices, \
             {a} all-groups, {} of these groups empty), \
             refused 10: {r10}, 11: {r11}, 12: {r12}, 13: {r13}, 14: {r14}; \
             {} total ranges (minimum 0: {min0}, 4294967295: {min_top}, too large: {min_over}; \
             maximum 0: {max0}, 4294967295: {max_top}, too large: {max_over}, \
             unbounded: {unbounded}), {} emptiable, \
             {} items and {} places without item in {} buffers, \
             tidied into {} buffers",
            self.small,
            self.short,
            self.untidy,
            self.random,
            self.wide,
            self.known,
            self.damaged,
            self.accepted,
            self.empty_groups,
            self.totals,
            self.emptiable,
            self.items,
            self.no_items,
            self.buffers,
            self.tidied,
        )
    }
}
