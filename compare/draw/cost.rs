//! How long a marking can get, so that no sheet keeps the oracle for long.

use common::tree::{Kind, MOST_DEPTH, Tree};
use oracle::bridge::{self, Leaves};
use oracle::doors;

/// What the oracle may be asked in one sheet: so many judgements, or so many
/// for each pair of a derived and a base record if that is more.
const MOST_JUDGEMENTS: u64 = 500_000;
const MOST_A_PAIR: u64 = 16;

/// The sheet does not keep the oracle for long.
pub fn is_small(derived: &Tree, base: &Tree) -> bool {
    let pairs = (derived.records() * base.records()) as u64;
    judgements(derived, base) <= MOST_JUDGEMENTS.max(MOST_A_PAIR * pairs)
}

/// At least as many times as the rule is entered. A derived record meets the
/// base records of its own depth once, and those above it if they are leaves.
/// An element meets a group twice with each of its items, once in each
/// reading: twice as often for each level that the base record is below it.
fn judgements(derived: &Tree, base: &Tree) -> u64 {
    let most = (derived.records() * base.records()) << base.depth();
    if most < 10_000 {
        return most as u64;
    }
    let tidied = |tree| bridge::tree(&doors::normalize(&Leaves::none().particle(tree)));
    let elements = by_depth(&tidied(derived), |tree| tree.kind == Kind::Element);
    let others = by_depth(&tidied(derived), |tree| tree.kind != Kind::Element);
    let records = by_depth(&tidied(base), |_| true);
    let mut sum = 0;
    for i in 0..MOST_DEPTH {
        for j in 0..MOST_DEPTH {
            let twice = if j > i { j - i } else { 0 };
            sum += ((elements[i] * records[j]) << (1 + twice)) + 2 * others[i] * records[j];
        }
    }
    sum
}

/// The number of certain records at each depth; the root's is 0 here.
fn by_depth(tree: &Tree, wanted: impl Fn(&Tree) -> bool) -> [u64; MOST_DEPTH] {
    let mut counts = [0; MOST_DEPTH];
    let mut row = vec![tree];
    for count in &mut counts {
        *count = row.iter().filter(|record| wanted(record)).count() as u64;
        row = row.into_iter().flat_map(|record| &record.items).collect();
    }
    counts
}
