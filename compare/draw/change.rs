//! A change in one place of a tree that keeps the tree accepted.

use common::random::Rng;
use common::sheet::Leaf;
use common::tree::{MOST_RECORDS, Tree};

/// Changes a record and what is below it; the leaves are the sheet's.
pub type Change = fn(&mut Rng, &mut Tree, &[Leaf]);

/// Makes one of the changes in a random place, every third time at the root.
/// A change that does nothing there, or would make the tree refused, is
/// followed by another attempt, up to 8.
pub fn one(rng: &mut Rng, tree: &mut Tree, leaves: &[Leaf], changes: &[Change]) {
    for _ in 0..8 {
        let mut changed = tree.clone();
        let place = if rng.one_in(3) { 0 } else { rng.below(tree.records()) };
        rng.pick(changes)(rng, changed.record(place), leaves);
        let few = changed.records() <= MOST_RECORDS;
        if changed != *tree && few && second::tree::first_refusal(&changed.encode()).is_none() {
            *tree = changed;
            return;
        }
    }
}
