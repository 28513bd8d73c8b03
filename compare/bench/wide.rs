//! Groups of many items, and their sheets against a wildcard.

use common::sheet::{Leaf, Sheet};
use common::tree::{Kind, Pair, Tree};

const ONCE: Pair = (1, Some(1));

pub fn tree(kind: Kind, items: usize) -> Tree {
    Tree::group(kind, ONCE, elements(items))
}

/// Elements with pairs that no rule takes for each other.
pub fn elements(count: usize) -> Vec<Tree> {
    let pairs = [ONCE, (0, Some(1)), (1, None)].into_iter().cycle();
    pairs.take(count).map(|pair| Tree::leaf(Kind::Element, 0, pair)).collect()
}

/// It passes: nothing is outside (0, unbounded), and each member is ok.
pub fn sheet(kind: Kind, items: usize) -> Sheet {
    Sheet {
        leaves: vec![Leaf::element(0), Leaf::wildcard(0)],
        first: vec![0; 4],
        second: vec![0; 4],
        derived: tree(kind, items),
        base: Tree::leaf(Kind::Wildcard, 1, (0, None)),
    }
}
