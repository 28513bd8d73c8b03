//! What document 02 §8 says of a tidy tree, read from the tree as it stands:
//! nothing here tidies, and nothing is taken from what does.

use common::tree::{Kind, Pair, Tree};

/// The three sentences of document 02 §8, and a fourth, from document 01's rule
/// for another sequence: where all four hold, tidying has nothing to do.
pub const SENTENCES: [&str; 4] = [
    "below the root, outside all-groups, no item of maximum 0",
    "no sequence or choice that holds a (1,1) item of its own kind",
    "no (1,1) sequence or choice that holds exactly one item",
    "no sequence that holds exactly one item, a (1,1) choice",
];

const ONCE: Pair = (1, Some(1));

/// Which of the sentences hold of a tree.
pub fn sentences(tree: &Tree) -> [bool; 4] {
    let mut hold = [true; 4];
    read(tree, &mut hold);
    hold
}

fn read(group: &Tree, hold: &mut [bool; 4]) {
    if !matches!(group.kind, Kind::Sequence | Kind::Choice) {
        return;
    }
    for item in &group.items {
        hold[0] &= item.pair.1 != Some(0);
        hold[1] &= item.kind != group.kind || item.pair != ONCE;
        read(item, hold);
    }
    if let [only] = &group.items[..] {
        hold[2] &= group.pair != ONCE;
        hold[3] &= group.kind != Kind::Sequence || only.kind != Kind::Choice || only.pair != ONCE;
    }
}

/// Whether an empty choice stands below the root.
pub fn empty_choice_below(tree: &Tree) -> bool {
    let is_one = |item: &Tree| item.kind == Kind::Choice && item.items.is_empty();
    tree.items.iter().any(|item| is_one(item) || empty_choice_below(item))
}
