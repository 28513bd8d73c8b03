//! Changes that tidying mostly takes back: groups of one item around a record,
//! items of maximum 0, runs of items put into a group of the group's own kind,
//! a choice's pair on a sequence around it.

use common::random::Rng;
use common::sheet::Leaf;
use common::tree::{Kind, Tree};

use crate::change::{self, Change};
use crate::trees;

pub const CHANGES: [Change; 4] = [wrap, absent_item, own_kind, pair_outside];

/// A tree of usual pairs with up to so many records, and then with up to so many
/// of the changes.
pub fn tree(rng: &mut Rng, records: usize, changes: usize) -> Tree {
    let records = rng.within(1, records);
    let mut tree = trees::usual_tree_of(rng, records);
    for _ in 0..rng.below(changes + 1) {
        change::one(rng, &mut tree, &[Leaf::element(0), Leaf::element(1)], &CHANGES);
    }
    tree
}

fn wrap(rng: &mut Rng, record: &mut Tree, _: &[Leaf]) {
    let kind = rng.pick(&[Kind::Sequence, Kind::Choice]);
    around(record, kind);
}

fn absent_item(rng: &mut Rng, record: &mut Tree, leaves: &[Leaf]) {
    if matches!(record.kind, Kind::Sequence | Kind::Choice) {
        let leaf = rng.below(leaves.len());
        let item = Tree::leaf(leaves[leaf].kind, leaf as u8, (0, Some(0)));
        record.items.insert(rng.below(record.items.len() + 1), item);
    }
}

fn own_kind(rng: &mut Rng, record: &mut Tree, _: &[Leaf]) {
    if matches!(record.kind, Kind::Sequence | Kind::Choice) {
        let from = rng.below(record.items.len() + 1);
        let to = rng.within(from, record.items.len());
        let inner = record.items.drain(from..to).collect();
        record.items.insert(from, Tree::group(record.kind, (1, Some(1)), inner));
    }
}

fn pair_outside(_: &mut Rng, record: &mut Tree, _: &[Leaf]) {
    if record.kind == Kind::Choice {
        let pair = std::mem::replace(&mut record.pair, (1, Some(1)));
        around(record, Kind::Sequence);
        record.pair = pair;
    }
}

/// Puts a (1,1) group around a record.
fn around(record: &mut Tree, kind: Kind) {
    let inner = std::mem::replace(record, Tree::group(kind, (1, Some(1)), Vec::new()));
    record.items.push(inner);
}
