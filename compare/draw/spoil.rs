//! Changes of a derived tree after which it mostly fails.

use common::random::Rng;
use common::sheet::Leaf;
use common::tree::{Kind, Pair, Tree};

use crate::change::Change;

pub const CHANGES: [Change; 13] = [
    lower_minimum,
    raise_maximum,
    unbounded,
    any_pair,
    any_leaf,
    any_leaf,
    weaker_wildcard,
    drop_item,
    repeat_item,
    insert_item,
    exchange_items,
    other_group,
    leaf_for_record,
];

fn lower_minimum(rng: &mut Rng, record: &mut Tree, _: &[Leaf]) {
    let lower = [0, record.pair.0.saturating_sub(1)];
    record.pair.0 = rng.pick(&lower);
}

fn raise_maximum(rng: &mut Rng, record: &mut Tree, _: &[Leaf]) {
    let more = rng.pick(&[1, 1, 2, 1000, u32::MAX]);
    record.pair.1 = record.pair.1.map(|max| max.saturating_add(more));
}

fn unbounded(_: &mut Rng, record: &mut Tree, _: &[Leaf]) {
    record.pair.1 = None;
}

fn any_pair(rng: &mut Rng, record: &mut Tree, _: &[Leaf]) {
    record.pair = rng.pick(&PAIRS);
}

fn any_leaf(rng: &mut Rng, record: &mut Tree, leaves: &[Leaf]) {
    let found = leaf(rng, leaves);
    if record.kind.is_leaf() && (found.kind == record.kind || rng.one_in(2)) {
        *record = Tree { pair: record.pair, ..found };
    }
}

fn weaker_wildcard(_: &mut Rng, record: &mut Tree, leaves: &[Leaf]) {
    if record.kind == Kind::Wildcard {
        let own = leaves[usize::from(record.leaf)].processing;
        let weaker = |leaf: &Leaf| leaf.kind == Kind::Wildcard && leaf.processing < own;
        if let Some(number) = leaves.iter().position(weaker) {
            record.leaf = number as u8;
        }
    }
}

fn drop_item(rng: &mut Rng, record: &mut Tree, _: &[Leaf]) {
    if !record.items.is_empty() {
        record.items.remove(rng.below(record.items.len()));
    }
}

fn repeat_item(rng: &mut Rng, record: &mut Tree, _: &[Leaf]) {
    if !record.items.is_empty() {
        let at = rng.below(record.items.len());
        record.items.insert(at, record.items[at].clone());
    }
}

fn insert_item(rng: &mut Rng, record: &mut Tree, leaves: &[Leaf]) {
    if !record.kind.is_leaf() {
        let at = rng.below(record.items.len() + 1);
        record.items.insert(at, leaf(rng, leaves));
    }
}

fn exchange_items(rng: &mut Rng, record: &mut Tree, _: &[Leaf]) {
    if record.items.len() > 1 {
        let at = rng.below(record.items.len() - 1);
        record.items.swap(at, at + 1);
    }
}

fn other_group(rng: &mut Rng, record: &mut Tree, _: &[Leaf]) {
    if !record.kind.is_leaf() {
        record.kind = rng.pick(&[Kind::Sequence, Kind::Choice, Kind::All]);
    }
}

fn leaf_for_record(rng: &mut Rng, record: &mut Tree, leaves: &[Leaf]) {
    *record = leaf(rng, leaves);
}

const PAIRS: [Pair; 10] = [
    (0, Some(0)),
    (0, Some(1)),
    (1, Some(1)),
    (1, Some(2)),
    (2, Some(2)),
    (3, Some(5)),
    (0, None),
    (1, None),
    (4294967295, None),
    (65536, Some(65536)),
];

fn leaf(rng: &mut Rng, leaves: &[Leaf]) -> Tree {
    let number = rng.below(leaves.len());
    let pair = if rng.one_in(2) { (1, Some(1)) } else { rng.pick(&PAIRS) };
    Tree::leaf(leaves[number].kind, number as u8, pair)
}
