//! Random chains of 1 to 17 levels whose trees are accepted each, absent levels
//! among them. Some joined trees have as many records as a tree may have, or
//! are as deep, or are one over. In half of the chains the trees fit one list
//! of leaves, so that the joined tree can be the base of a sheet.

use common::chain::{Chain, MOST_LEVELS};
use common::random::Rng;
use common::tree::{Kind, MOST_DEPTH, MOST_RECORDS, Tree};

use crate::{leaves, sheets, trees};

pub fn chain(rng: &mut Rng) -> Chain {
    let mut present = match rng.below(40) {
        0 => about(rng, MOST_RECORDS),
        1..4 => about(rng, 256),
        4..8 => about_most_depth(rng),
        8..12 => any(rng),
        _ => small(rng),
    };
    if rng.one_in(2) {
        let count = rng.pick(&[1, 2, 3, 5, 8, 30]);
        let leaves = leaves::leaves(rng, count);
        present.iter_mut().for_each(|tree| sheets::fit(rng, tree, &leaves));
    }
    among_absent(rng, present)
}

/// Puts absent levels before, between and after the trees; a chain has a level.
fn among_absent(rng: &mut Rng, present: Vec<Tree>) -> Chain {
    let least = present.len().max(1);
    let levels = match rng.below(4) {
        0 => least,
        1 => MOST_LEVELS,
        _ => rng.within(least, MOST_LEVELS),
    };
    let mut chain: Chain = present.into_iter().map(Some).collect();
    while chain.len() < levels {
        chain.insert(rng.below(chain.len() + 1), None);
    }
    chain
}

/// How many sequences joining puts around the tree at a place (from 0).
fn around(place: usize, present: usize) -> usize {
    present - place.max(1)
}

/// Few records in each tree; mostly not too deep when joined.
fn small(rng: &mut Rng) -> Vec<Tree> {
    let present = match rng.below(12) {
        0 => 0,
        1..3 => 1,
        3..9 => rng.within(2, 5),
        _ => rng.within(6, MOST_DEPTH),
    };
    let records = (0..present).map(|_| rng.within(1, 9)).collect();
    within(rng, records)
}

/// Any trees, of which some joined ones are too long or too deep.
fn any(rng: &mut Rng) -> Vec<Tree> {
    let most = rng.pick(&[4, MOST_LEVELS]);
    let present = rng.within(1, most);
    (0..present).map(|_| trees::tree(rng)).collect()
}

/// Trees of so many records each whose joined tree is not too deep: where the
/// joining leaves no more than a leaf's depth, the tree has one record.
fn within(rng: &mut Rng, records: Vec<usize>) -> Vec<Tree> {
    let present = records.len();
    let tree = |(place, records)| {
        let depth = MOST_DEPTH - around(place, present);
        trees::usual_tree_within(rng, if depth == 1 { 1 } else { records }, depth)
    };
    records.into_iter().enumerate().map(tree).collect()
}

/// The joined tree has about so many records: as it may have, or as need the
/// second byte of a count.
fn about(rng: &mut Rng, records: usize) -> Vec<Tree> {
    let present = rng.within(2, 9);
    let joined = rng.pick(&[records - 1, records, records, records + 1]);
    let mut records = vec![1; present];
    let heir = rng.below(present);
    for _ in 2 * present - 1..joined {
        let other = rng.below(present);
        records[if rng.one_in(3) { heir } else { other }] += 1;
    }
    within(rng, records)
}

/// One of the trees is as deep as the joining allows, or almost, or one deeper.
fn about_most_depth(rng: &mut Rng) -> Vec<Tree> {
    let present = rng.within(2, MOST_DEPTH);
    let records = (0..present).map(|_| rng.within(1, 5)).collect();
    let mut trees = within(rng, records);
    let place = rng.below(present);
    let depth = rng.pick(&[MOST_DEPTH - 1, MOST_DEPTH, MOST_DEPTH + 1]);
    trees[place] = deep(rng, depth.saturating_sub(around(place, present)).max(1));
    trees
}

/// A tree of exactly this depth, a few leaves beside the way down.
fn deep(rng: &mut Rng, depth: usize) -> Tree {
    let mut tree = trees::usual_tree_within(rng, 1, 1);
    for _ in 1..depth {
        let mut items = vec![tree];
        if rng.one_in(3) {
            let at = rng.below(2);
            items.insert(at, trees::usual_tree_within(rng, 1, 1));
        }
        tree = Tree::group(rng.pick(&[Kind::Sequence, Kind::Choice]), (1, Some(1)), items);
    }
    tree
}
