//! Random sheets about a base that may not occur (document 02 §5): an element
//! against a sequence or choice of maximum 0, some of them as tidying makes such
//! roots, and others that are nearly so. The Rust finds the element among the
//! base's items in many of them, or is undecided.

use common::random::Rng;
use common::sheet::Sheet;
use common::tree::{Kind, MOST_RECORDS, Pair, Tree};

use crate::leaves::{self, Paper};
use crate::narrow::Narrower;
use crate::sheets::{self, Size};
use crate::{change, cost, disguise};

const ONCE: Pair = (1, Some(1));
const NEVER: Pair = (0, Some(0));

pub fn sheet(rng: &mut Rng, size: Size) -> Sheet {
    loop {
        let sheet = draw(rng, size);
        let few = sheet.base.records() <= MOST_RECORDS;
        if few && cost::is_small(&sheet.derived, &sheet.base) {
            return sheet;
        }
    }
}

fn draw(rng: &mut Rng, size: Size) -> Sheet {
    let mut paper = sheets::paper(rng, size);
    if rng.one_in(3) {
        leaves::open(rng, &mut paper.first, &mut paper.second);
    }
    let tree = sheets::tree(rng, &paper.leaves, size);
    let mut base = group(rng, tree);
    let mut derived = element(rng, &paper, &base);
    match rng.below(12) {
        0 => base.pair = rng.pick(&[(0, Some(1)), ONCE, (0, None)]),
        1 => (derived.pair, base.pair) = (NEVER, NEVER),
        2 => (derived, base.pair) = (sheets::narrowed(rng, &paper, &base), NEVER),
        _ => base.pair = NEVER,
    }
    for tree in [&mut derived, &mut base] {
        for _ in 0..rng.pick(&[0, 0, 0, 1, 2]) {
            change::one(rng, tree, &paper.leaves, &disguise::CHANGES);
        }
    }
    let Paper { leaves, first, second } = paper;
    Sheet { leaves, first, second, derived, base }
}

/// The tree, or a group around it. In every second sequence all items but one
/// may be left out, so that an element can stand for it.
fn group(rng: &mut Rng, tree: Tree) -> Tree {
    let mut group = match tree.kind {
        Kind::Sequence | Kind::Choice => tree,
        _ => Tree::group(rng.pick(&[Kind::Sequence, Kind::Choice]), ONCE, vec![tree]),
    };
    if group.kind == Kind::Sequence && group.items.len() > 1 && rng.one_in(2) {
        let asked = rng.below(group.items.len());
        for (at, item) in group.items.iter_mut().enumerate() {
            item.pair.0 = if at == asked { item.pair.0 } else { 0 };
        }
    }
    group
}

/// An element that can stand for the group, now and then any leaf.
fn element(rng: &mut Rng, paper: &Paper, base: &Tree) -> Tree {
    let found = Narrower { rng, paper }.element(base);
    match found {
        Some(element) if !rng.one_in(6) => element,
        _ => {
            let leaf = rng.below(paper.leaves.len());
            let pair = rng.pick(&[ONCE, (0, Some(1)), (0, None), (2, Some(2))]);
            Tree::leaf(paper.leaves[leaf].kind, leaf as u8, pair)
        }
    }
}
