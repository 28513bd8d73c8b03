//! Random accepted sheets: 1 to 64 leaves, trees of 1 to 1000 records and depth
//! up to 12. Most derived trees are made from the base tree (narrow.rs), and
//! many of these are then spoiled in one place (spoil.rs).

use common::random::Rng;
use common::sheet::{Leaf, MOST_LEAVES, Sheet};
use common::tree::{Kind, MOST_DEPTH, MOST_RECORDS, Tree};

use crate::leaves::{self, Paper};
use crate::narrow::Narrower;
use crate::{change, cost, disguise, spoil, trees};

#[derive(Clone, Copy, PartialEq)]
pub enum Size {
    /// Trees of few records over few leaves.
    Small,
    Any,
    /// Both trees have so many records, from the first number to the second.
    Between(usize, usize),
}

impl Size {
    fn fits(self, tree: &Tree) -> bool {
        match self {
            Size::Between(least, most) => (least..=most).contains(&tree.records()),
            Size::Small | Size::Any => true,
        }
    }
}

pub fn sheet(rng: &mut Rng, size: Size) -> Sheet {
    let apart = rng.one_in(8);
    loop {
        let sheet = draw(rng, size, apart);
        let fits = size.fits(&sheet.derived) && size.fits(&sheet.base);
        if fits && cost::is_small(&sheet.derived, &sheet.base) {
            return sheet;
        }
    }
}

/// One of the given size, or a little smaller; the derived tree may have
/// nothing to do with the base.
fn draw(rng: &mut Rng, size: Size, apart: bool) -> Sheet {
    let paper = paper(rng, size);
    let mut base = tree(rng, &paper.leaves, size);
    let mut derived =
        if apart { tree(rng, &paper.leaves, size) } else { narrowed(rng, &paper, &base) };
    for tree in [&mut derived, &mut base] {
        for _ in 0..rng.pick(&[0, 0, 0, 1, 2]) {
            change::one(rng, tree, &paper.leaves, &disguise::CHANGES);
        }
    }
    if rng.one_in(16) {
        std::mem::swap(&mut derived, &mut base);
    }
    let Paper { leaves, first, second } = paper;
    Sheet { leaves, first, second, derived, base }
}

pub(crate) fn paper(rng: &mut Rng, size: Size) -> Paper {
    let count = match rng.below(20) {
        0 => 1,
        1..15 => rng.within(2, 7),
        _ if size == Size::Small => rng.within(2, 7),
        15..18 => rng.within(8, 24),
        _ => rng.pick(&[25, 33, 63, MOST_LEAVES]),
    };
    leaves::paper(rng, count)
}

/// A sheet over these leaves with this base, which fits them. The derived tree
/// is a narrowed base, or a leaf where that would keep the oracle for long.
pub fn with_base(rng: &mut Rng, leaves: Vec<Leaf>, base: Tree) -> Sheet {
    let paper = leaves::over(rng, leaves);
    let mut derived = narrowed(rng, &paper, &base);
    if !cost::is_small(&derived, &base) {
        derived = Tree::leaf(paper.leaves[0].kind, 0, (1, Some(1)));
    }
    let Paper { leaves, first, second } = paper;
    Sheet { leaves, first, second, derived, base }
}

/// A narrowed base, half of them spoiled, mostly in one place.
pub(crate) fn narrowed(rng: &mut Rng, paper: &Paper, base: &Tree) -> Tree {
    let mut derived = Narrower { rng, paper }.tree(base, MOST_DEPTH);
    if derived.records() > MOST_RECORDS {
        derived = base.clone();
    }
    for _ in 0..rng.pick(&[0, 0, 0, 1, 1, 2]) {
        change::one(rng, &mut derived, &paper.leaves, &spoil::CHANGES);
    }
    derived
}

pub(crate) fn tree(rng: &mut Rng, leaves: &[Leaf], size: Size) -> Tree {
    let records = match (size, rng.below(48)) {
        (Size::Between(least, most), _) => rng.within(least, most),
        (Size::Small, _) | (_, 0..24) => rng.within(1, 9),
        (_, 24..36) => rng.within(10, 30),
        (_, 36..44) => rng.within(31, 100),
        (_, 44..46) => rng.within(101, 255),
        (_, 46) => rng.within(256, MOST_RECORDS),
        _ => rng.pick(&[254, 255, 256, 257, MOST_RECORDS - 1, MOST_RECORDS]),
    };
    let mut tree = if rng.one_in(10) {
        trees::tree_of(rng, records)
    } else {
        trees::usual_tree_of(rng, records)
    };
    fit(rng, &mut tree, leaves);
    tree
}

/// Gives each leaf of a tree a number of the sheet, of its own kind if the
/// sheet has such a leaf. An all-group without elements loses its items.
pub(crate) fn fit(rng: &mut Rng, tree: &mut Tree, leaves: &[Leaf]) {
    let some = |kind| leaves.iter().any(|leaf| leaf.kind == kind);
    if tree.kind == Kind::All && !some(Kind::Element) {
        tree.items.clear();
    }
    if tree.kind.is_leaf() {
        let wanted = if some(tree.kind) { tree.kind } else { leaves[0].kind };
        let from = rng.below(leaves.len());
        let mut numbers = (from..leaves.len()).chain(0..from);
        let number = numbers.find(|number| leaves[*number].kind == wanted);
        tree.leaf = number.expect("a leaf of this kind") as u8;
        tree.kind = wanted;
    }
    for item in &mut tree.items {
        fit(rng, item, leaves);
    }
}
