//! A derived tree made from a base tree so that it mostly passes: pairs
//! narrowed, optional items dropped, alternatives removed, elements in place of
//! groups, sequences in place of choices and all-groups, groups in place of
//! wildcards. Leaves are exchanged for others whose verdicts let them through.

use common::random::Rng;
use common::tree::{Kind, Pair, Tree};
use oracle::bridge::Leaves;
use oracle::doors;

use crate::leaves::Paper;

pub struct Narrower<'a> {
    pub rng: &'a mut Rng,
    pub paper: &'a Paper,
}

impl Narrower<'_> {
    /// A tree for `base` that is at most `room` deep; `base` is not deeper.
    pub fn tree(&mut self, base: &Tree, room: usize) -> Tree {
        let narrowed = match base.kind {
            Kind::Element => self.leaf(Kind::Element, base),
            Kind::Wildcard if room > 1 && self.rng.one_in(3) => Some(self.members(base, room)),
            Kind::Wildcard if self.rng.one_in(2) => self.leaf(Kind::Element, base),
            Kind::Wildcard => self.leaf(Kind::Wildcard, base),
            Kind::Sequence if self.rng.one_in(9) => self.element(base),
            Kind::Sequence => Some(self.sequence(base, room)),
            Kind::Choice if self.rng.one_in(9) => self.element(base),
            Kind::Choice if self.rng.one_in(4) => Some(self.sequence_for_choice(base, room)),
            Kind::Choice => Some(self.choice(base, room)),
            Kind::All => Some(self.all(base)),
        };
        narrowed.unwrap_or_else(|| base.clone())
    }

    fn sequence(&mut self, base: &Tree, room: usize) -> Tree {
        let mut items = Vec::new();
        for item in &base.items {
            if !(emptiable(item) && self.rng.one_in(3)) {
                items.push(self.tree(item, room - 1));
            }
        }
        Tree::group(Kind::Sequence, self.inside(base.pair), items)
    }

    fn choice(&mut self, base: &Tree, room: usize) -> Tree {
        let mut items = Vec::new();
        for item in &base.items {
            if !self.rng.one_in(4) {
                items.push(self.tree(item, room - 1));
            }
        }
        Tree::group(Kind::Choice, self.inside(base.pair), items)
    }

    /// Members from any alternatives; the pair times their number is inside the
    /// choice's if it can be.
    fn sequence_for_choice(&mut self, base: &Tree, room: usize) -> Tree {
        if base.items.is_empty() {
            return Tree::group(Kind::Sequence, self.inside(base.pair), Vec::new());
        }
        let count = self.rng.within(1, 4);
        let mut items = Vec::new();
        for _ in 0..count {
            let alternative = &base.items[self.rng.below(base.items.len())];
            items.push(self.tree(alternative, room - 1));
        }
        let min = base.pair.0.div_ceil(count as u32);
        let max = base.pair.1.map(|max| max / count as u32);
        let fits = max.is_none_or(|max| min <= max);
        let pair = if fits { self.inside((min, max)) } else { (1, Some(1)) };
        Tree::group(Kind::Sequence, pair, items)
    }

    /// An all-group or a sequence for an all-group, in any order.
    fn all(&mut self, base: &Tree) -> Tree {
        let mut items = Vec::new();
        for item in &base.items {
            if item.pair.0 == 0 && self.rng.one_in(3) {
                continue;
            }
            let name = Some(self.paper.leaves[usize::from(item.leaf)].name);
            let leaf = self.under(Kind::Element, item.leaf, name).unwrap_or(item.leaf);
            items.push(Tree::leaf(Kind::Element, leaf, self.inside(item.pair)));
        }
        if items.len() > 1 && self.rng.one_in(2) {
            for _ in 0..items.len() {
                let (one, other) = (self.rng.below(items.len()), self.rng.below(items.len()));
                items.swap(one, other);
            }
        }
        if self.rng.one_in(3) {
            return Tree::group(Kind::Sequence, self.inside(base.pair), items);
        }
        let raised = base.pair.0 == 1 || self.rng.one_in(3);
        Tree::group(Kind::All, (raised.into(), Some(1)), items)
    }

    /// An element in place of a leaf, or of a group that one of its items can
    /// stand for. None stands for an all-group: that is undecided.
    pub fn element(&mut self, base: &Tree) -> Option<Tree> {
        let item = match base.kind {
            Kind::Element | Kind::Wildcard => return self.leaf(Kind::Element, base),
            Kind::All => return None,
            Kind::Sequence => {
                let required = base.items.iter().find(|item| !emptiable(item));
                required.or(base.items.first())?
            }
            Kind::Choice if base.items.is_empty() => return None,
            Kind::Choice => &base.items[self.rng.below(base.items.len())],
        };
        let mut element = self.element(item)?;
        if self.rng.one_in(3) {
            element.pair = self.inside(base.pair);
        }
        Some(element)
    }

    /// A group in place of a wildcard, its total inside the wildcard's pair if
    /// one of a few pairs makes it so.
    fn members(&mut self, base: &Tree, room: usize) -> Tree {
        let mut items = Vec::new();
        for _ in 0..self.rng.pick(&[0, 1, 1, 2, 2, 3]) {
            let open = Tree::leaf(Kind::Wildcard, base.leaf, (0, None));
            if room > 2 && self.rng.one_in(6) {
                items.push(self.members(&open, room - 1));
                continue;
            }
            let kind = self.rng.pick(&[Kind::Element, Kind::Element, Kind::Wildcard]);
            let leaf = self.leaf(kind, base);
            items.extend(leaf.map(|leaf| Tree { pair: self.any_pair(), ..leaf }));
        }
        let only_elements = items.iter().all(|item| item.kind == Kind::Element);
        let kind = match self.rng.below(5) {
            0..2 => Kind::Sequence,
            2 if only_elements => Kind::All,
            _ => Kind::Choice,
        };
        let mut group = Tree::group(kind, (1, Some(1)), items);
        for _ in 0..4 {
            let (min, max) = doors::effective_total_range(&Leaves::none().particle(&group));
            if within((min, max), base.pair) {
                break;
            }
            let is_all = kind == Kind::All;
            group.pair = if is_all { self.rng.pick(&PAIRS[..2]) } else { self.any_pair() };
        }
        group
    }

    fn any_pair(&mut self) -> Pair {
        if self.rng.one_in(8) { self.rng.pick(&EDGES) } else { self.rng.pick(&PAIRS) }
    }

    /// A leaf of a kind that the base leaf lets through, its pair inside.
    fn leaf(&mut self, kind: Kind, base: &Tree) -> Option<Tree> {
        let leaf = self.under(kind, base.leaf, None)?;
        Some(Tree::leaf(kind, leaf, self.inside(base.pair)))
    }

    /// The number of a leaf that is ok below a base leaf, now and then of one
    /// that is undecided, or of a wildcard that is weaker.
    fn under(&mut self, kind: Kind, base: u8, name: Option<u16>) -> Option<u8> {
        let count = self.paper.leaves.len();
        let most = if self.rng.one_in(4) { 1 } else { 0 };
        let may_be_weaker = kind == Kind::Element || self.rng.one_in(6);
        let good = |number: usize| {
            let leaf = self.paper.leaves[number];
            let above = self.paper.leaves[usize::from(base)];
            let at = number * count + usize::from(base);
            leaf.kind == kind
                && name.is_none_or(|name| leaf.name == name)
                && (above.kind == Kind::Wildcard || self.paper.first[at] <= most)
                && self.paper.second[at] <= most
                && (may_be_weaker || leaf.processing >= above.processing)
        };
        let from = if self.rng.one_in(2) { usize::from(base) } else { self.rng.below(count) };
        let found = (from..count).chain(0..from).find(|number| good(*number));
        found.map(|number| number as u8)
    }

    /// The same pair, or one inside it.
    fn inside(&mut self, (min, max): Pair) -> Pair {
        if !self.rng.one_in(3) {
            return (min, max);
        }
        let more = min.saturating_add(self.rng.below(3) as u32);
        let low = more.min(max.unwrap_or(u32::MAX));
        let high = match max {
            None if self.rng.one_in(2) => None,
            None => Some(low.saturating_add(self.rng.below(3) as u32)),
            Some(max) if self.rng.one_in(2) => Some(max),
            Some(max) => Some(low.saturating_add(self.rng.below(2) as u32).min(max)),
        };
        (low, high)
    }
}

/// Of a member's or of its group; an all-group may have the first two.
const PAIRS: [Pair; 7] =
    [(1, Some(1)), (0, Some(1)), (1, Some(1)), (0, None), (1, None), (2, Some(2)), (0, Some(0))];

/// Pairs whose products turn at 4294967295.
const EDGES: [Pair; 4] =
    [(65536, Some(65536)), (65535, Some(65537)), (2147483648, None), (0, Some(4294967295))];

fn emptiable(tree: &Tree) -> bool {
    doors::emptiable(&Leaves::none().particle(tree))
}

fn within((min, max): Pair, (base_min, base_max): Pair) -> bool {
    let below = match (max, base_max) {
        (_, None) => true,
        (None, _) => false,
        (Some(max), Some(base_max)) => max <= base_max,
    };
    min >= base_min && below
}
