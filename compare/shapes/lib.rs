//! Shapes of sheets: a few words that stand for a sheet at any number of
//! records. `compare/run search` draws and changes them, the benchmark has the
//! worst of them as groups.
//!
//! Each tree is a root with a chain of groups in it. At each level of the chain
//! there may be an item before and after the next level; the last level has
//! items of one sort, and may have another at its end, and so may the root. One
//! of these is repeated up to the records that are asked for.

use common::tree::{Kind, MOST_DEPTH, Pair, Tree};

mod sheet;
pub mod words;

pub const ONCE: Pair = (1, Some(1));

/// A group's kind and pair.
pub type Head = (Kind, Pair);

/// A leaf, or a group of so many equal leaves.
#[derive(Debug, Clone, Copy, PartialEq)]
pub struct Item {
    pub around: Option<(Head, usize)>,
    /// An element or a wildcard.
    pub leaf: Kind,
    pub pair: Pair,
}

impl Item {
    pub const ELEMENT: Item = Item { around: None, leaf: Kind::Element, pair: ONCE };
}

/// What is repeated.
#[derive(Debug, Clone, Copy, PartialEq, Eq)]
pub enum Fill {
    /// The items of the last level.
    Items,
    /// Those before or after the chain, at each level alike.
    Before,
    After,
    /// The root's last item.
    Tail,
    /// The chain itself.
    Chains,
}

/// Where a leaf stands in its tree; before and after the chain the levels take
/// turns.
#[derive(Debug, Clone, Copy, PartialEq, Eq, Hash)]
pub enum Place {
    Item,
    End,
    Before(usize),
    After(usize),
    Tail,
}

impl Place {
    pub const EVERY: [Place; 7] = [
        Place::Item,
        Place::End,
        Place::Before(0),
        Place::Before(1),
        Place::After(0),
        Place::After(1),
        Place::Tail,
    ];

    /// Its place in `EVERY`, and in the verdicts.
    pub fn number(self) -> usize {
        Place::EVERY.iter().position(|place| *place == self).expect("a place")
    }
}

/// One tree.
#[derive(Debug, Clone, PartialEq)]
pub struct Side {
    pub root: Head,
    /// The groups of the chain; with none, the root has the items.
    pub levels: usize,
    /// What they are in turn, but for the last.
    pub heads: [Head; 2],
    pub last: Head,
    pub before: Option<Item>,
    pub after: Option<Item>,
    pub item: Item,
    pub end: Option<Item>,
    pub tail: Option<Item>,
    pub fill: Fill,
    /// How many items the last level has where others are repeated.
    pub few: usize,
    /// How many local names its items have in turn.
    pub names: usize,
}

/// What both tables say of a derived and a base leaf.
#[derive(Debug, Clone, Copy, PartialEq, Eq)]
pub enum Verdict {
    Ok,
    Undecided,
    /// The first is ok, the second undecided.
    Second,
    Fails,
    /// The first is ok, the second fails.
    Late,
    /// Ok for equal names, and failing for others.
    Equal,
}

#[derive(Debug, Clone, PartialEq)]
pub struct Shape {
    pub derived: Side,
    pub base: Side,
    /// The verdicts by the base leaf's place: on the derived items of the last
    /// level, and on the other derived leaves.
    pub main: [Verdict; 7],
    pub other: [Verdict; 7],
    /// At least so many leaves.
    pub leaves: usize,
}

/// The most names, so that there are leaf numbers for both trees' items.
pub const MOST_NAMES: usize = 28;
/// The most items of a small group, and of a last level whose items are not what
/// is repeated.
const MOST_FEW: usize = 64;

impl Side {
    /// A side that stands for trees that are accepted, and says nothing that
    /// shows in none.
    pub fn fitted(mut self) -> Side {
        self.names = self.names.clamp(1, MOST_NAMES);
        self.few = self.few.clamp(1, MOST_FEW);
        self.fit_heads();
        if self.levels < 2 {
            (self.before, self.after) = (None, None);
        }
        if self.last.0 == Kind::All {
            let bare = |item: Item| Item { around: None, leaf: Kind::Element, ..item };
            self.item = bare(self.item);
            self.end = self.end.map(bare);
            if self.levels == 0 {
                self.tail = self.tail.map(bare);
            }
        }
        for item in [&mut self.before, &mut self.after, &mut self.end, &mut self.tail] {
            *item = item.map(Item::fitted);
        }
        self.item = self.item.fitted();
        self.fill = match self.fill {
            Fill::Before if self.before.is_none() => Fill::Items,
            Fill::After if self.after.is_none() => Fill::Items,
            Fill::Tail if self.tail.is_none() => Fill::Items,
            Fill::Chains if self.levels == 0 => Fill::Items,
            fill => fill,
        };
        self.within_depth()
    }

    /// An all-group holds elements alone, so it is the root or the last level.
    fn fit_heads(&mut self) {
        let plain = (Kind::Sequence, ONCE);
        if self.root.0 == Kind::All {
            self.levels = 0;
        }
        self.heads =
            self.heads.map(
                |(kind, pair)| {
                    if kind == Kind::All { (Kind::Sequence, pair) } else { (kind, pair) }
                },
            );
        match self.levels {
            0 => (self.heads, self.last) = ([plain; 2], self.root),
            1 => self.heads = [plain; 2],
            2 => self.heads[1] = self.heads[0],
            _ => {}
        }
        self.root.1 = all_pair(self.root);
        self.last.1 = all_pair(self.last);
    }

    fn within_depth(self) -> Side {
        if self.tree(1, &mut |_, _, _| 0).depth() <= MOST_DEPTH {
            return self;
        }
        Side { levels: self.levels - 1, ..self }.fitted()
    }

    /// The tree with what is repeated there so many times. `leaf` numbers a
    /// leaf by its kind, its place, and how many there were before in the place.
    fn tree(&self, times: usize, leaf: &mut impl FnMut(Kind, Place, usize) -> u8) -> Tree {
        let mut counts = [0; Place::EVERY.len()];
        let mut put = |items: &mut Vec<Tree>, item: &Option<Item>, place: Place, count: usize| {
            for item in std::iter::repeat_n(item, count).flatten() {
                items.push(item.tree(&mut |kind| {
                    counts[place.number()] += 1;
                    leaf(kind, place, counts[place.number()] - 1)
                }));
            }
        };
        let repeated = |fill, few| if self.fill == fill { times } else { few };
        let mut items = Vec::new();
        for _ in 0..repeated(Fill::Chains, 1) {
            let mut row = Vec::new();
            put(&mut row, &Some(self.item), Place::Item, repeated(Fill::Items, self.few));
            put(&mut row, &self.end, Place::End, 1);
            for level in (1..=self.levels).rev() {
                let turn = level % 2;
                let (kind, pair) = self.head(level);
                let inner = Tree::group(kind, pair, std::mem::take(&mut row));
                let beside = |fill| if level == 1 { 0 } else { repeated(fill, 1) };
                put(&mut row, &self.before, Place::Before(turn), beside(Fill::Before));
                row.push(inner);
                put(&mut row, &self.after, Place::After(turn), beside(Fill::After));
            }
            items.extend(row);
        }
        put(&mut items, &self.tail, Place::Tail, repeated(Fill::Tail, 1));
        Tree::group(self.root.0, self.root.1, items)
    }

    /// The head of a level, from 1.
    fn head(&self, level: usize) -> Head {
        if level == self.levels { self.last } else { self.heads[(level - 1) % 2] }
    }

    /// How often it is repeated in a tree of at most so many records.
    fn times(&self, records: usize) -> usize {
        let of = |times| self.tree(times, &mut |_, _, _| 0).records();
        let (none, one) = (of(0), of(1));
        records.saturating_sub(none) / (one - none)
    }
}

fn all_pair((kind, pair): Head) -> Pair {
    if kind == Kind::All { (pair.0.min(1), Some(1)) } else { pair }
}

impl Item {
    fn fitted(self) -> Item {
        let around = self
            .around
            .map(|((kind, pair), count)| ((kind, all_pair((kind, pair))), count.min(MOST_FEW)));
        let all = around.is_some_and(|((kind, _), _)| kind == Kind::All);
        Item { around, leaf: if all { Kind::Element } else { self.leaf }, ..self }
    }

    fn tree(&self, leaf: &mut impl FnMut(Kind) -> u8) -> Tree {
        let mut one = || Tree::leaf(self.leaf, leaf(self.leaf), self.pair);
        match self.around {
            None => one(),
            Some(((kind, pair), count)) => {
                Tree::group(kind, pair, (0..count).map(|_| one()).collect())
            }
        }
    }
}

impl Shape {
    pub fn fitted(self) -> Shape {
        let (derived, base) = (self.derived.fitted(), self.base.fitted());
        Shape { derived, base, ..self }
    }
}
