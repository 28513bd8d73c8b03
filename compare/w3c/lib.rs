//! Our reading of the W3C text (XML Schema 1.0 Part 1, second edition, 3.4.6,
//! 3.8.6, 3.9.2 and 3.9.6) as a marker of its own, which shares no code with
//! the oracle. At each number of docs/DIFFERENCES.md from 6 to 25 it can take
//! the Rust's way instead; with the Rust's way at all of them it is a second
//! marker by the Rust's rules. Undecided comes up at the root only: it wants
//! tables without undecided verdicts and no all-group inside a group.

use common::sheet::Sheet;
use common::tree::{Kind, Pair, Tree};

pub mod total;

use total::{emptiable, total};

#[derive(Debug, Clone, Copy, PartialEq, Eq)]
pub enum Answer {
    Valid,
    Fails,
    Undecided,
}

use Answer::{Fails, Undecided, Valid};

/// The numbers at which the Rust's way is taken, a bit each.
#[derive(Debug, Clone, Copy)]
pub struct Ways(u32);

impl Ways {
    pub const W3C: Ways = Ways(0);
    pub const RUST: Ways = Ways(u32::MAX);

    /// The W3C text's way at this number, the others as they are.
    pub fn without(self, number: u32) -> Ways {
        Ways(self.0 & !(1 << number))
    }

    fn rust(self, number: u32) -> bool {
        self.0 >> number & 1 == 1
    }
}

/// In which order pointless groups are ignored, which 3.9.6 leaves open.
#[derive(Debug, Clone, Copy)]
pub enum Order {
    ItemsFirst,
    GroupFirst,
}

const ONE: Pair = (1, Some(1));

struct Marker<'a> {
    sheet: &'a Sheet,
    ways: Ways,
    order: Order,
}

pub fn answer(sheet: &Sheet, ways: Ways, order: Order) -> Answer {
    let marker = Marker { sheet, ways, order };
    let (derived, base) = (marker.tidy(&sheet.derived), marker.tidy(&sheet.base));
    let never = |tree: &Tree| tree.pair.1 == Some(0);
    let no_derived = never(&derived) || marker.ignored(&derived, None);
    let no_base = never(&base) && !ways.rust(14) || marker.ignored(&base, None);
    if no_derived {
        let asked = if ways.rust(13) { &base } else { &marker.components(&sheet.base) };
        if no_base || never(&base) || emptiable(asked) {
            return Valid;
        }
        if !(never(&derived) && ways.rust(12)) {
            return Fails;
        }
    } else if no_base {
        return Fails;
    }
    marker.compare(&derived, &base)
}

fn within((min, max): (u128, Option<u128>), (base_min, base_max): Pair) -> bool {
    let below = match (max, base_max) {
        (_, None) => true,
        (None, Some(_)) => false,
        (Some(max), Some(base_max)) => max <= base_max.into(),
    };
    min >= base_min.into() && below
}

fn wide((min, max): Pair) -> (u128, Option<u128>) {
    (min.into(), max.map(u128::from))
}

fn valid(is_valid: bool) -> Answer {
    if is_valid { Valid } else { Fails }
}

/// Which base items may be taken by a derived item of an all-group.
#[derive(Clone, Copy)]
struct Choosing {
    in_order: bool,
    by_name: bool,
    first_only: bool,
}

impl Marker<'_> {
    fn rust(&self, number: u32) -> bool {
        self.ways.rust(number)
    }

    /// The tree without the items that are no component (3.9.2).
    fn components(&self, tree: &Tree) -> Tree {
        let stays =
            |item: &&Tree| item.pair.1 != Some(0) || tree.kind == Kind::All && self.rust(11);
        let items = tree.items.iter().filter(stays).map(|item| self.components(item)).collect();
        Tree { items, ..tree.clone() }
    }

    /// 3.9.6 clause 2.2; the root stays.
    fn tidy(&self, tree: &Tree) -> Tree {
        self.without_pointless(&self.components(tree))
    }

    fn without_pointless(&self, tree: &Tree) -> Tree {
        let lone = tree.items.len() == 1;
        match (tree.kind, self.order) {
            (Kind::Element | Kind::Wildcard, _) => return tree.clone(),
            (Kind::All, _) if lone && !self.rust(10) => return tree.items[0].clone(),
            (Kind::All, _) => return tree.clone(),
            (_, Order::GroupFirst) if lone && tree.pair == ONE => {
                return self.without_pointless(&tree.items[0]);
            }
            _ => {}
        }
        let mut items = Vec::new();
        for item in &tree.items {
            let item = self.without_pointless(item);
            if item.kind == tree.kind && item.pair == ONE {
                items.extend(item.items);
            } else if !self.ignored(&item, Some(tree.kind)) {
                items.push(item);
            }
        }
        let lone = items.len() == 1;
        if lone && tree.pair == ONE {
            return items.remove(0);
        }
        let takes = lone && items[0].kind == Kind::Choice && items[0].pair == ONE;
        if takes && tree.kind == Kind::Sequence && self.rust(6) {
            return Tree { pair: tree.pair, ..items.remove(0) };
        }
        Tree { items, ..tree.clone() }
    }

    /// Whether a group without items is pointless below a group of this kind.
    fn ignored(&self, tree: &Tree, below: Option<Kind>) -> bool {
        let number = match tree.kind {
            Kind::Sequence if below == Some(Kind::Choice) => 9,
            Kind::Sequence => 7,
            Kind::Choice if tree.pair.0 == 0 => 8,
            Kind::All => 10,
            _ => return false,
        };
        tree.items.is_empty() && !self.rust(number)
    }

    /// The table of 3.9.6.
    fn compare(&self, d: &Tree, b: &Tree) -> Answer {
        use Kind::{All, Choice, Element, Sequence, Wildcard};
        let range = within(wide(d.pair), b.pair);
        valid(match (d.kind, b.kind) {
            (Element, Element) => range && self.ok(&self.sheet.first, d, b) && self.second(d, b),
            (Element | Wildcard, Wildcard) => range && self.second(d, b) && !self.weaker(d, b),
            (Wildcard, _) => false,
            (Element, All) if self.rust(18) => return Undecided,
            (Element, _) => self.as_if_group(d, b),
            (All, Element) if self.rust(19) => return Undecided,
            (Sequence | Choice, Element) if self.rust(17) => {
                let around = Tree::group(d.kind, ONE, vec![b.clone()]);
                return self.compare(d, &around);
            }
            (_, Element) => false,
            (_, Wildcard) => self.check_cardinality(d, b),
            (Sequence, Sequence) => range && self.recurse(&d.items, &b.items, false),
            (Choice, Choice) => range && self.recurse(&d.items, &b.items, true),
            (All, All) => range && self.all(d, b),
            (Sequence, All) => range && self.unordered(d, b),
            (Sequence, Choice) => self.map_and_sum(d, b),
            (Choice | All, _) => false,
        })
    }

    fn valid(&self, d: &Tree, b: &Tree) -> bool {
        self.compare(d, b) == Valid
    }

    fn ok(&self, table: &[u8], d: &Tree, b: &Tree) -> bool {
        table[self.sheet.at(d.leaf, b.leaf)] == 0
    }

    fn second(&self, d: &Tree, b: &Tree) -> bool {
        self.ok(&self.sheet.second, d, b)
    }

    fn weaker(&self, d: &Tree, b: &Tree) -> bool {
        let processing = |tree: &Tree| self.sheet.leaves[usize::from(tree.leaf)].processing;
        d.kind == Kind::Wildcard && processing(d) < processing(b)
    }

    /// rcase-Recurse and rcase-RecurseLax: an order-preserving mapping.
    fn recurse(&self, ds: &[Tree], bs: &[Tree], lax: bool) -> bool {
        let Some((d, others)) = ds.split_first() else {
            return lax || bs.iter().all(emptiable);
        };
        let Some((b, later)) = bs.split_first() else {
            return false;
        };
        if self.valid(d, b) {
            let mapped = self.recurse(others, later, lax);
            if mapped || self.rust(25) {
                return mapped;
            }
        }
        (lax || emptiable(b)) && self.recurse(ds, later, lax)
    }

    /// rcase-RecurseAsIfGroup.
    fn as_if_group(&self, d: &Tree, b: &Tree) -> bool {
        if self.rust(15) && b.kind != Kind::All {
            let once = Tree { pair: ONE, ..d.clone() };
            if self.valid(&Tree::group(b.kind, d.pair, vec![once]), b) {
                return true;
            }
        }
        let range = if self.rust(16) { b.pair.0 <= 1 } else { within((1, Some(1)), b.pair) };
        range && self.recurse(std::slice::from_ref(d), &b.items, b.kind == Kind::Choice)
    }

    /// rcase-Recurse for two all-groups.
    fn all(&self, d: &Tree, b: &Tree) -> bool {
        let choosing = Choosing {
            in_order: !self.rust(20),
            first_only: self.rust(21),
            by_name: self.rust(22),
        };
        self.distinct(&d.items, &b.items, &mut vec![false; b.items.len()], choosing)
    }

    /// rcase-RecurseUnordered.
    fn unordered(&self, d: &Tree, b: &Tree) -> bool {
        let by_name = self.rust(23);
        if by_name && d.items.iter().any(|item| item.kind != Kind::Element) {
            return false;
        }
        let choosing = Choosing { in_order: false, by_name, first_only: by_name };
        self.distinct(&d.items, &b.items, &mut vec![false; b.items.len()], choosing)
    }

    /// A mapping that uses no base item twice; those left over are emptiable.
    fn distinct(&self, ds: &[Tree], bs: &[Tree], taken: &mut [bool], how: Choosing) -> bool {
        let Some((d, others)) = ds.split_first() else {
            return bs.iter().zip(taken).all(|(b, taken)| *taken || emptiable(b));
        };
        let name = |tree: &Tree| self.sheet.leaves[usize::from(tree.leaf)].name;
        let last = taken.iter().rposition(|taken| *taken).map_or(0, |last| last + 1);
        for at in if how.in_order { last } else { 0 }..bs.len() {
            if taken[at] || how.by_name && name(d) != name(&bs[at]) {
                continue;
            }
            if self.valid(d, &bs[at]) {
                taken[at] = true;
                if self.distinct(others, bs, taken, how) {
                    return true;
                }
                taken[at] = false;
            }
            if how.first_only {
                return false;
            }
        }
        false
    }

    /// rcase-NSRecurseCheckCardinality.
    fn check_cardinality(&self, d: &Tree, b: &Tree) -> bool {
        let pair = if self.rust(24) { (0, None) } else { b.pair };
        let held = Tree { pair, ..b.clone() };
        within(total(d), b.pair) && d.items.iter().all(|item| self.valid(item, &held))
    }

    /// rcase-MapAndSum.
    fn map_and_sum(&self, d: &Tree, b: &Tree) -> bool {
        let count = d.items.len() as u128;
        let (min, max) = wide(d.pair);
        let some = |item: &Tree| b.items.iter().any(|alternative| self.valid(item, alternative));
        within((min * count, max.map(|max| max * count)), b.pair) && d.items.iter().all(some)
    }
}
