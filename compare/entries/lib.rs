//! How often a marking enters the rule that goes by two kinds (document 02 §14),
//! and the mark: document 01's rules read once more, with no code of the oracle's
//! or the library's. The number can be exponential in the base's depth, so what
//! two trees give is worked out once and then remembered.
//!
//! The wording was settled thus: each call of the rule on two trees counts 1, the
//! calls on a wrapped element or a wrapped base as well. The second reading of an
//! element is entered only where the first doesn't pass ('If that doesn't pass,
//! second reading': document 01, and `restrict` of the Rust), and walks nothing
//! where the base's pair fails it (110, 112, and 125 of §5). A walk, and a rule
//! over several items, goes on after an undecided item.

use std::collections::HashMap;

use common::sheet::Sheet;
use common::tree::{Kind, Pair, Tree};

mod tidied;

pub use tidied::tidied;
use tidied::{Node, Nodes, Total};

const PASSES: u32 = 0;
const UNDECIDED: u32 = 1;
const ONCE: Pair = (1, Some(1));
const ANY: Pair = (0, None);

/// A mark in the library's numbers, and the entries that it took.
#[derive(Debug, Clone, Copy, PartialEq, Eq)]
pub struct Marked {
    pub mark: u32,
    pub entries: u128,
}

pub struct Counted {
    pub marked: Marked,
    /// Records of the tidied trees, and the depth of the tidied base.
    pub derived: usize,
    pub base: usize,
    pub depth: usize,
}

impl Counted {
    /// The ceiling of document 02 §14: D × B × 2 to the power H.
    pub fn ceiling(&self) -> u128 {
        (self.derived as u128 * self.base as u128) << self.depth
    }
}

/// The mark of an accepted sheet.
pub fn count(sheet: &Sheet) -> Counted {
    let (derived, base) = (tidied(&sheet.derived), tidied(&sheet.base));
    let mut nodes = Nodes::default();
    let (d, b) = (nodes.number(&derived), nodes.number(&base));
    let never = |tree: &Tree| tree.pair.1 == Some(0);
    let early = never(&derived) && (never(&base) || nodes.every[b].emptiable);
    let mut marker = Marker { sheet, nodes: &nodes.every, known: HashMap::new() };
    let marked = if early { just(PASSES) } else { marker.mark((d, false), (b, false)) };
    Counted { marked, derived: derived.records(), base: base.records(), depth: base.depth() }
}

/// A derived tree by its number, and whether an element counts once.
type Derived = (usize, bool);
/// A base tree by its number, and whether a wildcard has the pair (0, unbounded).
type Base = (usize, bool);

struct Marker<'a> {
    sheet: &'a Sheet,
    nodes: &'a [Node],
    known: HashMap<(Derived, Base), Marked>,
}

/// A mark that enters no rule.
fn just(mark: u32) -> Marked {
    Marked { mark, entries: 0 }
}

fn within(p: Total, q: Pair) -> bool {
    let below = match (p.1, q.1) {
        (_, None) => true,
        (None, Some(_)) => false,
        (Some(max), Some(most)) => max <= most.into(),
    };
    p.0 >= q.0.into() && below
}

fn wide(pair: Pair) -> Total {
    (pair.0.into(), pair.1.map(u128::from))
}

/// A failure after something undecided is undecided, and so is the end.
fn ended(mark: u32, seen: bool, entries: u128) -> Marked {
    Marked { mark: if seen { UNDECIDED } else { mark }, entries }
}

impl<'a> Marker<'a> {
    /// One entry, and what it asks for.
    fn mark(&mut self, d: Derived, b: Base) -> Marked {
        if let Some(known) = self.known.get(&(d, b)) {
            return *known;
        }
        let inner = self.rule(d, b);
        let marked = Marked { entries: inner.entries.saturating_add(1), ..inner };
        self.known.insert((d, b), marked);
        marked
    }

    fn rule(&mut self, d: Derived, b: Base) -> Marked {
        use Kind::{All, Choice, Element, Sequence, Wildcard};
        let (dn, bn) = (&self.nodes[d.0], &self.nodes[b.0]);
        let once = d.1 && dn.kind == Element;
        let any = b.1 && bn.kind == Wildcard;
        let p = if once { ONCE } else { dn.pair };
        let q = if any { ANY } else { bn.pair };
        let range = |reason| if within(wide(p), q) { PASSES } else { reason };
        match (dn.kind, bn.kind) {
            (Element, Element) => just(self.elements((dn.leaf, p), (bn.leaf, q))),
            (Element, Wildcard) => just(or_next(range(101), || self.second(dn, bn))),
            (Wildcard, Element) => just(102),
            (Wildcard, Wildcard) => just(or_next(range(103), || {
                or_next(if self.weaker(dn, bn) { 104 } else { PASSES }, || self.second(dn, bn))
            })),
            (Wildcard, _) => just(114),
            (Element, Sequence | Choice) => self.readings(d, p, bn),
            (Element, All) | (All, Element) => just(UNDECIDED),
            (Sequence | Choice, Element) => self.wrapped_base(dn, b),
            (_, Wildcard) => self.group_wildcard(dn, b, q),
            (Sequence, Sequence) => self.ranged(range(105), dn, bn, false),
            (Choice, Choice) => self.ranged(range(106), dn, bn, true),
            (Sequence, Choice) => self.sequence_choice(dn, bn),
            (All, All) => just(or_next(range(107), || self.unordered(dn, bn))),
            (Sequence, All) => just(or_next(range(118), || self.unordered(dn, bn))),
            (All, _) | (Choice, _) => just(115),
        }
    }

    /// First table, minimum, maximum, second table.
    fn elements(&self, (derived, p): (u8, Pair), (base, q): (u8, Pair)) -> u32 {
        let at = self.sheet.at(derived, base);
        let pair = match (p.1, q.1) {
            _ if p.0 < q.0 => 122,
            (None, Some(_)) => 123,
            (Some(max), Some(most)) if max > most => 124,
            _ => PASSES,
        };
        let second = || self.sheet.second[at].into();
        or_next(self.sheet.first[at].into(), || or_next(pair, second))
    }

    fn second(&self, d: &Node, b: &Node) -> u32 {
        self.sheet.second[self.sheet.at(d.leaf, b.leaf)].into()
    }

    fn weaker(&self, d: &Node, b: &Node) -> bool {
        let processing = |node: &Node| self.sheet.leaves[usize::from(node.leaf)].processing;
        processing(d) < processing(b)
    }

    /// An element against a sequence or choice. The first reading is an entry of
    /// its own.
    fn readings(&mut self, d: Derived, p: Pair, b: &Node) -> Marked {
        let lax = b.kind == Kind::Choice;
        let first = if within(wide(p), b.pair) {
            self.walk(&[(d.0, true)], &b.items, lax)
        } else {
            just(if lax { 106 } else { 105 })
        };
        let entries = first.entries.saturating_add(1);
        if first.mark == PASSES {
            return Marked { mark: PASSES, entries };
        }
        let second = match b.pair {
            (2.., _) => just(if lax { 112 } else { 110 }),
            (_, Some(0)) => just(125),
            _ if lax => self.alternatives(d, &b.items, 111),
            _ => self.walk(&[d], &b.items, false),
        };
        let mark = match (first.mark, second.mark) {
            (_, PASSES) => PASSES,
            (UNDECIDED, _) | (_, UNDECIDED) => UNDECIDED,
            (reason, _) => reason,
        };
        Marked { mark, entries: entries.saturating_add(second.entries) }
    }

    /// A sequence or choice against an element, which is wrapped: an entry more.
    fn wrapped_base(&mut self, d: &Node, b: Base) -> Marked {
        let lax = d.kind == Kind::Choice;
        if !within(wide(d.pair), ONCE) {
            return Marked { mark: if lax { 106 } else { 105 }, entries: 1 };
        }
        let walked = self.walk(&of(&d.items), &[b.0], lax);
        Marked { entries: walked.entries.saturating_add(1), ..walked }
    }

    fn ranged(&mut self, range: u32, d: &Node, b: &Node, lax: bool) -> Marked {
        if range != PASSES {
            return just(range);
        }
        self.walk(&of(&d.items), &b.items, lax)
    }

    /// The ordered walk.
    fn walk(&mut self, ds: &[Derived], bs: &[usize], lax: bool) -> Marked {
        let (mut seen, mut entries) = (false, 0u128);
        let mut left = bs.iter();
        'derived: for d in ds {
            for b in left.by_ref() {
                let marked = self.mark(*d, (*b, false));
                entries = entries.saturating_add(marked.entries);
                match marked.mark {
                    PASSES => continue 'derived,
                    UNDECIDED => {
                        seen = true;
                        continue 'derived;
                    }
                    _ if lax || self.nodes[*b].emptiable => {}
                    reason => return ended(reason, seen, entries),
                }
            }
            return ended(120, seen, entries);
        }
        let missing = !lax && left.any(|b| !self.nodes[*b].emptiable);
        ended(if missing { 121 } else { PASSES }, seen, entries)
    }

    fn alternatives(&mut self, d: Derived, bs: &[usize], none: u32) -> Marked {
        let (mut seen, mut entries) = (false, 0u128);
        for b in bs {
            let marked = self.mark(d, (*b, false));
            entries = entries.saturating_add(marked.entries);
            match marked.mark {
                PASSES => return Marked { mark: PASSES, entries },
                UNDECIDED => seen = true,
                _ => {}
            }
        }
        ended(none, seen, entries)
    }

    fn group_wildcard(&mut self, d: &Node, b: Base, q: Pair) -> Marked {
        if !within(d.total, q) {
            return just(113);
        }
        self.each(d, |marker, member| marker.mark(member, (b.0, true)))
    }

    fn sequence_choice(&mut self, d: &Node, b: &Node) -> Marked {
        let count = d.items.len() as u128;
        let (min, max) = wide(d.pair);
        if !within((min * count, max.map(|max| max * count)), b.pair) {
            return just(116);
        }
        // Equal members ask the same of the same alternatives.
        let mut known = HashMap::new();
        self.each(d, |marker, member| {
            let marked = || marker.alternatives(member, &b.items, 117);
            *known.entry(member).or_insert_with(marked)
        })
    }

    /// Each member in turn.
    fn each(
        &mut self,
        d: &Node,
        mut mark: impl FnMut(&mut Marker<'a>, Derived) -> Marked,
    ) -> Marked {
        let (mut seen, mut entries) = (false, 0u128);
        for member in &d.items {
            let marked = mark(self, (*member, false));
            entries = entries.saturating_add(marked.entries);
            match marked.mark {
                PASSES => {}
                UNDECIDED => seen = true,
                reason => return ended(reason, seen, entries),
            }
        }
        ended(PASSES, seen, entries)
    }

    /// Base elements taken by name; the verdicts on them enter no rule.
    fn unordered(&self, d: &Node, b: &Node) -> u32 {
        let name = |node: &Node| self.sheet.leaves[usize::from(node.leaf)].name;
        let mut seen = false;
        let mut free: Vec<&Node> = b.items.iter().map(|item| &self.nodes[*item]).collect();
        for member in d.items.iter().map(|item| &self.nodes[*item]) {
            if member.kind != Kind::Element {
                return ended(119, seen, 0).mark;
            }
            let Some(at) = free.iter().position(|base| name(base) == name(member)) else {
                return ended(108, seen, 0).mark;
            };
            let base = free.remove(at);
            match self.elements((member.leaf, member.pair), (base.leaf, base.pair)) {
                PASSES => {}
                UNDECIDED => seen = true,
                reason => return ended(reason, seen, 0).mark,
            }
        }
        let missing = free.iter().any(|base| base.pair.0 > 0);
        ended(if missing { 109 } else { PASSES }, seen, 0).mark
    }
}

/// The first that is not ok.
fn or_next(mark: u32, next: impl FnOnce() -> u32) -> u32 {
    if mark == PASSES { next() } else { mark }
}

fn of(items: &[usize]) -> Vec<Derived> {
    items.iter().map(|item| (*item, false)).collect()
}
