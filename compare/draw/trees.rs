//! Random accepted trees: 1 to 1000 records, depth up to 12, all five kinds,
//! pairs around the numbers at which totals turn.

use common::random::Rng;
use common::tree::{Kind, MOST_DEPTH, MOST_RECORDS, Pair, Tree};

const EDGES: [u32; 8] = [0, 1, 2, 65535, 65536, 65537, 4294967294, 4294967295];

/// How one tree's pairs are drawn. With edges everywhere nearly every total is
/// 0, too large or unbounded, so most trees have an edge in so many pairs only.
#[derive(Clone, Copy)]
enum Pairs {
    Edges,
    OneEdgeIn(usize),
    Small,
    Any,
    /// As content models have them.
    Usual,
    UsualOneEdgeIn(usize),
}

/// How many items a group gets.
#[derive(Clone, Copy)]
enum Shape {
    Narrow,
    Wide,
    Mixed,
}

#[derive(Clone, Copy)]
struct Style {
    pairs: Pairs,
    shape: Shape,
    zeros: Zeros,
}

/// Where minima of 0 and empty groups stand: they make most total minima 0,
/// and one item that is unlike all others can decide emptiness.
#[derive(Clone, Copy, PartialEq)]
enum Zeros {
    /// Wherever they are drawn.
    Drawn,
    /// At so many of 100 leaves, and at no group.
    Leaves(usize),
}

pub fn tree(rng: &mut Rng) -> Tree {
    let records = match rng.below(64) {
        0..38 => rng.within(1, 12),
        38..54 => rng.within(13, 64),
        54..62 => rng.within(65, 255),
        62 => rng.within(256, MOST_RECORDS),
        _ => rng.pick(&[254, 255, 256, 257, MOST_RECORDS - 1, MOST_RECORDS]),
    };
    tree_of(rng, records)
}

/// A tree of exactly so many records, also of more than are accepted.
pub fn tree_of(rng: &mut Rng, records: usize) -> Tree {
    use Pairs::*;
    use Shape::*;
    use Zeros::*;
    let style = Style {
        pairs: rng.pick(&[Edges, OneEdgeIn(4), OneEdgeIn(12), OneEdgeIn(60), Small, Any]),
        shape: rng.pick(&[Narrow, Wide, Mixed, Mixed]),
        zeros: rng.pick(&[Drawn, Drawn, Drawn, Leaves(0), Leaves(0), Leaves(1), Leaves(98)]),
    };
    grow(rng, records, MOST_DEPTH, style)
}

/// Pairs as content models have them, and some that they may not have.
const USUAL: [Pair; 16] = [
    (1, Some(1)),
    (1, Some(1)),
    (1, Some(1)),
    (1, Some(1)),
    (1, Some(1)),
    (0, Some(1)),
    (0, Some(1)),
    (0, None),
    (0, None),
    (1, None),
    (1, None),
    (1, Some(2)),
    (0, Some(3)),
    (2, Some(2)),
    (2, None),
    (0, Some(0)),
];

/// A tree of exactly so many records whose pairs are usual ones.
pub fn usual_tree_of(rng: &mut Rng, records: usize) -> Tree {
    usual_tree_within(rng, records, MOST_DEPTH)
}

fn usual_style(rng: &mut Rng) -> Style {
    use Shape::*;
    use Zeros::*;
    Style {
        pairs: rng.pick(&[Pairs::Usual, Pairs::Usual, Pairs::UsualOneEdgeIn(10)]),
        shape: rng.pick(&[Narrow, Wide, Mixed, Mixed, Mixed]),
        zeros: rng.pick(&[Drawn, Drawn, Drawn, Leaves(0), Leaves(30)]),
    }
}

/// The same, at most so deep; a tree of depth 1 has one record.
pub fn usual_tree_within(rng: &mut Rng, records: usize, depth: usize) -> Tree {
    let style = usual_style(rng);
    grow(rng, records, depth, style)
}

/// A tree of `records` records that is at most `room` deep.
fn grow(rng: &mut Rng, records: usize, room: usize, style: Style) -> Tree {
    let within = records - 1;
    if within == 0 {
        let kind = match rng.below(6) {
            0 if style.zeros == Zeros::Drawn => {
                rng.pick(&[Kind::Sequence, Kind::Choice, Kind::All])
            }
            0..2 => Kind::Wildcard,
            _ => Kind::Element,
        };
        return match kind {
            Kind::Element | Kind::Wildcard => leaf(rng, kind, style),
            Kind::All => Tree::group(kind, all_pair(rng, style), Vec::new()),
            _ => Tree::group(kind, pair(rng, style), Vec::new()),
        };
    }
    if rng.one_in(if within < 12 { 8 } else { 20 }) {
        let elements = (0..within).map(|_| leaf(rng, Kind::Element, style));
        let elements = elements.collect();
        return Tree::group(Kind::All, all_pair(rng, style), elements);
    }
    let kind = rng.pick(&[Kind::Sequence, Kind::Choice]);
    let sizes = split(rng, within, room - 1, style.shape);
    let items = sizes.iter().map(|size| grow(rng, *size, room - 1, style));
    let items = items.collect();
    Tree::group(kind, pair(rng, style), items)
}

/// The sizes of items that have `records` records in all.
fn split(rng: &mut Rng, records: usize, room: usize, shape: Shape) -> Vec<usize> {
    if room == 1 {
        return vec![1; records];
    }
    let most = match shape {
        Shape::Narrow => 2,
        Shape::Wide => records,
        Shape::Mixed => rng.pick(&[1, 3, 8, 30]),
    };
    let count = rng.within(1, most.min(records));
    let mut sizes = vec![1; count];
    if rng.one_in(2) {
        let heir = rng.below(count);
        sizes[heir] += records - count;
    } else {
        for _ in count..records {
            let heir = rng.below(count);
            sizes[heir] += 1;
        }
    }
    sizes
}

fn leaf(rng: &mut Rng, kind: Kind, style: Style) -> Tree {
    let number = if rng.one_in(8) { 63 } else { rng.below(64) };
    let (min, max) = pair(rng, style);
    let min = match style.zeros {
        Zeros::Leaves(share) if rng.below(100) < share => 0,
        _ => min,
    };
    Tree::leaf(kind, number as u8, (min, max))
}

fn all_pair(rng: &mut Rng, style: Style) -> Pair {
    let min = if style.zeros == Zeros::Drawn { rng.below(2) } else { 1 };
    (min as u32, Some(1))
}

fn pair(rng: &mut Rng, style: Style) -> Pair {
    let (min, max) = match style.pairs {
        Pairs::Edges => edge_pair(rng),
        Pairs::OneEdgeIn(n) | Pairs::UsualOneEdgeIn(n) if rng.one_in(n) => edge_pair(rng),
        Pairs::OneEdgeIn(_) => rng.pick(&[(1, Some(1)), (1, Some(1)), (1, Some(2)), (0, Some(1))]),
        Pairs::Small => {
            let min = rng.below(4) as u32;
            let max = min + rng.below(4) as u32;
            (min, (!rng.one_in(100)).then_some(max))
        }
        Pairs::Any => {
            let (a, b) = (any(rng), any(rng));
            (a.min(b), (!rng.one_in(30)).then_some(a.max(b)))
        }
        Pairs::Usual | Pairs::UsualOneEdgeIn(_) => rng.pick(&USUAL),
    };
    if style.zeros == Zeros::Drawn { (min, max) } else { (min.max(1), max.map(|max| max.max(1))) }
}

fn edge_pair(rng: &mut Rng) -> Pair {
    let (a, b) = (rng.pick(&EDGES), rng.pick(&EDGES));
    match rng.below(4) {
        0 => (a, None),
        1 => (a, Some(a)),
        _ => (a.min(b), Some(a.max(b))),
    }
}

/// A number of any magnitude.
fn any(rng: &mut Rng) -> u32 {
    (rng.next() as u32) >> rng.below(32)
}
