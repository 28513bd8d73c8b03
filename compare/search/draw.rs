//! Random shapes, and shapes changed in a few places.

use common::random::Rng;
use common::tree::{Kind, MOST_DEPTH, Pair};
use shapes::{Fill, Head, Item, MOST_NAMES, ONCE, Place, Shape, Side, Verdict};

/// (1,1) stands often; the others turn ranges, emptiness and readings.
const PAIRS: [Pair; 12] = [
    ONCE,
    ONCE,
    ONCE,
    (0, Some(1)),
    (0, Some(2)),
    (1, Some(2)),
    (2, Some(2)),
    (0, None),
    (1, None),
    (2, None),
    (0, Some(1000)),
    (1, Some(1000)),
];

const GROUPS: [Kind; 5] = [Kind::Sequence, Kind::Sequence, Kind::Choice, Kind::Choice, Kind::All];

const FILLS: [Fill; 7] =
    [Fill::Items, Fill::Items, Fill::Items, Fill::Before, Fill::After, Fill::Tail, Fill::Chains];

const VERDICTS: [Verdict; 7] = [
    Verdict::Ok,
    Verdict::Undecided,
    Verdict::Second,
    Verdict::Fails,
    Verdict::Fails,
    Verdict::Late,
    Verdict::Equal,
];

/// The root is above them, and leaves are below.
const MOST_LEVELS: usize = MOST_DEPTH - 2;

pub fn shape(rng: &mut Rng) -> Shape {
    let drawn = Shape {
        derived: side(rng, 3),
        base: side(rng, 1),
        main: [(); 7].map(|()| rng.pick(&VERDICTS)),
        other: [(); 7].map(|()| rng.pick(&VERDICTS)),
        leaves: leaves(rng),
    };
    if rng.one_in(2) { lasting(rng, drawn).fitted() } else { drawn.fitted() }
}

/// One whose marking does not end at the first member: each member passes in the
/// end, and by nothing before it.
fn lasting(rng: &mut Rng, mut shape: Shape) -> Shape {
    shape.derived.root = (Kind::Sequence, ONCE);
    shape.base.root = (Kind::Choice, (0, None));
    shape.base.tail = Some(Item { around: None, leaf: Kind::Wildcard, pair: (0, None) });
    for row in [&mut shape.main, &mut shape.other] {
        *row = [rng.pick(&[Verdict::Late, Verdict::Second, Verdict::Undecided, Verdict::Fails]); 7];
        row[Place::Tail.number()] = Verdict::Ok;
    }
    shape
}

/// A tree; in `flat` of `flat + 1` without a chain.
fn side(rng: &mut Rng, flat: usize) -> Side {
    let side = Side {
        root: head(rng),
        levels: if rng.below(flat + 1) == 0 { levels(rng) } else { 0 },
        heads: [head(rng), head(rng)],
        last: head(rng),
        before: extra(rng),
        after: extra(rng),
        item: item(rng),
        end: extra(rng),
        tail: extra(rng),
        fill: rng.pick(&FILLS),
        few: few(rng),
        names: names(rng),
    };
    if rng.one_in(2) {
        Side { heads: [side.heads[0]; 2], last: side.heads[0], ..side }
    } else {
        side
    }
}

fn head(rng: &mut Rng) -> Head {
    (rng.pick(&GROUPS), rng.pick(&PAIRS))
}

fn levels(rng: &mut Rng) -> usize {
    if rng.one_in(2) { MOST_LEVELS } else { rng.within(1, MOST_LEVELS) }
}

fn few(rng: &mut Rng) -> usize {
    rng.pick(&[1, 1, 1, 2, 3, 4, 8, 16])
}

fn names(rng: &mut Rng) -> usize {
    rng.pick(&[1, 1, 1, 2, 3, MOST_NAMES])
}

fn leaves(rng: &mut Rng) -> usize {
    rng.pick(&[1, 1, 1, 64])
}

fn extra(rng: &mut Rng) -> Option<Item> {
    rng.one_in(3).then(|| item(rng))
}

fn item(rng: &mut Rng) -> Item {
    let leaf = rng.pick(&[Kind::Element, Kind::Element, Kind::Element, Kind::Wildcard]);
    let around = rng.one_in(4).then(|| (head(rng), rng.pick(&[0, 1, 1, 1, 2, 3, 8])));
    Item { around, leaf, pair: rng.pick(&PAIRS) }
}

/// The shape, changed in one to three places.
pub fn changed(rng: &mut Rng, shape: &Shape) -> Shape {
    let mut changed = shape.clone();
    for _ in 0..rng.pick(&[1, 1, 2, 3]) {
        match rng.below(8) {
            0 | 1 => change_side(rng, &mut changed.derived),
            2..5 => change_side(rng, &mut changed.base),
            5 => changed.main[rng.below(7)] = rng.pick(&VERDICTS),
            6 => changed.other[rng.below(7)] = rng.pick(&VERDICTS),
            _ => changed.leaves = leaves(rng),
        }
    }
    changed.fitted()
}

/// The base of the one, and the derived tree of the other.
pub fn mixed(rng: &mut Rng, one: Shape, other: Shape) -> Shape {
    let mixed = Shape { derived: other.derived, ..one };
    if rng.one_in(2) { changed(rng, &mixed) } else { mixed.fitted() }
}

fn change_side(rng: &mut Rng, side: &mut Side) {
    match rng.below(19) {
        0 => side.root = head(rng),
        1 => side.root.1 = rng.pick(&PAIRS),
        2 => side.levels = levels(rng),
        3 => side.levels = side.levels.saturating_sub(1),
        4 => side.heads[rng.below(2)] = head(rng),
        5 => side.heads = [head(rng); 2],
        6 => side.last = head(rng),
        7 => (side.heads, side.last) = ([side.last; 2], side.last),
        8 => side.before = extra(rng),
        9 => side.after = extra(rng),
        10 => side.item = item(rng),
        11 => side.item.pair = rng.pick(&PAIRS),
        12 => side.end = extra(rng),
        13 => side.tail = extra(rng),
        14 => side.fill = rng.pick(&FILLS),
        15 => side.few = few(rng),
        16 => side.names = names(rng),
        17 => (side.heads, side.last) = ([head(rng); 2], head(rng)),
        _ => {
            let pair = rng.pick(&PAIRS);
            side.heads.iter_mut().chain([&mut side.last]).for_each(|head| head.1 = pair);
        }
    }
}
