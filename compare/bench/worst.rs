//! Sheets whose marking is long: a sequence of elements against a chain of
//! groups that ends at depth 12. Each level asks for both readings, so the
//! number of judgements doubles at each.

use common::sheet::{Leaf, Sheet};
use common::tree::{Kind, MOST_DEPTH, Pair, Tree};

const ONCE: Pair = (1, Some(1));
const TWICE: Pair = (0, Some(2));

/// So many members, a chain of groups of this kind whose last has so many
/// elements, and the two tables' verdicts on a member against each of them.
pub fn chain(members: usize, kind: Kind, bottom: usize, verdicts: (u8, u8)) -> Sheet {
    let element = |leaf| Tree::leaf(Kind::Element, leaf, ONCE);
    let last = Tree::group(kind, TWICE, vec![element(1); bottom]);
    let chain = (3..MOST_DEPTH).fold(last, |inner, _| Tree::group(kind, TWICE, vec![inner]));
    let table = |verdict| vec![0, verdict, verdict, 0];
    Sheet {
        leaves: vec![Leaf::element(0), Leaf::element(1)],
        first: table(verdicts.0),
        second: table(verdicts.1),
        derived: Tree::group(Kind::Sequence, ONCE, vec![element(0); members]),
        base: Tree::group(Kind::Choice, (0, None), vec![chain]),
    }
}

/// So many records in each tree: members, and elements at the end of a chain of
/// choices.
pub fn of_records(records: usize, verdicts: (u8, u8)) -> Sheet {
    let groups = MOST_DEPTH - 1;
    chain(records - 1, Kind::Choice, records - groups, verdicts)
}
