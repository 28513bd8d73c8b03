//! The pairs of trees that are searched: lots of small trees over a few
//! leaves, with no all-group inside a group.

use cases::tiny_sheets::rows;
use common::sheet::Leaf;
use common::tree::{Kind, Pair, Tree};

pub struct Lot {
    pub name: &'static str,
    pub leaves: Vec<Leaf>,
    /// Both tables, by rows.
    pub table: Vec<u8>,
    pairs: &'static [Pair],
    /// The most records of both trees together.
    records: usize,
    /// All-groups only.
    alls: bool,
}

const PAIRS: [Pair; 6] =
    [(1, Some(1)), (0, Some(1)), (2, Some(2)), (0, Some(0)), (0, None), (1, Some(2))];
/// Those that an all-group may have.
const OF_ALL: &[Pair] = PAIRS.split_at(2).0;

pub fn every() -> [Lot; 5] {
    let [a, b, w] = [Leaf::element(0), Leaf::element(1), Leaf::wildcard(0)];
    let lot = |name, leaves, table, pairs, records| Lot {
        name,
        leaves,
        table,
        pairs,
        records,
        alls: false,
    };
    let equal = || vec![0, 140, 140, 0];
    [
        lot("a, b, w", vec![a, b, w], vec![0, 140, 0, 140, 0, 0, 140, 140, 0], &PAIRS, 3),
        lot("a, w", vec![a, w], vec![0, 0, 140, 0], &PAIRS[..4], 4),
        lot("a, b : name 0", vec![a, a], equal(), OF_ALL, 5),
        lot("a | b : ok", vec![a, b], vec![0, 0, 140, 0], OF_ALL, 5),
        Lot { alls: true, ..lot("all-groups of a, b", vec![a, b], equal(), OF_ALL, 6) },
    ]
}

/// Hands every pair of a lot to `visit`, until it says that this is enough
/// (`Err`).
pub fn pairs<E>(lot: &Lot, visit: &mut impl FnMut(&Tree, &Tree) -> Result<(), E>) -> Result<(), E> {
    let trees = trees(lot);
    for records in 2..=lot.records {
        for of_derived in 1..records {
            for derived in &trees[of_derived] {
                for base in &trees[records - of_derived] {
                    visit(derived, base)?;
                }
            }
        }
    }
    Ok(())
}

/// Every tree of a lot, by its records.
fn trees(lot: &Lot) -> Vec<Vec<Tree>> {
    // Those that may be items, and all-groups beside them.
    let mut items: Vec<Vec<Tree>> = vec![Vec::new()];
    let mut alls: Vec<Vec<Tree>> = vec![Vec::new()];
    for records in 1..lot.records {
        let (mut made, mut of_all) = (Vec::new(), Vec::new());
        for row in rows(&items, records - 1) {
            let group = |kind, pair: &Pair| Tree::group(kind, *pair, row.clone());
            for kind in [Kind::Sequence, Kind::Choice] {
                made.extend(lot.pairs.iter().map(|pair| group(kind, pair)));
            }
            if row.iter().all(|item| item.kind == Kind::Element) {
                of_all.extend(OF_ALL.iter().map(|pair| group(Kind::All, pair)));
            }
        }
        for (number, leaf) in lot.leaves.iter().enumerate().filter(|_| records == 1) {
            let leaf = |pair: &Pair| Tree::leaf(leaf.kind, number as u8, *pair);
            made.extend(lot.pairs.iter().map(leaf));
        }
        items.push(made);
        alls.push(of_all);
    }
    if lot.alls {
        return alls;
    }
    items.into_iter().zip(alls).map(|(items, alls)| [items, alls].concat()).collect()
}
