//! Every tiny sheet: all pairs of trees of few records over a few leaves, with
//! each choice of pairs from a list, under each of a few tables.

use common::sheet::{Leaf, Sheet};
use common::tree::{Kind, Pair, Tree};

/// A leaf list, the trees over it, and the tables.
struct Lot {
    leaves: Vec<Leaf>,
    records: usize,
    pairs: &'static [Pair],
    /// First and second, by rows.
    tables: Vec<[Vec<u8>; 2]>,
}

const PAIRS: [Pair; 6] =
    [(1, Some(1)), (0, Some(1)), (0, Some(0)), (0, None), (1, Some(2)), (2, Some(2))];

/// Hands every tiny sheet to `visit`, until it says that this is enough
/// (`Err`).
pub fn every<E>(visit: &mut impl FnMut(Sheet) -> Result<(), E>) -> Result<(), E> {
    for lot in [two_records(), three_records()] {
        let trees = trees(&lot);
        for [first, second] in &lot.tables {
            for derived in &trees {
                for base in &trees {
                    visit(Sheet {
                        leaves: lot.leaves.clone(),
                        first: first.clone(),
                        second: second.clone(),
                        derived: derived.clone(),
                        base: base.clone(),
                    })?;
                }
            }
        }
    }
    Ok(())
}

/// Trees of up to 2 records have one leaf each, so one place of each table
/// counts: all places have the same verdict.
fn two_records() -> Lot {
    let leaves = vec![Leaf::element(1), Leaf::element(2), Leaf::wildcard(1), Leaf::wildcard(2)];
    let mut tables = Vec::new();
    for first in [0, 1, 140] {
        for second in [0, 1, 141] {
            tables.push([vec![first; 16], vec![second; 16]]);
        }
    }
    Lot { leaves, records: 2, pairs: &PAIRS, tables }
}

/// Trees of up to 3 records: two items against two.
fn three_records() -> Lot {
    let leaves = vec![Leaf::element(1), Leaf::element(1), Leaf::wildcard(0)];
    let tables = [
        // Equal letters and all wildcards ok, others fail, each differently.
        ([0, 140, 141, 142, 0, 143, 144, 145, 0], [0, 146, 0, 147, 0, 0, 148, 149, 0]),
        // All ok.
        ([0; 9], [0; 9]),
        // One order of the letters is undecided, the other fails.
        ([0, 1, 140, 141, 0, 140, 140, 140, 140], [0, 0, 1, 142, 0, 143, 140, 140, 0]),
        // Equal letters undecided, the others ok or failing in the second.
        ([1, 0, 0, 0, 1, 0, 0, 0, 0], [0, 144, 0, 0, 0, 1, 0, 0, 1]),
    ];
    let tables = tables.map(|(first, second)| [first.to_vec(), second.to_vec()]);
    Lot { leaves, records: 3, pairs: &PAIRS[..2], tables: tables.to_vec() }
}

/// Every tree of a lot.
fn trees(lot: &Lot) -> Vec<Tree> {
    let mut by_records: Vec<Vec<Tree>> = vec![Vec::new()];
    for records in 1..=lot.records {
        let mut made = Vec::new();
        if records == 1 {
            for (number, leaf) in lot.leaves.iter().enumerate() {
                let leaf = |pair: &Pair| Tree::leaf(leaf.kind, number as u8, *pair);
                made.extend(lot.pairs.iter().map(leaf));
            }
        }
        for row in rows(&by_records, records - 1) {
            let group = |kind, pair: &Pair| Tree::group(kind, *pair, row.clone());
            made.extend(lot.pairs.iter().map(|pair| group(Kind::Sequence, pair)));
            made.extend(lot.pairs.iter().map(|pair| group(Kind::Choice, pair)));
            if row.iter().all(|item| item.kind == Kind::Element) {
                made.extend(PAIRS[..2].iter().map(|pair| group(Kind::All, pair)));
            }
        }
        by_records.push(made);
    }
    by_records.concat()
}

/// Every row of trees with so many records in all.
pub fn rows(by_records: &[Vec<Tree>], records: usize) -> Vec<Vec<Tree>> {
    if records == 0 {
        return vec![Vec::new()];
    }
    let mut out = Vec::new();
    for size in 1..=records {
        let rests = rows(by_records, records - size);
        for first in &by_records[size] {
            for rest in &rests {
                let mut row = vec![first.clone()];
                row.extend_from_slice(rest);
                out.push(row);
            }
        }
    }
    out
}
