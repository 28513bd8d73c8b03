//! Every filling of a small sheet: one or two leaves of each kind, each verdict
//! of the second table ok, undecided or failing, the first table all ok or all
//! undecided, and up to three types, of a few numbers. The same by small tables of
//! types.

use common::sheet::{Leaf, Sheet};
use common::tree::Tree;

const VERDICTS: [u8; 3] = [0, 1, 148];
/// anyType and anySimpleType, a type with one that is derived from it, the last
/// of the list and two that it does not have.
const TYPES: [u8; 7] = [0, 1, 4, 34, 49, 50, 255];
const MOST_TYPES: usize = 3;

/// Calls `visit` with each sheet and its types, until it returns an error.
pub fn every<E>(visit: &mut impl FnMut(&[u8], &[u8]) -> Result<(), E>) -> Result<(), E> {
    let lists = lists(&TYPES);
    each_sheet(&[0, 1], &mut |bytes| lists.iter().try_for_each(|types| visit(bytes, types)))
}

/// Tables of types, two of them refused, and the numbers of their types.
const TABLES: [&[u8]; 7] =
    [&[0], &[0, 0], &[0, 0, 0], &[0, 0, 1, 2], &[0, 0, 0, 1], &[0, 1], &[0, 0, 2, 1]];
const ROWS: [u8; 5] = [0, 1, 2, 3, 4];

/// Calls `visit` with each sheet, its types and a table of types.
pub fn every_by<E>(visit: &mut impl FnMut(&[u8], &[u8], &[u8]) -> Result<(), E>) -> Result<(), E> {
    let lists = lists(&ROWS);
    each_sheet(&[1], &mut |bytes| {
        for parents in TABLES {
            lists.iter().try_for_each(|types| visit(bytes, types, parents))?;
        }
        Ok(())
    })
}

/// Every list of up to three types.
fn lists(numbers: &[u8]) -> Vec<Vec<u8>> {
    (0..=MOST_TYPES).flat_map(|count| rows(numbers, count)).collect()
}

/// Each sheet whose first table has one of these throughout.
fn each_sheet<E>(firsts: &[u8], visit: &mut impl FnMut(&[u8]) -> Result<(), E>) -> Result<(), E> {
    for n in [1, 2] {
        for leaves in rows(&[Leaf::element(7), Leaf::wildcard(1)], n) {
            for second in rows(&VERDICTS, n * n) {
                for first in firsts {
                    visit(&sheet(&leaves, vec![*first; n * n], &second))?;
                }
            }
        }
    }
    Ok(())
}

/// Every row of so many of these.
pub(crate) fn rows<T: Copy>(from: &[T], count: usize) -> Vec<Vec<T>> {
    let mut out = vec![Vec::new()];
    for _ in 0..count {
        out = out
            .iter()
            .flat_map(|row| from.iter().map(|more| [&row[..], &[*more]].concat()))
            .collect();
    }
    out
}

/// The trees are the first leaf and the last.
fn sheet(leaves: &[Leaf], first: Vec<u8>, second: &[u8]) -> Vec<u8> {
    let tree = |leaf: usize| Tree::leaf(leaves[leaf].kind, leaf as u8, (1, Some(1)));
    let (derived, base) = (tree(0), tree(leaves.len() - 1));
    let (leaves, second) = (leaves.to_vec(), second.to_vec());
    Sheet { leaves, first, second, derived, base }.encode()
}
