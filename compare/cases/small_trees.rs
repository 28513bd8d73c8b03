//! Every small tree: each shape of elements, wildcards, sequences, choices and
//! all-groups, with each choice of pairs from a list.

use common::tree::{Kind, Pair, RECORD, Tree, put_pair};

/// For trees of up to 3 records.
pub const PAIRS: [Pair; 24] = [
    (0, Some(0)),
    (0, Some(1)),
    (0, Some(2)),
    (0, Some(65536)),
    (0, Some(4294967295)),
    (0, None),
    (1, Some(1)),
    (1, Some(2)),
    (1, Some(65537)),
    (1, Some(4294967294)),
    (1, None),
    (2, Some(2)),
    (2, None),
    (65535, Some(65535)),
    (65535, Some(65537)),
    (65535, None),
    (65536, Some(65536)),
    (65536, None),
    (65537, Some(65537)),
    (2147483648, Some(2147483648)),
    (4294967294, Some(4294967294)),
    (4294967294, Some(4294967295)),
    (4294967295, Some(4294967295)),
    (4294967295, None),
];

/// For trees of 4 records.
pub const FEW_PAIRS: [Pair; 6] = [
    (0, Some(0)),
    (0, Some(1)),
    (1, Some(1)),
    (1, None),
    (65536, Some(65537)),
    (4294967295, Some(4294967295)),
];

/// For trees of up to 4 records whose words are compared: with these they have
/// short ones.
pub const SHORT_PAIRS: [Pair; 6] =
    [(0, Some(0)), (0, Some(1)), (1, Some(1)), (1, Some(2)), (2, Some(2)), (0, None)];

const ALL_PAIRS: [Pair; 2] = [(0, Some(1)), (1, Some(1))];

/// Hands the bytes of every tree of `records` records to `visit`, until it
/// says that this is enough (`Err`).
pub fn every<E>(
    records: usize,
    pairs: &[Pair],
    visit: &mut impl FnMut(&[u8]) -> Result<(), E>,
) -> Result<(), E> {
    for mut shape in shapes(records) {
        let mut place = 0;
        number_leaves(&mut shape, &mut place);
        let mut kinds = Vec::new();
        list_kinds(&shape, &mut kinds);
        with_pairs(&mut shape.encode(), &kinds, pairs, 0, visit)?;
    }
    Ok(())
}

/// Every choice of pairs for the records from `at` on.
fn with_pairs<E>(
    bytes: &mut Vec<u8>,
    kinds: &[Kind],
    pairs: &[Pair],
    at: usize,
    visit: &mut impl FnMut(&[u8]) -> Result<(), E>,
) -> Result<(), E> {
    let Some(kind) = kinds.get(at) else {
        return visit(bytes);
    };
    let own: &[Pair] = if *kind == Kind::All { &ALL_PAIRS } else { pairs };
    for pair in own {
        put_pair(&mut bytes[at * RECORD..(at + 1) * RECORD], *pair);
        with_pairs(bytes, kinds, pairs, at + 1, visit)?;
    }
    Ok(())
}

fn shapes(records: usize) -> Vec<Tree> {
    let once = (1, Some(1));
    let mut out = Vec::new();
    if records == 1 {
        out.push(Tree::leaf(Kind::Element, 0, once));
        out.push(Tree::leaf(Kind::Wildcard, 0, once));
    }
    for items in rows(records - 1) {
        if items.iter().all(|item| item.kind == Kind::Element) {
            out.push(Tree::group(Kind::All, once, items.clone()));
        }
        out.push(Tree::group(Kind::Sequence, once, items.clone()));
        out.push(Tree::group(Kind::Choice, once, items));
    }
    out
}

/// Every row of shapes with so many records in all.
fn rows(records: usize) -> Vec<Vec<Tree>> {
    if records == 0 {
        return vec![Vec::new()];
    }
    let mut out = Vec::new();
    for size in 1..=records {
        let rests = rows(records - size);
        for first in shapes(size) {
            for rest in &rests {
                let mut row = vec![first.clone()];
                row.extend_from_slice(rest);
                out.push(row);
            }
        }
    }
    out
}

/// Leaf numbers 0, 21, 42, 63 by place.
fn number_leaves(tree: &mut Tree, place: &mut u8) {
    if tree.kind.is_leaf() {
        tree.leaf = (*place * 21).min(63);
    }
    *place += 1;
    for item in &mut tree.items {
        number_leaves(item, place);
    }
}

fn list_kinds(tree: &Tree, kinds: &mut Vec<Kind>) {
    kinds.push(tree.kind);
    for item in &tree.items {
        list_kinds(item, kinds);
    }
}
