//! Tests of tables of types: `type_derivation_ok_by` and `check_type_table`. Verdicts
//! by drawn tables are held to a simple reading of document 02, which
//! test_filling_by.rs takes too.

use std::error::Error;
use std::iter::successors;

use crate::marker::{type_derivation_ok, type_derivation_ok_by, Refusal, MOST_TYPES};
use crate::test_sheet::Draw;
use crate::types::{check_type_table, Type};

/// Every two numbers below this one.
pub fn pairs(limit: u32) -> impl Iterator<Item = (u32, u32)> {
    (0..limit * limit).map(move |k| (k / limit, k % limit))
}

/// A chain of so many rows.
pub fn chain(rows: usize) -> Vec<u8> {
    (0..rows).map(|row| row.saturating_sub(1) as u8).collect()
}

/// The reading: whether these rows are a table of types.
pub fn in_order(parents: &[u8]) -> bool {
    let row_in_order = |(row, &parent): (usize, &u8)| match row {
        0 | 1 => parent == 0,
        _ => usize::from(parent) < row,
    };
    (1..=200).contains(&parents.len()) && parents.iter().enumerate().all(row_in_order)
}

/// The verdict for two rows, from the derived type up to row 0.
pub fn derives(parents: &[u8], derived: u8, base: u8) -> bool {
    let parent = |row: &u8| (*row != 0).then(|| parents[usize::from(*row)]);
    base < 2 || successors(Some(derived), parent).any(|row| row == base)
}

/// The answer for two numbers.
fn read_verdict(parents: &[u8], derived: u8, base: u8) -> Result<bool, Refusal> {
    let is_row = |number: u8| usize::from(number) < parents.len();
    match in_order(parents) {
        false => Err(Refusal::TYPE_TABLE),
        true if is_row(derived) && is_row(base) => Ok(derives(parents, derived, base)),
        true => Err(Refusal::TYPE_NUMBER),
    }
}

/// The table is refused for this row, whatever the numbers are.
fn refused_for(parents: &[u8], row: usize) {
    for number in [0, 1, 199, 200, u32::MAX] {
        assert_eq!(type_derivation_ok_by(parents, number, 0u8), Err(Refusal::TYPE_TABLE));
        assert_eq!(type_derivation_ok_by(parents, 0u8, number), Err(Refusal::TYPE_TABLE));
    }
    assert_eq!(check_type_table(parents).map_err(|fault| fault.row()), Err(row), "{parents:?}");
}

/// The table is not refused.
fn accepted(parents: &[u8]) {
    assert_eq!(type_derivation_ok_by(parents, parents.len() as u32 - 1, 0u8), Ok(true));
    assert_eq!(check_type_table(parents), Ok(()));
}

/// Tables of one, two and three rows.
#[test]
fn smallest() {
    let parents = [0, 0, 1];
    for (derived, base) in pairs(4) {
        for rows in 1..=3 {
            let expected = match derived.max(base) < rows {
                true => Ok(base < 2 || derived == 2),
                false => Err(Refusal::TYPE_NUMBER),
            };
            let answer = type_derivation_ok_by(&parents[..rows as usize], derived, base);
            assert_eq!(answer, expected, "{derived} | {base} of {rows}");
        }
    }
}

#[test]
fn lengths() {
    let flat = [0; 65536 + MOST_TYPES];
    refused_for(&[], 0);
    (1..=MOST_TYPES).for_each(|rows| accepted(&flat[..rows]));
    for rows in (MOST_TYPES + 1..1024).chain(65535..=flat.len()) {
        refused_for(&flat[..rows], MOST_TYPES);
    }
}

/// Every byte as the parent of every row.
#[test]
fn rows() {
    for rows in [1, 2, 3, 4, 33, 50, 199, 200] {
        for row in 0..rows {
            for parent in 0..=255 {
                for mut parents in [vec![0; rows], chain(rows)] {
                    parents[row] = parent;
                    match parent == 0 || usize::from(parent) < row {
                        true => accepted(&parents),
                        false => refused_for(&parents, row),
                    }
                }
            }
        }
    }
}

/// By hand; of two faults the first is named.
#[test]
fn faults() {
    let faults = [
        (&[][..], 0, "row 0: it is missing, or not its own parent"),
        (&[1, 0, 0], 0, "row 0: it is missing, or not its own parent"),
        (&[0, 1], 1, "row 1: its parent is not row 0"),
        (&[0, 2, 0], 1, "row 1: its parent is not row 0"),
        (&[0, 0, 1, 3], 3, "row 3: its parent is not an earlier row"),
        (&[0, 0, 3, 1], 2, "row 2: its parent is not an earlier row"),
        (&[0, 0, 2, 1, 4], 2, "row 2: its parent is not an earlier row"),
        (&[0, 0, 255], 2, "row 2: its parent is not an earlier row"),
        (&[0; 201], 200, "row 200: a table of types has at most 200 rows"),
    ];
    for (parents, row, words) in faults {
        refused_for(parents, row);
        let error: Box<dyn Error> = check_type_table(parents).expect_err("a fault").into();
        assert_eq!(error.to_string(), words);
    }
    let words = "the examiner's mistake: a table of types of 0 or over 200 rows, or with a row \
                 whose parent is out of order";
    assert_eq!((Refusal::TYPE_TABLE.number(), Refusal::TYPE_TABLE.words()), (18, words));
}

/// Every two rows of a chain of 199 links, and of two chains that part at row 1; the
/// ends of chains of 32, 33 and 34 links.
#[test]
fn chains() {
    let most = chain(MOST_TYPES);
    let two: Vec<u8> = (0..200).map(|row| if row < 4 { row / 2 } else { row - 2 }).collect();
    for (derived, base) in pairs(200) {
        let above = base < 2 || base <= derived;
        let same = base < 2 || derived % 2 == base % 2;
        assert_eq!(type_derivation_ok_by(&most, derived, base), Ok(above), "{derived} | {base}");
        assert_eq!(type_derivation_ok_by(&two, derived, base), Ok(above && same));
    }
    for links in [1, 31, 32, 33, 34, 197u8] {
        let (last, rows) = (2 + links, chain(usize::from(links) + 3));
        assert_eq!(type_derivation_ok_by(&rows, last, 2u8), Ok(true), "{links} links");
        assert_eq!(type_derivation_ok_by(&rows, 2u8, last), Ok(false), "{links} links");
        assert_eq!(type_derivation_ok_by(&rows, last + 1, 2u8), Err(Refusal::TYPE_NUMBER));
    }
}

/// The built-in list answers as it does without a table; types of one's own may follow.
#[test]
fn built_in_list() {
    accepted(&Type::PARENTS);
    for (derived, base) in pairs(256).chain([(256 + 34, 4), (34, 256 + 4), (u32::MAX, 0)]) {
        let without = type_derivation_ok(derived, base);
        assert_eq!(type_derivation_ok_by(&Type::PARENTS, derived, base), without);
    }
    let rating = 50u8;
    let further = [&Type::PARENTS[..], &[Type::POSITIVE_INTEGER.number(), rating]].concat();
    accepted(&further);
    for &base in Type::ALL {
        let expected = type_derivation_ok(Type::POSITIVE_INTEGER, base);
        assert_eq!(type_derivation_ok_by(&further, rating + 1, base), expected, "{base}");
        assert_eq!(type_derivation_ok_by(&further, base, rating), Ok(false), "{base}");
    }
    assert_eq!(type_derivation_ok_by(&further, rating + 1, rating), Ok(true));
    assert_eq!(type_derivation_ok_by(&further, rating, rating + 1), Ok(false));
}

/// A table of types whose parents are at most so many rows above: a chain, or a bush.
pub fn drawn_table(draw: &mut Draw) -> Vec<u8> {
    let most = if draw.once_in(3) { 8 } else { 200 };
    let reach = if draw.once_in(2) { 1 + draw.below(3) } else { 200 };
    let rows = 1 + draw.below(most);
    (0..rows).map(|row| row.saturating_sub(1 + draw.below(reach.min(row.max(1)))) as u8).collect()
}

#[test]
fn drawn_tables() {
    let (mut draw, mut counts) = (Draw(3), [0; 3]);
    for round in 0..600 {
        let mut parents = drawn_table(&mut draw);
        if round % 3 == 0 {
            let at = draw.below(parents.len() as u32) as usize;
            parents[at] = draw.below(256) as u8;
        }
        if draw.once_in(20) {
            parents.resize(200 + draw.below(60) as usize, 0);
        }
        let fault = check_type_table(&parents).err().map(|fault| fault.row());
        let first = (0..parents.len()).find(|row| !in_order(&parents[..=*row]));
        assert_eq!(fault, first, "{parents:?}");
        for _ in 0..1000 {
            let derived = draw.below(parents.len().min(254) as u32 + 1) as u8;
            let base = draw.below(u32::from(derived) + 2) as u8;
            let answer = type_derivation_ok_by(&parents, derived, base);
            assert_eq!(answer, read_verdict(&parents, derived, base), "{derived} | {base}");
            counts[answer.map_or(2, usize::from)] += 1;
        }
    }
    assert!(counts.iter().all(|count| *count > 60000), "{counts:?}");
}
