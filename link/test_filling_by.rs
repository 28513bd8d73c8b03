//! Tests of `fill_types_by`: every byte of a sheet and around it, by a reading of
//! document 02 that takes test_type_tables.rs's and the library's mark for the sheet's
//! own refusals; each refusal, and their order.

use std::collections::BTreeSet;

use crate::marker::{fill_types, fill_types_by, mark, Mark, Refusal, MOST_SHEET, MOST_TYPES};
use crate::test_sheet::Draw;
use crate::test_type_tables::{chain, derives, drawn_table, in_order, pairs};
use crate::test_types::{a_and_b, lent_to, spoiled_sheets, FOUR};
use crate::types::Type;
use crate::{once, row, sheet, CONTENTS_SIZE, ELEMENT, LEAF_SIZE, LEAVES, MOST_LEAVES};
use crate::{MOST_RECORDS, RECORD, WILDCARD};

// The club's types, by their rows, after `anyType` and `anySimpleType`.
const TITLE: u8 = 2;
const MASTER: u8 = 3;
const GRANDMASTER: u8 = 4;
const RATING: u8 = 5;
const CLUB: [u8; 6] = [0, 0, 1, TITLE, MASTER, 1];

/// Who is derived from whom among them, besides itself and the first two rows.
const CLUB_DERIVED: [(u32, u32); 3] = [(3, 2), (4, 2), (4, 3)];

/// The reading: what becomes of a sheet.
fn read_filling(sheet: &[u8], types: &[u8], parents: &[u8]) -> Result<Vec<u8>, Refusal> {
    if !in_order(parents) {
        return Err(Refusal::TYPE_TABLE);
    }
    if let Mark::Refused(refusal) = mark(sheet) {
        return Err(refusal);
    }
    let n = usize::from(sheet[LEAVES]);
    let element = |leaf: usize| sheet[CONTENTS_SIZE + leaf * LEAF_SIZE] == ELEMENT;
    let is_row = |leaf: usize| usize::from(types[leaf]) < parents.len();
    if types.len() != n || !(0..n).all(|leaf| !element(leaf) || is_row(leaf)) {
        return Err(Refusal::TYPE_NUMBER);
    }
    let (mut after, second) = (sheet.to_vec(), CONTENTS_SIZE + n * LEAF_SIZE + n * n);
    for place in (0..n * n).filter(|place| element(place / n) && element(place % n)) {
        if after[second + place] == 1 {
            let ok = derives(parents, types[place / n], types[place % n]);
            after[second + place] = if ok { 0 } else { 148 };
        }
    }
    Ok(after)
}

/// It is filled in or refused as the reading says; filled in again, it stays so.
fn fills(sheet: &[u8], types: &[u8], parents: &[u8]) -> Result<Vec<u8>, Refusal> {
    let filled = |sheet: &[u8]| lent_to(|lent| fill_types_by(lent, types, parents), sheet);
    let expected = read_filling(sheet, types, parents);
    assert_eq!(filled(sheet), expected, "{types:?} by {parents:?}");
    if let Ok(after) = &expected {
        assert_eq!(filled(after), expected, "{types:?} by {parents:?}, twice");
    }
    expected
}

/// A sheet of so many elements, every verdict undecided.
fn undecided(leaves: u8) -> Vec<u8> {
    let (n, leaf) = (usize::from(leaves), once(ELEMENT, 0, 0));
    let mut bytes = sheet(leaves, &leaf, &leaf);
    let tables = CONTENTS_SIZE + n * LEAF_SIZE;
    bytes[tables..tables + 2 * n * n].fill(1);
    bytes
}

/// Every two of the club's types, with any byte for a wildcard; a mark that follows.
#[test]
fn club_types() -> Result<(), Refusal> {
    let sheet = a_and_b();
    for (derived, base) in pairs(6) {
        for unread in 0..=255 {
            let after = fills(&sheet, &[derived as u8, unread, base as u8, TITLE], &CLUB)?;
            let ok = CLUB_DERIVED.contains(&(derived, base)) || base < 2 || derived == base;
            assert_eq!(mark(&after) == Mark::Passes, ok, "{derived} | {base}");
        }
    }
    let mut sheet = sheet;
    fill_types_by(&mut sheet, &[MASTER, 0, RATING, 0], &CLUB)?;
    assert_eq!(mark(&sheet).to_string(), "fails 148");
    Ok(())
}

/// Each number as an element's, in tables of the fewest and the most rows, whether or
/// not a verdict is undecided.
#[test]
fn numbers_of_rows() {
    let leaf = once(ELEMENT, 0, 0);
    let (open, decided) = (undecided(3), sheet(3, &leaf, &leaf));
    for rows in [1, 2, 3, 33, 199, 200] {
        let parents = chain(rows);
        for number in 0..=255 {
            let last = rows as u8 - 1;
            let expected = usize::from(number) < rows;
            for types in [[last, number, last], [number, number, last], [0, last, number]] {
                assert_eq!(fills(&open, &types, &parents).is_ok(), expected, "{number} of {rows}");
                assert_eq!(fills(&decided, &types, &parents).is_ok(), expected);
            }
        }
    }
}

/// 18 before the sheet's own refusals, these before 17.
#[test]
fn order() {
    let good = [GRANDMASTER, 255, TITLE, RATING];
    let wrong_types = [&[6, 0, 0, 0][..], &good[..3], &[0; 5], &[]];
    let flat = [0; 65536 + 6];
    let by_length = [0, 201, 255, 256 + 6, 65536 + 6].map(|rows| &flat[..rows]);
    let by_row =
        [&[1][..], &[0, 1], &[0, 1, 1, 2, 3, 1], &[0, 0, 2], &[0, 0, 1, 5, 3, 1], &[0, 0, 255]];
    let spoiled = spoiled_sheets().into_iter().map(|(sheet, by)| (sheet, Some(by)));
    let sheets: Vec<_> = spoiled.chain([(a_and_b(), None)]).collect();
    let numbers: BTreeSet<_> = sheets.iter().map(|(_, by)| by.map_or(0, Refusal::number)).collect();
    assert!(numbers.into_iter().eq([0, 1].into_iter().chain(3..=14)), "each refusal of a sheet");
    for (sheet, refusal) in sheets {
        for parents in by_length.into_iter().chain(by_row) {
            for types in wrong_types.into_iter().chain([&good[..]]) {
                assert_eq!(fills(&sheet, types, parents), Err(Refusal::TYPE_TABLE));
            }
        }
        for types in wrong_types {
            let expected = refusal.unwrap_or(Refusal::TYPE_NUMBER);
            assert_eq!(fills(&sheet, types, &CLUB), Err(expected));
        }
        assert_eq!(fills(&sheet, &good, &CLUB).err(), refusal);
    }
}

/// The built-in list fills in as `fill_types` does; types and parents may share bytes.
#[test]
fn filled_as_without() {
    let sheet = undecided(FOUR as u8);
    for (derived, base) in pairs(52) {
        let types = [derived as u8, base as u8, 34, 2];
        let without = lent_to(|lent| fill_types(lent, &types), &sheet);
        assert_eq!(fills(&sheet, &types, &Type::PARENTS), without);
    }
    for (spoiled, refusal) in spoiled_sheets() {
        assert_eq!(fills(&spoiled, &[0; FOUR], &Type::PARENTS), Err(refusal));
    }
    assert!(fills(&sheet, &CLUB[..FOUR], &CLUB).is_ok());
}

/// Drawn tables, sheets and types, some of each out of order.
#[test]
fn drawn_fillings() {
    let (mut draw, mut counts) = (Draw(4), [0, 0]);
    for _ in 0..3000 {
        let n = 1 + draw.below(6) as usize;
        let (mut bytes, mut parents) = (undecided(n as u8), drawn_table(&mut draw));
        let rows = parents.len() as u32;
        for leaf in 1..n {
            bytes[CONTENTS_SIZE + leaf * LEAF_SIZE] = u8::from(draw.once_in(4));
        }
        let second = CONTENTS_SIZE + n * LEAF_SIZE + n * n;
        bytes[second..second + n * n].fill_with(|| match draw.below(20) {
            reason @ 0..=12 => 140 + reason as u8,
            other => u8::from(other > 13),
        });
        let types = (0..=n).map(|_| match draw.once_in(40) {
            true => draw.below(256) as u8,
            false => draw.below(rows) as u8,
        });
        let types: Vec<u8> = types.collect();
        match draw.below(20) {
            0 => bytes[draw.below(8) as usize] ^= 1,
            1 => parents[draw.below(rows) as usize] = draw.below(256) as u8,
            _ => {}
        }
        let count = if draw.once_in(20) { n + 1 - draw.below(3) as usize } else { n };
        let answer = fills(&bytes, &types[..count], &parents);
        counts[usize::from(answer.is_ok())] += 1;
    }
    assert!(counts.iter().all(|count| *count > 300), "{counts:?}");
}

/// As many leaves, records and rows as there may be; every seventh leaf is a wildcard.
#[test]
fn longest() -> Result<(), Refusal> {
    let (n, tree, mut parents) = (usize::from(MOST_LEAVES), row(MOST_RECORDS), chain(MOST_TYPES));
    let mut most = sheet(MOST_LEAVES, &tree, &tree);
    assert_eq!(most.len(), MOST_SHEET);
    let trees = most.len() - 2 * MOST_RECORDS * RECORD;
    most[trees - 2 * n * n..trees].fill(1);
    let mut types: Vec<u8> = (0..n).map(|leaf| (199 - 11 * leaf % 199) as u8).collect();
    for leaf in (3..n).step_by(7) {
        most[CONTENTS_SIZE + leaf * LEAF_SIZE] = WILDCARD;
        types[leaf] = 255;
    }
    fills(&most, &types, &parents)?;
    types[n - 1] = 200;
    assert_eq!(fills(&most, &types, &parents), Err(Refusal::TYPE_NUMBER));
    parents[199] = 199;
    assert_eq!(fills(&most, &types, &parents), Err(Refusal::TYPE_TABLE));
    Ok(())
}
