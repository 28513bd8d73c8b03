//! Tests of the layout: each zero byte, counts of 16 bits and their bytes
//! exchanged, trees of as many records as there may be and of one more, the
//! longest sheet.

use crate::marker::{item, mark, tidy, total_range, Mark, Maximum, Minimum, Range, Refusal};
use crate::marker::{MOST_SHEET, MOST_TREE, RECORD};
use crate::{once, put, refused_alone, row, sheet, BASE_COUNT, COUNT, DERIVED_COUNT, TOTAL, ZERO};
use crate::{ELEMENT, MIN, MOST_LEAVES, MOST_RECORDS, SEQUENCE, ZEROS};

/// The sheet with other bytes from a place on.
fn with(sheet: &[u8], at: usize, value: &[u8]) -> Vec<u8> {
    let mut changed = sheet.to_vec();
    put(&mut changed, at, value);
    changed
}

/// The bytes with those of the number of 16 bits at a place exchanged.
fn exchanged(bytes: &[u8], at: usize) -> Vec<u8> {
    with(bytes, at, &[bytes[at + 1], bytes[at]])
}

#[test]
fn zero_bytes() {
    let tree = row(2);
    let good = sheet(1, &tree, &tree);
    assert_eq!(mark(&good), Mark::Passes);
    let (derived, base) = (good.len() - 4 * RECORD, good.len() - 2 * RECORD);
    for value in [1, 128, 255] {
        let contents = with(&good, ZERO, &[value]);
        assert_eq!(mark(&contents), Mark::Refused(Refusal::CONTENTS));
        for at in (ZEROS..MIN).chain(RECORD + ZEROS..RECORD + MIN) {
            let spoiled = with(&good, base + at, &[value]);
            assert_eq!(mark(&spoiled), Mark::Refused(Refusal::BASE_FIELDS), "byte {at}");
            let spoiled = with(&good, derived + at, &[value]);
            assert_eq!(mark(&spoiled), Mark::Refused(Refusal::DERIVED_FIELDS), "byte {at}");
            refused_alone(&with(&tree, at, &[value]), Refusal::DERIVED_FIELDS);
        }
    }
}

#[test]
fn item_counts() {
    for items in [255, 256, 258, 699] {
        let tree = row(items + 1);
        let total = items as u32;
        let range = Range { min: Minimum::Exact(total), max: Maximum::Bounded(total) };
        assert_eq!(total_range(&tree), Ok(range));
        assert_eq!(mark(&sheet(1, &tree, &tree)), Mark::Passes);
        refused_alone(&exchanged(&tree, COUNT), Refusal::DERIVED_COUNTS);
    }
    refused_alone(&once(SEQUENCE, 0, 256), Refusal::DERIVED_COUNTS);
    refused_alone(&once(ELEMENT, 0, 256), Refusal::DERIVED_FIELDS);
    refused_alone(&exchanged(&row(2), COUNT), Refusal::DERIVED_COUNTS);
}

#[test]
fn contents() {
    let good = sheet(1, &row(2), &row(3));
    // The total is as before, but the base tree starts a record later.
    let other = with(&good, DERIVED_COUNT, &[3, 0]);
    let other = with(&other, BASE_COUNT, &[2, 0]);
    assert_eq!(mark(&other), Mark::Refused(Refusal::BASE_COUNTS));
    for field in [DERIVED_COUNT, BASE_COUNT, TOTAL] {
        assert_eq!(mark(&exchanged(&good, field)), Mark::Refused(Refusal::CONTENTS));
        for value in [0, 255] {
            let spoiled = with(&good, field, &[value, value]);
            assert_eq!(mark(&spoiled), Mark::Refused(Refusal::CONTENTS));
        }
    }
    let longer = [&good[..], &[0]].concat();
    assert_eq!(mark(&longer), Mark::Refused(Refusal::CONTENTS));
    let total = (longer.len() as u16).to_le_bytes();
    assert_eq!(mark(&with(&longer, TOTAL, &total)), Mark::Refused(Refusal::CONTENTS));
}

#[test]
fn a_record_too_many() {
    let (one, most, more) = (row(1), row(MOST_RECORDS), row(MOST_RECORDS + 1));
    assert_eq!(mark(&sheet(1, &most, &most)), Mark::Passes);
    assert_eq!(mark(&sheet(1, &more, &one)), Mark::Refused(Refusal::CONTENTS));
    assert_eq!(mark(&sheet(1, &one, &more)), Mark::Refused(Refusal::CONTENTS));
    refused_alone(&more, Refusal::DERIVED_COUNTS);
}

/// The longest tree, alone and as both trees of the longest sheet.
#[test]
fn longest() {
    let tree = row(MOST_RECORDS);
    let mut sheet = sheet(MOST_LEAVES, &tree, &tree);
    assert_eq!((tree.len(), sheet.len()), (MOST_TREE, MOST_SHEET));
    assert_eq!(mark(&sheet), Mark::Passes);
    sheet.push(0);
    assert_eq!(mark(&sheet), Mark::Refused(Refusal::CONTENTS));
    assert_eq!(tidy(&tree, &mut vec![0; MOST_TREE]), Ok(MOST_RECORDS));
    assert_eq!(item(&tree, MOST_RECORDS - 2), Some(&tree[MOST_TREE - RECORD..]));
}
