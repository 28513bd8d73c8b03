//! Sheets about the two record counts of the contents, with their answers
//! written down by hand: their bytes, counts that fit the total or do not, and
//! trees of more records than a byte can count.

use common::bytes::{exchange, put_short};
use common::notation::parse;
use common::sheet::{BASE, Bodies, Counts, DERIVED, LEAF_BYTES, MOST_LEAVES, TOTAL};
use common::tree::{MOST_RECORDS, RECORD};

use crate::known_sheets::{Known, bodies, bytes};

pub fn known() -> Vec<Known> {
    [in_bytes(), counts(), large(), longest()].concat()
}

/// The good sheet of known_sheets.rs with other record counts: it has 3 derived
/// and 3 base records.
fn counted(derived: usize, base: usize) -> Vec<u8> {
    bytes(|b| Counts { derived, base, ..Counts::read(b) }.put(b))
}

fn exchanged(mut sheet: Vec<u8>, place: usize) -> Vec<u8> {
    exchange(&mut sheet, place);
    sheet
}

/// The layout itself, byte by byte: a sequence of 300 times a against
/// C(0,*)[b], which is ok in the first table and undecided in the second.
fn in_bytes() -> Vec<Known> {
    let contents = [2, 0, 45, 1, 2, 0, 8, 19];
    let (leaves, tables) = ([0, 0, 0, 0, 0, 0, 1, 0], [0, 0, 140, 0, 0, 1, 140, 0]);
    let row = [2, 0, 44, 1, 0, 0, 0, 0, 1, 0, 0, 0, 1, 0, 0, 0];
    let a = [0, 0, 0, 0, 0, 0, 0, 0, 1, 0, 0, 0, 1, 0, 0, 0];
    let around = [3, 0, 1, 0, 1, 0, 0, 0, 0, 0, 0, 0, 0, 0, 0, 0];
    let b = [0, 1, 0, 0, 0, 0, 0, 0, 1, 0, 0, 0, 1, 0, 0, 0];
    let sheet = [&contents[..], &leaves, &tables, &row, &a.repeat(300), &around, &b].concat();
    let changed = |at: usize, value: u8| {
        let mut sheet = sheet.clone();
        sheet[at] = value;
        sheet
    };
    vec![
        ("300 items, byte by byte", sheet.clone(), "undecided"),
        ("the contents' byte 0", changed(0, 1), "refused 1"),
        ("the contents' byte 1", changed(1, 1), "refused 1"),
        ("the contents' byte 2", changed(2, 44), "refused 1"),
        ("the contents' byte 3", changed(3, 0), "refused 1"),
        ("the contents' byte 4", changed(4, 1), "refused 1"),
        ("the contents' byte 5", changed(5, 1), "refused 1"),
        ("the contents' byte 6", changed(6, 9), "refused 1"),
        ("the contents' byte 7", changed(7, 18), "refused 1"),
    ]
}

/// Counts and their bytes: as the total and the length are, or unlike them.
fn counts() -> Vec<Known> {
    let good = || bytes(|_| {});
    let high = |place: usize| bytes(|b| b[place + 1] = 1);
    // So many records more come to the same total in 16 bits.
    let around = 65536 / RECORD;
    let mut other = bodies(|b| b.base = parse("S[a,S[b(0,1)]]").encode());
    let Counts { leaves, derived, base } = Counts::read(&other);
    Counts { leaves, derived: base, base: derived }.put(&mut other);
    vec![
        ("the derived count's higher byte", high(DERIVED), "refused 1"),
        ("the base count's higher byte", high(BASE), "refused 1"),
        ("the derived count's bytes exchanged", exchanged(good(), DERIVED), "refused 1"),
        ("the base count's bytes exchanged", exchanged(good(), BASE), "refused 1"),
        ("the total's bytes exchanged", exchanged(good(), TOTAL), "refused 1"),
        ("a derived count of 256", counted(256, 3), "refused 1"),
        ("a base count of 256", counted(3, 256), "refused 1"),
        ("a derived count of 0", counted(0, 6), "refused 1"),
        ("a base count of 0", counted(6, 0), "refused 1"),
        ("a derived count once around", counted(3 + around, 3), "refused 1"),
        ("a base count once around", counted(3, 3 + around), "refused 1"),
        ("counts that together go around", counted(around, 6), "refused 1"),
        ("a derived record counted for the base", counted(2, 4), "refused 9"),
        ("a base record counted for the derived", counted(4, 2), "refused 9"),
        ("all but one counted for the derived", counted(5, 1), "refused 14"),
        ("equal counts exchanged", counted(3, 3), "passes"),
        // The base is then a, S[b]: the sequence is one too many.
        ("other counts exchanged", other, "refused 9"),
    ]
}

/// A sequence of elements, so many records in all.
fn row(records: usize) -> Vec<u8> {
    parse(&format!("S[{}]", vec!["a"; records - 1].join(","))).encode()
}

/// The longest sheet, its length and its total.
fn longest() -> Vec<Known> {
    let table = || vec![0; MOST_LEAVES * MOST_LEAVES];
    let sheet = Bodies {
        leaves: vec![0; LEAF_BYTES * MOST_LEAVES],
        first: table(),
        second: table(),
        derived: row(MOST_RECORDS),
        base: row(MOST_RECORDS),
    };
    let sheet = sheet.join();
    let longer = [&sheet[..], &[0]].concat();
    let mut counted = longer.clone();
    put_short(&mut counted, TOTAL, longer.len());
    vec![
        ("the longest sheet", sheet.clone(), "passes"),
        ("the longest sheet and a byte", longer, "refused 1"),
        ("the longest sheet and a byte, counted", counted, "refused 1"),
        ("the longest sheet without a byte", sheet[..sheet.len() - 1].to_vec(), "refused 1"),
        ("the longest sheet, its total exchanged", exchanged(sheet, TOTAL), "refused 1"),
    ]
}

/// More records than a byte can count: rows of a below a wildcard, and above an
/// empty sequence.
fn large() -> Vec<Known> {
    let [empty, wildcard] = ["S[]", "w2(0,*)"].map(|text| parse(text).encode());
    let derived =
        |records: usize| bodies(|b| (b.derived, b.base) = (row(records), wildcard.clone()));
    let base = |records: usize| bodies(|b| (b.derived, b.base) = (empty.clone(), row(records)));
    let both = |d: usize, b: usize| bodies(|s| (s.derived, s.base) = (row(d), row(b)));
    let mut lengths = both(300, 258);
    Counts { leaves: 3, derived: 258, base: 300 }.put(&mut lengths);
    vec![
        ("256 derived records", derived(256), "passes"),
        ("257 derived records", derived(257), "passes"),
        ("700 derived records", derived(700), "passes"),
        ("the most derived records", derived(MOST_RECORDS), "passes"),
        ("a derived record over", derived(MOST_RECORDS + 1), "refused 1"),
        ("256 base records", base(256), "fails 121"),
        ("257 base records", base(257), "fails 121"),
        ("700 base records", base(700), "fails 121"),
        ("the most base records", base(MOST_RECORDS), "fails 121"),
        ("a base record over", base(MOST_RECORDS + 1), "refused 1"),
        ("a record over in either tree", both(MOST_RECORDS + 1, MOST_RECORDS + 1), "refused 1"),
        ("256 derived records, exchanged to 1", exchanged(derived(256), DERIVED), "refused 1"),
        ("256 base records, exchanged to 1", exchanged(base(256), BASE), "refused 1"),
        ("700 derived records, exchanged", exchanged(derived(700), DERIVED), "refused 1"),
        ("300 and 258 records", both(300, 258), "fails 120"),
        ("300 and 258 records, counts exchanged", lengths, "refused 9"),
    ]
}
