//! Tests of marker.rs against the archive: each function, each refusal, every
//! byte of a lent buffer.

mod marker;
mod sheet;
mod test_chains;
mod test_filling_by;
mod test_layout;
mod test_sheet;
mod test_type_tables;
mod test_types;
mod types;

use marker::Maximum::{self, Bounded, Unbounded};
use marker::Minimum::{self, Exact};
use marker::{copy_item, emptiable, item, mark, tidy, total_range, Mark, Range, Reason, Refusal};
use marker::{MOST_DEPTH, MOST_RECORDS, MOST_TREE, RECORD};

const ELEMENT: u8 = 0;
const WILDCARD: u8 = 1;
const SEQUENCE: u8 = 2;
const CHOICE: u8 = 3;
const ALL: u8 = 4;

// The layout (docs/LAYOUT.md), for what the tests write without sheet.rs. Places
// of a record's fields:
const KIND: usize = 0;
const LEAF: usize = 1;
const COUNT: usize = 2;
const MARK: usize = 4;
const ZEROS: usize = 5;
const MIN: usize = 8;
const MAX: usize = 12;

// Places of the fields of the contents.
const LEAVES: usize = 0;
const ZERO: usize = 1;
const DERIVED_COUNT: usize = 2;
const BASE_COUNT: usize = 4;
const TOTAL: usize = 6;

const CONTENTS_SIZE: usize = 8;
const LEAF_SIZE: usize = 4;
const MOST_LEAVES: u8 = marker::MOST_LEAVES as u8;

/// Writes bytes over those from a place on.
fn put(bytes: &mut [u8], at: usize, value: &[u8]) {
    bytes[at..at + value.len()].copy_from_slice(value);
}

/// A maximum of `None` is unbounded.
fn record(kind: u8, leaf: u8, count: u16, min: u32, max: Option<u32>) -> [u8; RECORD] {
    let mut bytes = [0; RECORD];
    bytes[KIND] = kind;
    bytes[LEAF] = leaf;
    put(&mut bytes, COUNT, &count.to_le_bytes());
    bytes[MARK] = u8::from(max.is_none());
    put(&mut bytes, MIN, &min.to_le_bytes());
    put(&mut bytes, MAX, &max.unwrap_or(0).to_le_bytes());
    bytes
}

/// A (1,1) record.
fn once(kind: u8, leaf: u8, count: u16) -> [u8; RECORD] {
    record(kind, leaf, count, 1, Some(1))
}

/// A sheet of so many elements, all of its verdicts ok, and these trees.
fn sheet(leaves: u8, derived: &[u8], base: &[u8]) -> Vec<u8> {
    let n = usize::from(leaves);
    let mut bytes = vec![0; CONTENTS_SIZE + n * LEAF_SIZE + 2 * n * n];
    bytes.extend([derived, base].concat());
    let (total, d, b) = (bytes.len(), derived.len() / RECORD, base.len() / RECORD);
    bytes[LEAVES] = leaves;
    for (at, number) in [(DERIVED_COUNT, d), (BASE_COUNT, b), (TOTAL, total)] {
        put(&mut bytes, at, &(number as u16).to_le_bytes());
    }
    bytes
}

/// An element below so many (1,1) groups.
fn element_below(groups: usize) -> Vec<u8> {
    let mut tree = once(CHOICE, 0, 1).repeat(groups);
    tree.extend(once(ELEMENT, 0, 0));
    tree
}

/// Document 01's printed sheet, and where its parts begin.
const PRINTED: [u8; 46] = [
    1, 0, 1, 0, 1, 0, 46, 0, // contents
    0, 0, 0, 0, // leaf
    0, 0, // tables
    0, 0, 0, 0, 0, 0, 0, 0, 1, 0, 0, 0, 1, 0, 0, 0, // derived tree
    0, 0, 0, 0, 0, 0, 0, 0, 0, 0, 0, 0, 1, 0, 0, 0, // base tree
];
const A_LEAF: usize = CONTENTS_SIZE;
const FIRST: usize = A_LEAF + LEAF_SIZE;
const SECOND: usize = FIRST + 1;
const DERIVED: usize = SECOND + 1;
const BASE: usize = DERIVED + RECORD;

/// The mark of the printed sheet after changes, each a place and its value.
fn changed(changes: &[(usize, u8)]) -> Mark {
    let mut sheet = PRINTED;
    for &(place, value) in changes {
        sheet[place] = value;
    }
    let lent = sheet;
    let answer = mark(&lent);
    assert_eq!(lent, sheet, "the sheet comes back unchanged");
    answer
}

/// The mark of elements below groups: a depth of one more.
fn mark_below(derived_groups: usize, base_groups: usize) -> Mark {
    mark(&sheet(1, &element_below(derived_groups), &element_below(base_groups)))
}

#[test]
fn marks() {
    assert_eq!(mark(&PRINTED), Mark::Passes);
    assert_eq!(changed(&[(FIRST, 1)]), Mark::Undecided);
    assert_eq!(changed(&[(DERIVED + MIN, 0), (BASE + MIN, 1)]), Mark::Fails(Reason::MIN_BELOW));
    assert_eq!(changed(&[(DERIVED + MAX, 2)]), Mark::Fails(Reason::MAX_ABOVE));
    let unbounded = changed(&[(DERIVED + MARK, 1), (DERIVED + MAX, 0)]);
    assert_eq!(unbounded, Mark::Fails(Reason::MAX_UNBOUNDED));
    assert_eq!(mark_below(MOST_DEPTH - 1, MOST_DEPTH - 1), Mark::Passes);
}

/// a | S(0,0)[a], a | C(0,0)[a], and with a(0,0) in a's place.
#[test]
fn base_may_not_occur() {
    let (one, none) = (once(ELEMENT, 0, 0), record(ELEMENT, 0, 0, 0, Some(0)));
    for (kind, reason) in [(SEQUENCE, Reason::SEQUENCE_RANGE), (CHOICE, Reason::CHOICE_RANGE)] {
        let base = [record(kind, 0, 1, 0, Some(0)), one].concat();
        let mut against = sheet(1, &one, &base);
        assert_eq!(mark(&against), Mark::Fails(reason));
        against[FIRST] = 1;
        assert_eq!(mark(&against), Mark::Fails(reason), "with an undecided verdict");
        assert_eq!(mark(&sheet(1, &none, &base)), Mark::Passes);
    }
}

#[test]
fn set_by_the_paper() {
    for number in 140..=152 {
        match changed(&[(SECOND, number)]) {
            Mark::Fails(reason) => assert_eq!(reason.number(), u32::from(number)),
            other => panic!("verdict {number} gives {other:?}"),
        }
    }
}

#[test]
fn refused_sheets() {
    assert_eq!(mark(&[]), Mark::Refused(Refusal::CONTENTS));
    assert_eq!(mark(&PRINTED[..PRINTED.len() - 1]), Mark::Refused(Refusal::CONTENTS));
    assert_eq!(changed(&[(A_LEAF, 2)]), Mark::Refused(Refusal::LEAF));
    assert_eq!(changed(&[(FIRST, 2)]), Mark::Refused(Refusal::VERDICT));
}

/// The five refusals of the tree at `root`: fields, pair, all-group, counts;
/// depth is that of the sheet with an element one level too deep.
fn refused_trees(root: usize, deep: Mark, expected: [Refusal; 5]) {
    let [fields, pair, all_group, depth, counts] = expected.map(Mark::Refused);
    assert_eq!(changed(&[(root, 5)]), fields);
    assert_eq!(changed(&[(root + MIN, 2)]), pair);
    assert_eq!(changed(&[(root, ALL), (root + MAX, 2)]), all_group);
    assert_eq!(deep, depth);
    assert_eq!(changed(&[(root, SEQUENCE), (root + COUNT, 1)]), counts);
}

#[test]
fn refused_base_trees() {
    let expected = [
        Refusal::BASE_FIELDS,
        Refusal::BASE_PAIR,
        Refusal::BASE_ALL_GROUP,
        Refusal::BASE_DEPTH,
        Refusal::BASE_COUNTS,
    ];
    refused_trees(BASE, mark_below(0, MOST_DEPTH), expected);
}

#[test]
fn refused_derived_trees() {
    let expected = [
        Refusal::DERIVED_FIELDS,
        Refusal::DERIVED_PAIR,
        Refusal::DERIVED_ALL_GROUP,
        Refusal::DERIVED_DEPTH,
        Refusal::DERIVED_COUNTS,
    ];
    refused_trees(DERIVED, mark_below(MOST_DEPTH, 0), expected);
}

/// Every function for a tree refuses it so; nothing is written.
fn refused_alone(tree: &[u8], refusal: Refusal) {
    assert_eq!(total_range(tree), Err(refusal));
    assert_eq!(emptiable(tree), Err(refusal));
    let mut out = pattern(MOST_TREE + RECORD);
    assert_eq!(tidy(tree, &mut out), Err(refusal));
    assert_eq!(copy_item(tree, 0, &mut out), 0);
    assert_eq!(out, pattern(MOST_TREE + RECORD), "nothing is written");
    assert_eq!(item(tree, 0), None);
}

#[test]
fn refused_trees_alone() {
    refused_alone(&once(ELEMENT, MOST_LEAVES, 0), Refusal::DERIVED_FIELDS);
    refused_alone(&record(ELEMENT, 0, 0, 2, Some(1)), Refusal::DERIVED_PAIR);
    refused_alone(&record(ALL, 0, 0, 0, Some(2)), Refusal::DERIVED_ALL_GROUP);
    refused_alone(&element_below(MOST_DEPTH), Refusal::DERIVED_DEPTH);
    refused_alone(&once(SEQUENCE, 0, 1), Refusal::DERIVED_COUNTS);
    refused_alone(&element_below(3)[..4 * RECORD - 1], Refusal::DERIVED_COUNTS);
    refused_alone(&[], Refusal::DERIVED_COUNTS);
}

/// A (min, max) sequence of one element.
fn one_element(pair: (u32, Option<u32>), of: (u32, Option<u32>)) -> Vec<u8> {
    let group = record(SEQUENCE, 0, 1, pair.0, pair.1);
    [group, record(ELEMENT, 0, 0, of.0, of.1)].concat()
}

#[test]
fn totals() {
    let ranges = [
        ((65535, Some(65535)), (65537, Some(65537)), Exact(u32::MAX), Bounded(u32::MAX)),
        ((65536, Some(65536)), (65536, Some(65536)), Minimum::TooLarge, Maximum::TooLarge),
        ((0, Some(65536)), (65536, Some(65536)), Exact(0), Maximum::TooLarge),
        ((65536, None), (65536, Some(65536)), Minimum::TooLarge, Unbounded),
        ((2, Some(3)), (1, None), Exact(2), Unbounded),
        ((2, Some(3)), (0, Some(4)), Exact(0), Bounded(12)),
    ];
    for (pair, of, min, max) in ranges {
        assert_eq!(total_range(&one_element(pair, of)), Ok(Range { min, max }));
    }
}

#[test]
fn emptiness() {
    assert_eq!(emptiable(&one_element((2, Some(3)), (0, Some(1)))), Ok(true));
    assert_eq!(emptiable(&one_element((2, Some(3)), (1, Some(1)))), Ok(false));
}

/// Bytes each of which has a value of its own.
fn pattern(length: usize) -> Vec<u8> {
    (0..length).map(|place| (7 * place + 3) as u8).collect()
}

/// The pattern with bytes at its start.
fn starting_with(bytes: &[u8], length: usize) -> Vec<u8> {
    let mut out = pattern(length);
    out[..bytes.len()].copy_from_slice(bytes);
    out
}

/// S(2,3)[C[a,b]] becomes C(2,3)[a,b], and that stays as it is.
#[test]
fn tidying() {
    let items = [once(ELEMENT, 0, 0), once(ELEMENT, 1, 0)].concat();
    let groups = [record(SEQUENCE, 0, 1, 2, Some(3)), once(CHOICE, 0, 2)].concat();
    let tree = [groups, items.clone()].concat();
    let tidied = [record(CHOICE, 0, 2, 2, Some(3)).to_vec(), items].concat();
    for given in [&tree, &tidied] {
        for length in [given.len(), given.len() + 1, given.len() + RECORD] {
            let mut out = pattern(length);
            assert_eq!(tidy(given, &mut out), Ok(3));
            assert_eq!(out, starting_with(&tidied, length));
        }
        for length in [0, tidied.len() - 1, given.len() - 1] {
            let mut out = pattern(length);
            assert_eq!(tidy(given, &mut out), Err(Refusal::BUFFER));
            assert_eq!(out, pattern(length));
        }
    }
}

/// S[a,C[b],w]
fn of_three_items() -> Vec<u8> {
    let records = [
        once(SEQUENCE, 0, 3),
        once(ELEMENT, 0, 0),
        once(CHOICE, 0, 1),
        once(ELEMENT, 1, 0),
        record(WILDCARD, 2, 0, 0, None),
    ];
    records.concat()
}

#[test]
fn items() {
    let tree = of_three_items();
    let places = [RECORD..2 * RECORD, 2 * RECORD..4 * RECORD, 4 * RECORD..5 * RECORD];
    for (k, place) in places.iter().enumerate() {
        let found = item(&tree, k).expect("an item");
        assert_eq!(found.as_ptr_range(), tree[place.clone()].as_ptr_range(), "item {k}");
    }
    for k in [3, usize::MAX] {
        assert_eq!(item(&tree, k), None);
    }
    assert_eq!(item(&once(ELEMENT, 0, 0), 0), None);
}

#[test]
fn copied_items() {
    let tree = of_three_items();
    for k in 0..3 {
        let expected = item(&tree, k).expect("an item");
        for length in [expected.len(), expected.len() + 1, tree.len()] {
            let mut out = pattern(length);
            assert_eq!(copy_item(&tree, k, &mut out), expected.len());
            assert_eq!(out, starting_with(expected, length));
        }
        let mut short = pattern(expected.len() - 1);
        assert_eq!(copy_item(&tree, k, &mut short), expected.len());
        assert_eq!(short, pattern(expected.len() - 1));
    }
    let mut out = pattern(tree.len());
    assert_eq!(copy_item(&tree, 3, &mut out), 0);
    assert_eq!(out, pattern(tree.len()));
}

/// S[a,a,..] of so many records.
fn row(records: usize) -> Vec<u8> {
    let items = records - 1;
    [once(SEQUENCE, 0, items as u16).to_vec(), once(ELEMENT, 0, 0).repeat(items)].concat()
}

#[test]
fn words() {
    assert_eq!(mark(&PRINTED).to_string(), "passes");
    assert_eq!(changed(&[(FIRST, 1)]).to_string(), "undecided");
    assert_eq!(Mark::Fails(Reason::MIN_BELOW).to_string(), "fails 122");
    assert_eq!(mark(&[]).to_string(), "refused 1");
    assert_eq!(Reason::MIN_BELOW.to_string(), "element, element: the minimum is below the base's");
    assert_eq!(Mark::Fails(Reason::BASE_MAY_NOT_OCCUR).to_string(), "fails 125");
    let words =
        "element, sequence or choice: the base maximum is 0 (second reading, which no mark shows)";
    assert_eq!(Reason::BASE_MAY_NOT_OCCUR.to_string(), words);
    let words =
        "the caller's mistake: buffer shorter than the tree handed in, or than the joined tree, which no sheet shows";
    assert_eq!(Refusal::BUFFER.to_string(), words);
    let Mark::Fails(set) = changed(&[(FIRST, 140)]) else { panic!("140 is a reason") };
    assert_eq!(set.words(), "a reason that the paper sets");
    assert_eq!(set.to_string(), set.words());
}

/// A refusal goes on as an error, with its words.
#[test]
fn error() {
    fn asked(tree: &[u8]) -> Result<bool, Box<dyn std::error::Error>> {
        Ok(emptiable(tree)?)
    }
    assert!(!asked(&once(ELEMENT, 0, 0)).expect("a tree"));
    let error = asked(&[]).expect_err("no tree");
    assert_eq!(error.to_string(), Refusal::DERIVED_COUNTS.words());
    assert_eq!(error.downcast_ref(), Some(&Refusal::DERIVED_COUNTS));
}
