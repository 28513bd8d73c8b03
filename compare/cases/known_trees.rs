//! Byte strings with their refusals written down by hand from document 01, to
//! hold the second reading (second/tree.rs) as well as the library to them.

use common::bytes::{exchange, put_number};
use common::notation::parse;
use common::tree::{
    COUNT, KIND, Kind, LEAF, MARK, MAX, MIN, MOST_RECORDS, RECORD, Tree, ZEROS, put_count,
};

/// What it shows, the string, and its refusal; 0 where it is accepted.
pub type Known = (&'static str, Vec<u8>, u32);

type Record = [u8; RECORD];

/// The most items that a group can have.
const MOST: usize = MOST_RECORDS - 1;

/// Kind, leaf number, item count, unbounded mark, minimum, maximum.
fn record(kind: u8, leaf: u8, count: usize, mark: u8, min: u32, max: u32) -> Record {
    let mut record = [0; RECORD];
    (record[KIND], record[LEAF], record[MARK]) = (kind, leaf, mark);
    put_count(&mut record, count);
    put_number(&mut record, MIN, min);
    put_number(&mut record, MAX, max);
    record
}

fn one(kind: u8, leaf: u8, count: usize, mark: u8, min: u32, max: u32) -> Vec<u8> {
    record(kind, leaf, count, mark, min, max).to_vec()
}

pub fn known() -> Vec<Known> {
    let parts =
        [fields(), zeros(), pairs_and_alls(), depths(), counts(), wide(), halves(), in_bytes()];
    [parts.concat(), lengths()].concat()
}

fn fields() -> Vec<Known> {
    let mut high = record(0, 0, 0, 1, 0, 0);
    high[MAX + 3] = 1;
    vec![
        ("an element", one(0, 0, 0, 0, 1, 1), 0),
        ("a record of zeros", one(0, 0, 0, 0, 0, 0), 0),
        ("kind 5", one(5, 0, 0, 0, 1, 1), 10),
        ("kind 255", one(255, 0, 0, 0, 1, 1), 10),
        ("element 63", one(0, 63, 0, 0, 1, 1), 0),
        ("element 64", one(0, 64, 0, 0, 1, 1), 10),
        ("wildcard 63", one(1, 63, 0, 0, 1, 1), 0),
        ("wildcard 64", one(1, 64, 0, 0, 1, 1), 10),
        ("a leaf number on a sequence", one(2, 1, 0, 0, 1, 1), 10),
        ("a leaf number on a choice", one(3, 1, 0, 0, 1, 1), 10),
        ("a leaf number on an all-group", one(4, 1, 0, 0, 1, 1), 10),
        ("an item count on an element", one(0, 0, 1, 0, 1, 1), 10),
        ("an item count on a wildcard", one(1, 0, 255, 0, 1, 1), 10),
        ("a count's higher byte on an element", one(0, 0, 256, 0, 1, 1), 10),
        ("a count's highest bit on a wildcard", one(1, 0, 32768, 0, 1, 1), 10),
        ("mark 2", one(0, 0, 0, 2, 0, 0), 10),
        ("unbounded", one(0, 0, 0, 1, 4294967295, 0), 0),
        ("a maximum beside the mark", one(0, 0, 0, 1, 0, 1), 10),
        ("its highest byte beside the mark", high.to_vec(), 10),
        ("one number for element and wildcard", tree("S[a,w]"), 0),
        ("fields before the pair", one(5, 0, 0, 0, 2, 1), 10),
    ]
}

/// Each zero byte of a record in turn, and two faults: a record's fields come
/// before all else of it, and after all of the records before it.
fn zeros() -> Vec<Known> {
    let set = |mut tree: Vec<u8>, at: usize, value: u8| {
        tree[at] = value;
        tree
    };
    let mut out = Vec::new();
    for at in ZEROS {
        for value in [1, 128, 255] {
            out.push(("a zero byte of an element", set(tree("a"), at, value), 10));
            out.push(("a zero byte of an all-group", set(tree("A[]"), at, value), 10));
            out.push((
                "a zero byte of an item",
                set(tree("S[a,w(0,*)]"), 2 * RECORD + at, value),
                10,
            ));
        }
    }
    let (first, last) = (ZEROS.start, ZEROS.end - 1);
    out.extend([
        ("a zero byte before the pair", set(one(0, 0, 0, 0, 2, 1), first, 1), 10),
        ("a zero byte before the all-group", set(one(4, 0, 0, 1, 1, 0), last, 1), 10),
        ("a zero byte before the depth", set(under(12, "a"), 12 * RECORD + first, 1), 10),
        ("a zero byte before a missing item", set(one(2, 0, 1, 0, 1, 1), last, 1), 10),
        ("a pair before an item's zero byte", set(tree("S(2,1)[a]"), RECORD + first, 1), 11),
        ("an all-group before an item's", set(tree("A(1,2)[a]"), RECORD + last, 1), 12),
        ("a depth before the next record's", set(under(13, "a"), 13 * RECORD + first, 1), 13),
        (
            "a surplus record before its own",
            set([tree("a"), tree("b")].concat(), RECORD + first, 1),
            14,
        ),
        ("a zero byte before a surplus record", set([tree("a"), tree("b")].concat(), last, 1), 10),
    ]);
    out
}

fn pairs_and_alls() -> Vec<Known> {
    vec![
        ("minimum above maximum", one(0, 0, 0, 0, 2, 1), 11),
        ("minimum above maximum 0", one(2, 0, 0, 0, 1, 0), 11),
        ("the pair before missing items", one(2, 0, 1, 0, 1, 0), 11),
        ("largest pair", one(3, 0, 0, 0, 4294967295, 4294967295), 0),
        ("compared as numbers", one(3, 0, 0, 0, 255, 256), 0),
        ("an empty all-group", one(4, 0, 0, 0, 0, 1), 0),
        ("an unbounded all-group", one(4, 0, 0, 1, 0, 0), 12),
        ("an all-group of maximum 0", one(4, 0, 0, 0, 0, 0), 12),
        ("an all-group of maximum 2", one(4, 0, 0, 0, 1, 2), 12),
        ("an all-group of maximum 257", one(4, 0, 0, 0, 1, 257), 12),
        ("an all-group with pair (2,1)", one(4, 0, 0, 0, 2, 1), 11),
        ("an all-group of elements", tree("A(0,1)[a,b(0,*)]"), 0),
        ("a wildcard in an all-group", tree("A[w]"), 12),
        ("a wildcard second in an all-group", tree("A[a,w]"), 12),
        ("a sequence in an all-group", tree("A[S[]]"), 12),
        ("an all-group in an all-group", tree("A[A[]]"), 12),
        ("a wildcard after an all-group", tree("S[A[a],w]"), 0),
        ("an item's pair before its kind", tree("A[w(2,1)]"), 11),
        (
            "an item's fields before its kind",
            [record(4, 0, 1, 0, 1, 1), record(2, 1, 0, 0, 1, 1)].concat(),
            10,
        ),
        (
            "an all-group before its items",
            [record(4, 0, 1, 1, 1, 0), record(9, 0, 0, 0, 1, 1)].concat(),
            12,
        ),
    ]
}

fn depths() -> Vec<Known> {
    vec![
        ("depth 12", under(11, "a"), 0),
        ("depth 13", under(12, "a"), 13),
        ("depth 14", under(13, "a"), 13),
        ("an empty group at depth 12", under(11, "C[]"), 0),
        ("an all-group's element at depth 12", under(10, "A[a]"), 0),
        ("an all-group's element at depth 13", under(11, "A[a]"), 13),
        ("an all-group's wildcard at depth 13", under(11, "A[w]"), 12),
        ("a bad pair at depth 13", under(12, "a(1,0)"), 11),
        ("an unbounded all-group at depth 13", under(12, "A(1,*)[]"), 12),
        ("depth 12 left and reached again", under(9, "S[S[C[]],S[a],b]"), 0),
        ("depth 13 by a later item", under(9, "S[b,S[a],S[S[a]]]"), 13),
    ]
}

fn counts() -> Vec<Known> {
    let element = record(0, 0, 0, 0, 1, 1);
    let bad = record(9, 0, 0, 0, 1, 1);
    let group = |count| record(2, 0, count, 0, 1, 1);
    vec![
        ("a surplus record", [element, element].concat(), 14),
        ("a surplus record before its fields", [element, bad].concat(), 14),
        ("a surplus record after an empty group", [group(0), element].concat(), 14),
        ("a fault before a surplus record", [bad, element].concat(), 10),
        ("a missing record", group(1).to_vec(), 14),
        ("the second item missing", [group(2), element].concat(), 14),
        ("a fault before a missing record", [group(3), element, bad].concat(), 10),
        ("an inner item missing", [group(1), group(2), element].concat(), 14),
        ("all inner groups full", [group(2), group(1), element, element].concat(), 0),
        ("a surplus in all groups", [group(1), group(1), element, element].concat(), 14),
        ("1000 items awaited", [group(MOST + 1), element].concat(), 14),
        ("65535 items awaited", [group(65535), element].concat(), 14),
    ]
}

/// A sequence that awaits so many items, and so many elements.
fn row(count: usize, elements: usize) -> Vec<u8> {
    let element = record(0, 5, 0, 0, 1, 1);
    [vec![record(2, 0, count, 0, 1, 1)], vec![element; elements]].concat().concat()
}

/// Counts of more than a byte.
fn wide() -> Vec<Known> {
    let (element, wildcard) = (record(0, 5, 0, 0, 1, 1), record(1, 5, 0, 0, 0, 1));
    let group = |kind, count| record(kind, 0, count, 0, 1, 1);
    let all = |elements: usize, after: &[Record]| {
        let items = [&vec![element; elements], after].concat();
        [vec![group(4, items.len())], items].concat().concat()
    };
    let below = |inner, items| [group(3, items).to_vec(), inner, element.to_vec()].concat();
    let after_all = [&group(2, 2)[..], &all(256, &[]), &wildcard].concat();
    vec![
        ("a sequence of 255", row(255, 255), 0),
        ("a sequence of 256", row(256, 256), 0),
        ("a sequence of 257", row(257, 257), 0),
        ("a sequence of 300", row(300, 300), 0),
        ("a sequence of 700", row(700, 700), 0),
        ("a sequence as wide as may be", row(MOST, MOST), 0),
        ("an inner group of 256, an item after it", below(row(256, 256), 2), 0),
        ("an inner group of 256, its last the outer's", below(row(256, 255), 2), 14),
        ("an inner group of 256, a surplus record", below(row(256, 256), 1), 14),
        ("an all-group of 300", all(300, &[]), 0),
        ("an all-group as wide as may be", all(MOST, &[]), 0),
        ("a wildcard as its 256th item", all(255, &[wildcard, element]), 12),
        ("a wildcard as its 257th item", all(256, &[wildcard, element]), 12),
        ("a wildcard as the last of so many", all(MOST - 1, &[wildcard]), 12),
        ("a wildcard after an all-group of 256", after_all, 0),
    ]
}

/// Counts of more than a byte of which one byte is read, or both exchanged.
fn halves() -> Vec<Known> {
    let exchanged = |count, elements| {
        let mut tree = row(count, elements);
        exchange(&mut tree, COUNT);
        tree
    };
    vec![
        ("256 items, none there", row(256, 0), 14),
        ("256 items, one there", row(256, 1), 14),
        ("256 items, 255 there", row(256, 255), 14),
        ("256 items, 257 there", row(256, 257), 14),
        ("257 items, one there", row(257, 1), 14),
        ("none awaited, 256 there", row(0, 256), 14),
        ("one awaited, 257 there", row(1, 257), 14),
        ("the most awaited, the low byte's there", row(MOST, MOST % 256), 14),
        ("256 with its bytes exchanged", exchanged(256, 256), 14),
        ("256 exchanged to 1, one there", exchanged(256, 1), 0),
        ("1 exchanged to 256, one there", exchanged(1, 1), 14),
        ("1 exchanged to 256, 256 there", exchanged(1, 256), 0),
        ("2 exchanged to 512, two there", exchanged(2, 2), 14),
        ("257 with its bytes exchanged", exchanged(257, 257), 0),
        ("300 with its bytes exchanged", exchanged(300, 300), 14),
        ("the most with their bytes exchanged", exchanged(MOST, MOST), 14),
    ]
}

/// The layout itself, byte by byte.
fn in_bytes() -> Vec<Known> {
    let row = [2, 0, 44, 1, 0, 0, 0, 0, 1, 0, 0, 0, 1, 0, 0, 0];
    let element = [0, 63, 0, 0, 0, 0, 0, 0, 1, 0, 0, 0, 1, 0, 0, 0];
    let unbounded = [1, 7, 0, 0, 1, 0, 0, 0, 0, 0, 1, 0, 0, 0, 0, 0];
    let items = |last: Record| [vec![element; 299], vec![last]].concat().concat();
    let changed = |at: usize, value: u8| {
        let mut last = unbounded;
        last[at] = value;
        [&row[..], &items(last)].concat()
    };
    vec![
        ("300 items, byte by byte", [&row[..], &items(unbounded)].concat(), 0),
        ("the record's byte 0", changed(0, 5), 10),
        ("the record's byte 1", changed(1, 64), 10),
        ("the record's byte 2", changed(2, 1), 10),
        ("the record's byte 3", changed(3, 1), 10),
        ("the record's byte 4, bounded", changed(4, 0), 11),
        ("the record's byte 4", changed(4, 2), 10),
        ("the record's byte 5", changed(5, 1), 10),
        ("the record's byte 6", changed(6, 1), 10),
        ("the record's byte 7", changed(7, 1), 10),
        ("the record's byte 8", changed(8, 255), 0),
        ("the record's byte 11", changed(11, 255), 0),
        ("the record's byte 12", changed(12, 1), 10),
        ("the record's byte 15", changed(15, 1), 10),
    ]
}

fn lengths() -> Vec<Known> {
    let row = |kind, elements| {
        let items = vec![Tree::leaf(Kind::Element, 5, (1, Some(1))); elements];
        Tree::group(kind, (1, Some(1)), items).encode()
    };
    let most = row(Kind::Sequence, MOST);
    let over = row(Kind::Sequence, MOST + 1);
    let mut over_bad = over.clone();
    over_bad[KIND] = 9;
    let mut longer = most.clone();
    longer.push(0);
    let mut broken_bad = one(9, 0, 0, 0, 1, 1);
    broken_bad.push(0);
    vec![
        ("no record", Vec::new(), 14),
        ("1 byte", vec![0], 14),
        ("a record without a byte", vec![0; RECORD - 1], 14),
        ("a record and a byte", vec![0; RECORD + 1], 14),
        ("a broken record before a fault", broken_bad, 14),
        ("1000 records", most.clone(), 0),
        ("1000 records, an all-group", row(Kind::All, MOST), 0),
        ("1000 records and a byte", longer, 14),
        ("1000 records without a byte", most[..most.len() - 1].to_vec(), 14),
        ("1001 records, whole", over, 14),
        ("1001 records, the first bad", over_bad, 14),
        ("65536 records and one, all zeros", vec![0; 65537 * RECORD], 14),
        ("100000 bytes", vec![0; 100_000], 14),
    ]
}

fn tree(text: &str) -> Vec<u8> {
    parse(text).encode()
}

/// A tree below so many groups of one item.
fn under(groups: usize, text: &str) -> Vec<u8> {
    let wrap = |inner, level| {
        let kind = [Kind::Sequence, Kind::Choice][level % 2];
        Tree::group(kind, (1, Some(1)), vec![inner])
    };
    (0..groups).fold(parse(text), wrap).encode()
}
