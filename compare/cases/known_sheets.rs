//! Sheets with their answers written down by hand from document 01, to hold
//! the second reading (second/sheet.rs) and the oracle as well as the
//! library to them: the sheet that is printed there, and one sheet with faults.

use common::bytes::{exchange, put_short};
use common::notation::parse;
use common::sheet::{
    BASE, Bodies, CONTENTS, DERIVED, LEAF_BYTES, LEAF_KIND, LEAVES, Leaf, MOST_LEAVES, Sheet,
    TOTAL, ZERO,
};
use common::tree::{COUNT, KIND, Kind, LEAF, MAX, MIN, RECORD, Tree, ZEROS, put_count};

use crate::record_counts;

/// What it shows, the sheet, and its answer.
pub type Known = (&'static str, Vec<u8>, &'static str);

/// Document 01, 'Entry points and what is turned away', as document 02 §4 has
/// it.
const PRINTED: [u8; 46] = [
    1, 0, 1, 0, 1, 0, 46, 0, // contents
    0, 0, 0, 0, // leaf
    0, 0, // tables
    0, 0, 0, 0, 0, 0, 0, 0, 1, 0, 0, 0, 1, 0, 0, 0, // derived
    0, 0, 0, 0, 0, 0, 0, 0, 0, 0, 0, 0, 1, 0, 0, 0, // base
];

pub fn known() -> Vec<Known> {
    let mut out = vec![
        ("document 01's sheet", PRINTED.to_vec(), "passes"),
        ("the sheet without a fault", good().join(), "passes"),
    ];
    out.extend(contents());
    out.extend(record_counts::known());
    out.extend(leaves());
    out.extend(verdicts());
    out.extend(trees());
    out.extend(zeros());
    out.extend(orders());
    out
}

/// Elements 0 and 1, wildcard 2; all verdicts ok; S[a,b] | S[a,b(0,1)].
fn good() -> Bodies {
    let leaves = vec![Leaf::element(65535), Leaf::element(0), Leaf::wildcard(2)];
    let (derived, base) = (parse("S[a,b]"), parse("S[a,b(0,1)]"));
    let sheet = Sheet { leaves, first: vec![0; 9], second: vec![0; 9], derived, base };
    Bodies::split(&sheet.encode())
}

/// The good sheet after a change of its bodies, which the contents count.
pub(crate) fn bodies(change: impl FnOnce(&mut Bodies)) -> Vec<u8> {
    let mut bodies = good();
    change(&mut bodies);
    bodies.join()
}

/// The good sheet after a change of its bytes.
pub(crate) fn bytes(change: impl FnOnce(&mut Vec<u8>)) -> Vec<u8> {
    let mut bytes = good().join();
    change(&mut bytes);
    bytes
}

fn contents() -> Vec<Known> {
    let field = |place: usize, value: u8| bytes(|b| b[place] = value);
    let total = |total: usize| {
        let mut sheet = PRINTED.to_vec();
        put_short(&mut sheet, TOTAL, total);
        sheet
    };
    let printed = || Bodies::split(&PRINTED);
    let no_leaf = Bodies { leaves: Vec::new(), first: Vec::new(), second: Vec::new(), ..printed() };
    let over = MOST_LEAVES + 1;
    let table = || vec![0; over * over];
    let leaf_65 =
        Bodies { leaves: vec![0; LEAF_BYTES * over], first: table(), second: table(), ..printed() };
    let longer = |more: &[u8]| [&PRINTED, more].concat();
    vec![
        ("no byte", Vec::new(), "refused 1"),
        ("7 bytes", PRINTED[..7].to_vec(), "refused 1"),
        ("the contents alone", PRINTED[..CONTENTS].to_vec(), "refused 1"),
        ("zeros for contents", vec![0; CONTENTS], "refused 1"),
        ("45 bytes", PRINTED[..45].to_vec(), "refused 1"),
        ("47 bytes", longer(&[0]), "refused 1"),
        ("a newline after the sheet", longer(b"\n"), "refused 1"),
        ("65536 bytes more", longer(&[0; 65536]), "refused 1"),
        ("47 bytes and a total of 47", [&total(47)[..], &[0]].concat(), "refused 1"),
        ("a total of 45", total(45), "refused 1"),
        ("a total of 46 and 256", total(46 + 256), "refused 1"),
        ("a total with its highest bit", total(46 + 32768), "refused 1"),
        ("a total with its bytes exchanged", total(46 * 256), "refused 1"),
        ("no leaf", no_leaf.join(), "refused 1"),
        ("no derived record", Bodies { derived: Vec::new(), ..printed() }.join(), "refused 1"),
        ("no base record", Bodies { base: Vec::new(), ..printed() }.join(), "refused 1"),
        ("65 leaves", leaf_65.join(), "refused 1"),
        ("a byte that is not zero", field(ZERO, 1), "refused 1"),
        ("its highest bit", field(ZERO, 128), "refused 1"),
        ("all its bits", field(ZERO, 255), "refused 1"),
        ("another leaf count", field(LEAVES, 2), "refused 1"),
        ("another derived count", field(DERIVED, 4), "refused 1"),
        ("another base count", field(BASE, 2), "refused 1"),
    ]
}

fn leaves() -> Vec<Known> {
    let leaf = |at: usize, leaf: [u8; LEAF_BYTES]| {
        bodies(|b| b.leaves[LEAF_BYTES * at..][..LEAF_BYTES].copy_from_slice(&leaf))
    };
    vec![
        ("leaf kind 2", leaf(0, [2, 0, 0, 0]), "refused 3"),
        ("leaf kind 255", leaf(2, [255, 0, 0, 0]), "refused 3"),
        ("an element with process contents", leaf(1, [0, 1, 0, 0]), "refused 3"),
        ("process contents 3", leaf(2, [1, 3, 0, 0]), "refused 3"),
        ("process contents 0", leaf(2, [1, 0, 0, 0]), "passes"),
        ("a wildcard with a name", leaf(2, [1, 1, 1, 0]), "refused 3"),
        ("the name's higher byte", leaf(2, [1, 1, 0, 1]), "refused 3"),
        ("any name of an element", leaf(1, [0, 0, 255, 1]), "passes"),
        ("an element turned wildcard", leaf(0, [1, 0, 0, 0]), "refused 5"),
    ]
}

fn verdicts() -> Vec<Known> {
    let first = |at: usize, verdict: u8| bodies(|b| b.first[at] = verdict);
    let second = |at: usize, verdict: u8| bodies(|b| b.second[at] = verdict);
    vec![
        ("verdict 1", first(0, 1), "undecided"),
        ("verdict 140", first(0, 140), "fails 140"),
        ("verdict 152", second(4, 152), "fails 120"),
        ("verdict 2", first(0, 2), "refused 4"),
        ("verdict 139", second(0, 139), "refused 4"),
        ("verdict 153", first(4, 153), "refused 4"),
        ("verdict 255", second(4, 255), "refused 4"),
        ("verdict 128", first(1, 128), "refused 4"),
        ("a verdict that no rule reads", first(8, 2), "refused 4"),
        ("a wildcard against an element", second(6, 3), "refused 4"),
        ("the last verdict", second(8, 141), "passes"),
        ("the last verdict bad", second(8, 101), "refused 4"),
    ]
}

/// A fault of a tree, as a change of the tree's bytes, and its place among the
/// five.
type Fault = (&'static str, &'static str, fn(&mut Vec<u8>), u32);

/// Each fault in the base tree and in the derived tree. The records are the
/// sequence, a, b.
const FAULTS: [Fault; 22] = [
    ("base: kind 5", "derived: kind 5", |b| b[RECORD + KIND] = 5, 0),
    ("base: leaf 3 of 3", "derived: leaf 3 of 3", |b| b[RECORD + LEAF] = 3, 0),
    ("base: leaf 63", "derived: leaf 63", |b| b[RECORD + LEAF] = 63, 0),
    ("base: a wildcard's number", "derived: a wildcard's number", |b| b[RECORD + LEAF] = 2, 0),
    ("base: an element's number", "derived: an element's number", |b| b[RECORD + KIND] = 1, 0),
    ("base: a group's number", "derived: a group's number", |b| b[LEAF] = 1, 0),
    ("base: a leaf's count", "derived: a leaf's count", |b| b[RECORD + COUNT + 1] = 1, 0),
    ("base: pair (2,1)", "derived: pair (2,1)", |b| b[RECORD + MIN] = 2, 1),
    ("base: an all of maximum 2", "derived: an all of maximum 2", all_of_2, 2),
    ("base: a wildcard in an all", "derived: a wildcard in an all", wildcard_in_all, 2),
    ("base: depth 13", "derived: depth 13", |b| *b = under(12, "a"), 3),
    ("base: an all at depth 13", "derived: an all at depth 13", |b| *b = under(12, "A(0,0)[]"), 2),
    ("base: an all's item there", "derived: an all's item there", |b| *b = under(11, "A[w2]"), 2),
    ("base: a pair there", "derived: a pair there", |b| *b = under(12, "a(2,1)"), 1),
    ("base: 2 items exchanged to 512", "derived: 2 items exchanged to 512", exchanged, 4),
    ("base: 256 items, none there", "derived: 256 items, none there", none_of_256, 4),
    ("base: a record missing", "derived: a record missing", |b| b.truncate(2 * RECORD), 4),
    ("base: a surplus record", "derived: a surplus record", |b| b.extend([9; RECORD]), 4),
    ("base: a fault, then missing", "derived: a fault, then missing", fault_then_missing, 0),
    ("base: one fault after another", "derived: one fault after another", two_faults, 1),
    ("base: a zero byte, then a pair", "derived: a zero byte, then a pair", zero_and_pair, 0),
    ("base: a pair, then a zero byte", "derived: a pair, then a zero byte", pair_and_zero, 1),
];

fn all_of_2(tree: &mut Vec<u8>) {
    (tree[KIND], tree[MAX]) = (Kind::All as u8, 2);
}

fn wildcard_in_all(tree: &mut Vec<u8>) {
    tree[KIND] = Kind::All as u8;
    (tree[RECORD + KIND], tree[RECORD + LEAF]) = (Kind::Wildcard as u8, 2);
}

/// A tree below so many groups of one item.
fn under(groups: usize, text: &str) -> Vec<u8> {
    let wrap = |inner, _| Tree::group(Kind::Choice, (1, Some(1)), vec![inner]);
    (0..groups).fold(parse(text), wrap).encode()
}

fn fault_then_missing(tree: &mut Vec<u8>) {
    tree.truncate(2 * RECORD);
    tree[RECORD + KIND] = 9;
}

fn two_faults(tree: &mut Vec<u8>) {
    tree[RECORD + MIN] = 9;
    tree[2 * RECORD + KIND] = 9;
}

fn zero_and_pair(tree: &mut Vec<u8>) {
    (tree[RECORD + ZEROS.start], tree[RECORD + MIN]) = (1, 2);
}

fn pair_and_zero(tree: &mut Vec<u8>) {
    (tree[RECORD + MIN], tree[2 * RECORD + ZEROS.start]) = (2, 1);
}

fn exchanged(tree: &mut Vec<u8>) {
    exchange(tree, COUNT);
}

fn none_of_256(tree: &mut Vec<u8>) {
    tree.truncate(RECORD);
    put_count(tree, 256);
}

const NUMBERS: [&str; 10] = [
    "refused 5",
    "refused 6",
    "refused 7",
    "refused 8",
    "refused 9",
    "refused 10",
    "refused 11",
    "refused 12",
    "refused 13",
    "refused 14",
];

fn trees() -> Vec<Known> {
    let mut out = Vec::new();
    for (in_base, in_derived, fault, place) in FAULTS {
        out.push((in_base, bodies(|b| fault(&mut b.base)), NUMBERS[place as usize]));
        out.push((in_derived, bodies(|b| fault(&mut b.derived)), NUMBERS[place as usize + 5]));
    }
    out
}

/// Each zero byte of a record, in either tree.
fn zeros() -> Vec<Known> {
    let mut out = Vec::new();
    for place in ZEROS {
        for value in [1, 128, 255] {
            for record in 0..3 {
                let at = RECORD * record + place;
                out.push(("base: a zero byte", bodies(|b| b.base[at] = value), "refused 5"));
                out.push(("derived: a zero byte", bodies(|b| b.derived[at] = value), "refused 10"));
            }
        }
    }
    out
}

type Change = fn(&mut Bodies);

const BAD_LEAF: Change = |b| b.leaves[2 * LEAF_BYTES + LEAF_KIND] = 2;
const BAD_VERDICT: Change = |b| b.first[0] = 2;
const LAST_VERDICT: Change = |b| b.second[8] = 2;
const BAD_BASE: Change = |b| b.base[KIND] = 9;
const BAD_DERIVED: Change = |b| b.derived[KIND] = 9;
const ZERO_BASE: Change = |b| b.base[ZEROS.start] = 1;
const ZERO_DERIVED: Change = |b| b.derived[ZEROS.start] = 1;
const LONGER_BASE: Change = |b| b.base.extend([0; RECORD]);
const LONGER_DERIVED: Change = |b| b.derived.extend([0; RECORD]);

/// Two faults: 1, 3, 4, base, derived.
fn orders() -> Vec<Known> {
    let both = |first: Change, second: Change| {
        bodies(|b| {
            second(b);
            first(b);
        })
    };
    let mut longer = bodies(BAD_LEAF);
    longer.push(0);
    let mut zero_and_leaf = bodies(BAD_LEAF);
    zero_and_leaf[ZERO] = 1;
    vec![
        ("1 before 3", longer, "refused 1"),
        ("1 before 3, the zero byte", zero_and_leaf, "refused 1"),
        ("3 before 4", both(BAD_LEAF, BAD_VERDICT), "refused 3"),
        ("3 before 5", both(BAD_LEAF, BAD_BASE), "refused 3"),
        ("4 before 5", both(LAST_VERDICT, BAD_BASE), "refused 4"),
        ("4 before 5, a zero byte", both(BAD_VERDICT, ZERO_BASE), "refused 4"),
        ("4 before 10", both(BAD_VERDICT, BAD_DERIVED), "refused 4"),
        ("5 before 10, zero bytes", both(ZERO_BASE, ZERO_DERIVED), "refused 5"),
        ("9 before 10", both(LONGER_BASE, BAD_DERIVED), "refused 9"),
        ("9 before 10, a zero byte", both(LONGER_BASE, ZERO_DERIVED), "refused 9"),
        ("9 before 14", both(LONGER_BASE, LONGER_DERIVED), "refused 9"),
    ]
}
