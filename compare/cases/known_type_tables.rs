//! Tables of types, verdicts and fillings by them, written down by hand from
//! document 02 §7, to hold the second reading and the oracle as well as the
//! library to them.

use common::answers::{NOT_DERIVED, REFUSED, TYPE_NUMBER, TYPE_TABLE};

use crate::known_types::{Known, fills, orders, refused};

const OK: u32 = 0;
const FAILS: u32 = NOT_DERIVED;
const NO_ROW: u32 = REFUSED + TYPE_NUMBER;

/// The derived number, the base's, and the answer.
pub type Pair = (u32, u32, u32);

/// `anyType`, `anySimpleType`; 2 title, 3 master, 4 grandmaster; 5 rating, 6 blitz
/// rating; 7 club.
const TITLES: [u8; 8] = [0, 0, 1, 2, 3, 1, 5, 0];

/// Each row below the one before it: the last one has a link fewer than there are
/// rows.
pub fn chain(rows: usize) -> Vec<u8> {
    (0..rows).map(|row| row.saturating_sub(1) as u8).collect()
}

/// A chain from row 2 on, which is below row 0.
pub fn beside(rows: usize) -> Vec<u8> {
    (0..rows).map(|row| if row < 3 { 0 } else { row as u8 - 1 }).collect()
}

/// Every later row below row 1.
fn star(rows: usize) -> Vec<u8> {
    (0..rows).map(|row| u8::from(row > 1)).collect()
}

/// What it shows, a table of types that is not refused, and what is asked of it.
pub fn good() -> Vec<(&'static str, Vec<u8>, Vec<Pair>)> {
    let two_chains = (0..200_u8).map(|row| row.saturating_sub(2)).collect();
    vec![
        ("one row", vec![0], ONE_ROW.to_vec()),
        ("two rows", vec![0, 0], TWO_ROWS.to_vec()),
        ("a row below row 0", vec![0, 0, 0], THREE_ROWS.to_vec()),
        ("a row below row 1", vec![0, 0, 1], THREE_ROWS.to_vec()),
        ("titles", TITLES.to_vec(), OF_TITLES.to_vec()),
        ("200 rows below row 1", star(200), BELOW_ONE.to_vec()),
        ("a chain of 199 links", chain(200), LONG_CHAIN.to_vec()),
        ("a chain beside row 1", beside(200), LONG_CHAIN.to_vec()),
        ("two chains", two_chains, TWO_CHAINS.to_vec()),
    ]
}

const ONE_ROW: [Pair; 7] = [
    (0, 0, OK),
    (0, 1, NO_ROW),
    (1, 0, NO_ROW),
    (1, 1, NO_ROW),
    (0, 255, NO_ROW),
    (256, 0, NO_ROW),
    (0, 256, NO_ROW),
];

const TWO_ROWS: [Pair; 8] = [
    (0, 0, OK),
    (0, 1, OK),
    (1, 0, OK),
    (1, 1, OK),
    (2, 0, NO_ROW),
    (0, 2, NO_ROW),
    (2, 2, NO_ROW),
    (256 + 1, 0, NO_ROW),
];

const THREE_ROWS: [Pair; 9] = [
    (2, 2, OK),
    (2, 0, OK),
    (2, 1, OK),
    (0, 1, OK),
    (0, 2, FAILS),
    (1, 2, FAILS),
    (3, 0, NO_ROW),
    (0, 3, NO_ROW),
    (2, 256 + 2, NO_ROW),
];

const OF_TITLES: [Pair; 28] = [
    (4, 4, OK),
    (4, 3, OK),
    (4, 2, OK),
    (3, 2, OK),
    (2, 3, FAILS),
    (2, 4, FAILS),
    (3, 4, FAILS),
    (6, 5, OK),
    (5, 6, FAILS),
    (6, 2, FAILS),
    (4, 5, FAILS),
    (2, 5, FAILS),
    // A row below row 0 alone.
    (7, 7, OK),
    (7, 0, OK),
    (7, 1, OK),
    (7, 2, FAILS),
    (4, 7, FAILS),
    // The first two.
    (4, 1, OK),
    (4, 0, OK),
    (0, 1, OK),
    (0, 7, FAILS),
    (1, 7, FAILS),
    // No rows.
    (8, 0, NO_ROW),
    (0, 8, NO_ROW),
    (8, 8, NO_ROW),
    (256 + 4, 3, NO_ROW),
    (4, 65536 + 3, NO_ROW),
    (u32::MAX, u32::MAX, NO_ROW),
];

const BELOW_ONE: [Pair; 10] = [
    (199, 199, OK),
    (199, 1, OK),
    (199, 0, OK),
    (199, 198, FAILS),
    (198, 199, FAILS),
    (199, 2, FAILS),
    (1, 199, FAILS),
    (200, 0, NO_ROW),
    (0, 200, NO_ROW),
    (255, 199, NO_ROW),
];

const LONG_CHAIN: [Pair; 14] = [
    (199, 0, OK),
    (199, 1, OK),
    (199, 2, OK),
    (199, 100, OK),
    (199, 198, OK),
    (199, 199, OK),
    (198, 199, FAILS),
    (100, 101, FAILS),
    (2, 199, FAILS),
    (1, 199, FAILS),
    (0, 199, FAILS),
    (1, 2, FAILS),
    (200, 2, NO_ROW),
    (2, 200, NO_ROW),
];

const TWO_CHAINS: [Pair; 8] = [
    (199, 3, OK),
    (199, 197, OK),
    (199, 198, FAILS),
    (199, 2, FAILS),
    (198, 2, OK),
    (198, 3, FAILS),
    (198, 199, FAILS),
    (3, 199, FAILS),
];

/// A table of types and two rows with the answer, and whether the Rust knows it:
/// it goes 31 links up, to the base or to row 0.
pub fn at_rusts_limit() -> Vec<(Vec<u8>, Pair, bool)> {
    let asked = [
        // Up to the base.
        (chain(35), (33, 2, OK), true),
        (chain(35), (34, 2, OK), false),
        (chain(35), (34, 3, OK), true),
        (chain(200), (199, 168, OK), true),
        (chain(200), (199, 167, OK), false),
        (chain(200), (199, 2, OK), false),
        (beside(35), (33, 2, OK), true),
        (beside(35), (34, 2, OK), false),
        // Up to row 0.
        (chain(33), (31, 32, FAILS), true),
        (chain(34), (32, 33, FAILS), false),
        (chain(200), (31, 199, FAILS), true),
        (chain(200), (32, 199, FAILS), false),
        (chain(200), (198, 199, FAILS), false),
        (beside(35), (32, 33, FAILS), true),
        (beside(35), (33, 34, FAILS), false),
        // At once.
        (chain(200), (199, 0, OK), true),
        (chain(200), (199, 1, OK), true),
        (beside(200), (199, 1, OK), true),
    ];
    asked.to_vec()
}

/// What it shows, and a table of types that is refused 18.
pub fn bad() -> Vec<(&'static str, Vec<u8>)> {
    let last = |parent: u8| [&chain(199)[..], &[parent]].concat();
    vec![
        ("no rows", vec![]),
        ("row 0 with parent 1", vec![1]),
        ("row 0 with parent 255", vec![255]),
        ("row 0 below row 1", vec![1, 0]),
        ("row 0 below row 2", vec![2, 0, 0]),
        ("row 1 its own parent", vec![0, 1]),
        ("row 1 its own parent, and rows after it", vec![0, 1, 0, 1]),
        ("row 1 with parent 2", vec![0, 2]),
        ("row 1 below row 2", vec![0, 2, 0]),
        ("row 1 with parent 255", vec![0, 255]),
        ("row 2 its own parent", vec![0, 0, 2]),
        ("row 2 with parent 3", vec![0, 0, 3]),
        ("row 2 below row 3", vec![0, 0, 3, 0]),
        ("row 2 with parent 255", vec![0, 0, 255]),
        ("row 3 its own parent", vec![0, 0, 1, 3]),
        ("rows 2 and 3 below each other", vec![0, 0, 3, 2]),
        ("row 3 with parent 4", vec![0, 0, 1, 4]),
        ("several faults", vec![1, 1, 2, 9]),
        ("the last of 200 its own parent", last(199)),
        ("the last of 200 with parent 200", last(200)),
        ("201 rows", vec![0; 201]),
        ("201 rows of a chain", chain(201)),
        ("201 rows, row 1 its own parent", [&[0, 1][..], &[0; 199]].concat()),
        ("202 rows", vec![0; 202]),
        ("255 rows", vec![0; 255]),
        ("256 rows", vec![0; 256]),
        ("257 rows", vec![0; 257]),
        ("300 rows", vec![0; 300]),
        ("1000 rows", vec![0; 1000]),
        ("65538 rows", vec![0; 65538]),
    ]
}

/// Numbers to ask a refused one for.
pub const BESIDE_BAD: [(u32, u32); 8] =
    [(0, 0), (0, 1), (1, 0), (2, 2), (2, 3), (200, 200), (255, 0), (u32::MAX, u32::MAX)];

/// What it shows, the sheet, the types and the table of types that are handed in;
/// and the sheet afterwards, or the refusal.
pub type KnownBy = (&'static str, Vec<u8>, Vec<u8>, Vec<u8>, Result<Vec<u8>, u32>);

pub fn fillings() -> Vec<KnownBy> {
    [by_tables(), no_rows(), faults(), sheets()].concat()
}

fn by(parents: &[u8], (what, bytes, types, stated): Known) -> KnownBy {
    (what, bytes, types, parents.to_vec(), stated)
}

/// Row derived, column base.
fn by_tables() -> Vec<KnownBy> {
    vec![
        by(&[0], fills("one row", "e", "?", &[0], ".")),
        by(&[0], fills("one row twice", "ee", "??/??", &[0, 0], "../..")),
        by(&[0, 0], fills("two rows", "ee", "??/??", &[0, 1], "../..")),
        by(&TITLES, fills("grandmaster, title", "ee", "??/??", &[4, 2], "../!.")),
        by(&TITLES, fills("three", "eee", "???/???/???", &[4, 3, 2], ".../!../!!.")),
        by(&TITLES, fills("title, rating", "ee", "??/??", &[2, 5], ".!/!.")),
        by(&TITLES, fills("club", "eee", "???/???/???", &[7, 1, 0], ".../!../!..")),
        by(&TITLES, fills("others stay", "ee", ".?/?x", &[4, 3], "../!x")),
        by(&TITLES, fills("nothing undecided", "ee", ".o/x!", &[2, 5], ".o/x!")),
        by(&TITLES, fills("a wildcard's 255", "ewe", "???/???/???", &[4, 255, 3], ".?./???/!?.")),
        by(&[0], fills("wildcards alone", "ww", "??/??", &[200, 255], "??/??")),
        // In the list 34 is derived from 4, and 59 is no number.
        by(&star(50), fills("another list", "ee", "??/??", &[34, 4], ".!/!.")),
        by(&chain(60), fills("a longer list", "ee", "??/??", &[59, 2], "../!.")),
        by(&chain(200), fills("199 links", "eee", "???/???/???", &[199, 100, 2], ".../!../!!.")),
        by(&beside(200), fills("198 links", "ee", "??/??", &[2, 199], ".!/..")),
    ]
}

/// A number that is no row, or not one for each leaf.
fn no_rows() -> Vec<KnownBy> {
    vec![
        by(&[0], refused("1 of one row", "e", "?", &[1])),
        by(&[0, 0], refused("2 of two rows", "ee", "??/??", &[1, 2])),
        by(&TITLES, refused("8 of eight rows", "ee", "??/??", &[8, 0])),
        by(&TITLES, refused("49 of eight rows", "ee", "../..", &[4, 49])),
        by(&chain(200), refused("200 of 200 rows", "ee", "??/??", &[199, 200])),
        by(&chain(200), refused("255 of 200 rows", "ew", "??/??", &[255, 0])),
        by(&TITLES, refused("none for one", "e", "?", &[])),
        by(&TITLES, refused("one for two", "ee", "??/??", &[4])),
        by(&TITLES, refused("three for two", "ee", "??/??", &[4, 3, 2])),
        by(&TITLES, refused("as many as rows", "ee", "??/??", &[0, 1, 2, 3, 4, 5, 6, 7])),
    ]
}

/// A refused table of types beside a sheet that could be filled, and beside types
/// that are refused.
fn faults() -> Vec<KnownBy> {
    let mut out = Vec::new();
    for (what, parents) in bad() {
        for types in [&[0, 0][..], &[3, 2], &[0], &[255, 255]] {
            let (_, bytes, types, _) = refused(what, "ee", "??/??", types);
            out.push((what, bytes, types, parents.clone(), Err(TYPE_TABLE)));
        }
    }
    out
}

/// The sheet's refusals come before types that are no rows, and after a refused
/// table of types.
fn sheets() -> Vec<KnownBy> {
    let bad = [vec![], vec![0, 1], vec![0, 0, 2], vec![0; 201]];
    let mut out = Vec::new();
    for known in orders() {
        let (what, bytes, types, _) = known.clone();
        let table_first = |parents: &Vec<u8>| {
            (what, bytes.clone(), types.clone(), parents.clone(), Err(TYPE_TABLE))
        };
        out.extend(bad.iter().map(table_first));
        out.push(by(&[0, 0], known));
    }
    out
}
