//! What the entries for built-in types must answer (document 02 §6): the oracle's
//! verdict on two names, by their numbers; and the sheet that a filling leaves,
//! or its refusal, the second reading's. The second reading has names and
//! verdicts too, and must come to the oracle's.

use std::sync::LazyLock;

use common::answers::{REFUSED, TYPE_NUMBER};
use common::sheet::Sheet;
use common::tree::Kind;
use oracle::reasons::Mark;
use oracle::{bridge, doors};
use second::type_table::Types;
use second::types::Refusal;

use crate::sheet;

/// Numbers 0 and 1.
const FIRST: [&str; 2] = ["anyType", "anySimpleType"];

/// The names by number, each lot in the order of the source's text.
static NAMES: LazyLock<Vec<&str>> = LazyLock::new(|| {
    let (simple, rest): (Vec<&str>, Vec<&str>) = doors::builtin_names()
        .iter()
        .filter(|name| !FIRST.contains(name))
        .partition(|name| doors::builtin_parent(name) == Some(FIRST[1]));
    let names = [&FIRST[..], &simple, &rest].concat();
    assert!(names == second::types::names(), "the second reading has other names: {names:?}");
    names
});

pub fn names() -> &'static [&'static str] {
    &NAMES
}

/// The list as a table of types.
static PARENTS: LazyLock<Vec<u8>> = LazyLock::new(|| {
    let number = |name| NAMES.iter().position(|known| *known == name).expect("a listed parent");
    let parent = |name: &&str| number(doors::builtin_parent(name).unwrap_or(FIRST[0])) as u8;
    NAMES.iter().map(parent).collect()
});

/// It as the second reading reads it.
static LIST: LazyLock<Result<Types, Refusal>> = LazyLock::new(|| Types::read(&PARENTS));

/// The number of each one's parent; `anyType` is its own.
pub fn parents() -> &'static [u8] {
    &PARENTS
}

/// The verdicts of the list, by the derived type's number and the base's.
static VERDICTS: LazyLock<Vec<Vec<u32>>> = LazyLock::new(|| {
    let numbers = || 0..NAMES.len();
    let row = |derived| numbers().map(|base| by_names(derived, base)).collect();
    numbers().map(row).collect()
});

/// The oracle's verdict on two names, with a prefix or without.
fn by_names(derived: usize, base: usize) -> u32 {
    let ways = |number: usize| [NAMES[number].into(), format!("xs:{}", NAMES[number])];
    let asked =
        |derived: &String| ways(base).map(|base| bridge::type_derivation_ok(derived, &base));
    let marks = ways(derived).each_ref().map(asked).concat();
    let words = || format!("{} from {}: {marks:?}", NAMES[derived], NAMES[base]);
    assert!(marks.iter().all(|mark| *mark == marks[0]), "it depends on the prefix: {}", words());
    assert!(marks[0] != Mark::Undecided, "the oracle does not know: {}", words());
    let read = second::types::verdict(derived, base).map(u32::from);
    assert!(read == Some(sheet::number(marks[0])), "the second reading has {read:?}, {}", words());
    sheet::number(marks[0])
}

pub fn type_derivation_ok(derived: u32, base: u32) -> u32 {
    let row = VERDICTS.get(derived as usize);
    let verdict = row.and_then(|row| row.get(base as usize));
    verdict.copied().unwrap_or(REFUSED + TYPE_NUMBER)
}

/// Why types are refused, by a wrong length or by a number; a length goes first.
pub const CAUSES: [&str; 6] = ["none", "one fewer", "fewer", "one more", "more", "a number"];

/// Which of these it is, where so many types are refused for so many leaves.
pub fn cause(leaves: usize, types: usize) -> usize {
    match types {
        0 => 0,
        _ if types + 1 == leaves => 1,
        _ if types < leaves => 2,
        _ if types == leaves + 1 => 3,
        _ if types > leaves => 4,
        _ => 5,
    }
}

#[derive(Debug, PartialEq)]
pub struct Filling {
    /// What the library must answer.
    pub answer: u32,
    /// The lent sheet afterwards.
    pub after: Vec<u8>,
}

pub fn fill_types(bytes: &[u8], types: &[u8]) -> Filling {
    let filled = second::types::filled(bytes, types);
    let number = |refusal: &Refusal| refusal.number;
    let as_table = second::type_table::filled(bytes, types, &LIST);
    let same = filled.as_ref().map_err(number) == as_table.as_ref().map_err(number);
    assert!(same, "the second reading fills otherwise by the list as a table of types");
    filling(bytes, types, filled, type_derivation_ok)
}

/// The second reading's filling, which must be the one by these verdicts.
pub(crate) fn filling(
    bytes: &[u8],
    types: &[u8],
    filled: Result<Vec<u8>, Refusal>,
    verdict: impl FnMut(u32, u32) -> u32,
) -> Filling {
    match filled {
        Err(refusal) => Filling { answer: REFUSED + refusal.number, after: bytes.to_vec() },
        Ok(after) => {
            let by_verdicts = by_verdicts(bytes, types, verdict);
            assert!(after == by_verdicts, "the second reading fills otherwise");
            Filling { answer: 0, after }
        }
    }
}

/// An accepted sheet with good types, filled with these verdicts on two numbers.
fn by_verdicts(bytes: &[u8], types: &[u8], mut verdict: impl FnMut(u32, u32) -> u32) -> Vec<u8> {
    let mut sheet = Sheet::decode(bytes);
    let n = sheet.leaves.len();
    for (at, cell) in sheet.second.iter_mut().enumerate() {
        let (row, column) = (at / n, at % n);
        let is_pair = [row, column].iter().all(|leaf| sheet.leaves[*leaf].kind == Kind::Element);
        if is_pair && *cell == 1 {
            let own = verdict(types[row].into(), types[column].into());
            *cell = own.try_into().expect("a verdict");
        }
    }
    sheet.encode()
}
