//! Sheets to be filled from types (document 02 §6 and §7), good and damaged ones,
//! and the types that are handed in with them, of the built-in list or of a table
//! of types: mostly one for each leaf, with any byte for a wildcard, and otherwise
//! too few, too many, or with a number that is no type's.

use common::random::Rng;
use common::sheet::{CONTENTS, Counts, LEAF_BYTES, LEAF_KIND};
use common::tree::Kind;
use second::type_table::Types;
use second::types::{names, verdict};

use crate::damaged_sheets;
use crate::sheets::{self, Size};

/// An accepted sheet.
pub fn sheet(rng: &mut Rng, size: Size) -> Vec<u8> {
    let mut bytes = sheets::sheet(rng, size).encode();
    open(rng, &mut bytes);
    bytes
}

/// A sheet that is mostly refused.
pub fn damaged_sheet(rng: &mut Rng) -> Vec<u8> {
    let mut bytes = damaged_sheets::sheet(rng);
    open(rng, &mut bytes);
    bytes
}

/// Makes verdicts of either table undecided, from none to all. One that is not
/// good stays, so that the sheet is refused as before.
pub fn open(rng: &mut Rng, bytes: &mut [u8]) {
    if bytes.len() < CONTENTS {
        return;
    }
    let places = Counts::read(bytes).places();
    for table in [places.first, places.second] {
        let one_in = rng.pick(&[0, 1, 2, 4, 12]);
        for at in table {
            let is_good = matches!(bytes.get(at), Some(0 | 140..=152));
            if is_good && one_in > 0 && rng.one_in(one_in) {
                bytes[at] = 1;
            }
        }
    }
}

/// What types are drawn from: the built-in list, or a table of types.
#[derive(Clone, Copy)]
pub enum Among<'a> {
    List,
    Rows(&'a Types),
}

impl Among<'_> {
    fn count(self) -> usize {
        match self {
            Among::List => names().len(),
            Among::Rows(types) => types.rows(),
        }
    }

    fn is_ok(self, derived: usize, base: usize) -> bool {
        let verdict = match self {
            Among::List => verdict(derived, base),
            Among::Rows(types) => types.verdict(derived, base),
        };
        verdict == Some(0)
    }
}

/// Types for a sheet, good ones or not.
pub fn any(rng: &mut Rng, bytes: &[u8], of: Among) -> Vec<u8> {
    let mut types = good(rng, bytes, of);
    match rng.below(8) {
        0 => wrong_number(rng, bytes, of, &mut types),
        1 => wrong_length(rng, of, &mut types),
        2 if rng.one_in(4) => {
            wrong_number(rng, bytes, of, &mut types);
            wrong_length(rng, of, &mut types);
        }
        _ => {}
    }
    types
}

/// One for each leaf that the sheet counts: a type's for an element, any byte for
/// a wildcard.
pub fn good(rng: &mut Rng, bytes: &[u8], of: Among) -> Vec<u8> {
    let from = pool(rng, of);
    let good_everywhere = rng.one_in(3);
    let leaf = |is_element| {
        if is_element || good_everywhere { rng.pick(&from) } else { rng.byte() }
    };
    elements(bytes).into_iter().map(leaf).collect()
}

/// Whether each leaf that the sheet counts is an element, as far as there are
/// bytes.
fn elements(bytes: &[u8]) -> Vec<bool> {
    if bytes.len() < CONTENTS {
        return vec![true];
    }
    let leaves = Counts::read(bytes).places().leaves;
    let kind = |leaf| bytes.get(leaf + LEAF_KIND) != Some(&(Kind::Wildcard as u8));
    leaves.step_by(LEAF_BYTES).map(kind).collect()
}

/// What an element's type is picked from: any type, a few, or one with what it is
/// derived from and what is derived from it.
fn pool(rng: &mut Rng, of: Among) -> Vec<u8> {
    let count = of.count();
    let one = rng.below(count);
    let others = [rng.below(count), rng.below(count)];
    let related = |other: &usize| of.is_ok(*other, one) || of.is_ok(one, *other);
    let numbers: Vec<usize> = match rng.below(4) {
        0 => (0..count).collect(),
        1 => [&[one], &others[..rng.below(3)]].concat(),
        _ => (0..count).filter(related).collect(),
    };
    numbers.into_iter().map(|number| number as u8).collect()
}

/// A number that is no type's, at an element if there is one.
fn wrong_number(rng: &mut Rng, bytes: &[u8], of: Among, types: &mut [u8]) {
    let over = of.count();
    let elements = elements(bytes);
    let places: Vec<usize> = (0..types.len()).filter(|at| elements[*at]).collect();
    if !places.is_empty() {
        let any = rng.within(over, 255) as u8;
        let other = over.max(128) as u8;
        types[rng.pick(&places)] = rng.pick(&[over as u8, over as u8, any, any, other, 255]);
    }
}

/// Fewer types or more, by one and by many.
fn wrong_length(rng: &mut Rng, of: Among, types: &mut Vec<u8>) {
    let n = types.len();
    let length = match rng.below(8) {
        0..2 => n.saturating_sub(1),
        2..4 => n + 1,
        4 => 0,
        5 => rng.below(n + 1),
        6 => 2 * n,
        _ => n + rng.within(1, 300),
    };
    let more = rng.below(of.count()) as u8;
    types.resize(length, more);
}
