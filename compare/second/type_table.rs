//! Document 02 §7 read a second time: what a table of types is, which of its
//! types are derived from which, and what a filling by it does to a sheet's
//! bytes, or refuses, in its order: 18, the sheet's 1 to 14, then 17.

use common::answers::{NOT_DERIVED, TYPE_TABLE};

use crate::types::{self, Refusal};

pub const MOST_ROWS: usize = 200;

/// What is wrong with the number of rows, or with a row's parent.
#[derive(Debug, Clone, Copy, PartialEq, Eq)]
pub enum Fault {
    NoRows,
    OneRowMore,
    MoreRows,
    /// Row 0 is not its own parent.
    RowZero,
    /// Row 1 has not parent 0, but itself or another.
    RowOneItself,
    RowOne,
    /// A later row is its own parent, or has a parent after it, or one that is
    /// beyond the last row.
    Itself,
    Later,
    Beyond,
}

impl Fault {
    pub const EVERY: [Fault; 9] = [
        Fault::NoRows,
        Fault::OneRowMore,
        Fault::MoreRows,
        Fault::RowZero,
        Fault::RowOneItself,
        Fault::RowOne,
        Fault::Itself,
        Fault::Later,
        Fault::Beyond,
    ];

    pub fn name(self) -> &'static str {
        match self {
            Fault::NoRows => "no rows",
            Fault::OneRowMore => "one row too many",
            Fault::MoreRows => "more rows",
            Fault::RowZero => "row 0",
            Fault::RowOneItself => "row 1 its own parent",
            Fault::RowOne => "row 1 with another parent",
            Fault::Itself => "a later row its own parent",
            Fault::Later => "a parent further down",
            Fault::Beyond => "a parent beyond the last row",
        }
    }
}

/// Every fault of a table of types, that of its length first, then row by row.
/// With none it is not refused.
pub fn faults(parents: &[u8]) -> Vec<Fault> {
    let rows = parents.len();
    let of_length = match rows {
        0 => Some(Fault::NoRows),
        1..=MOST_ROWS => None,
        _ if rows == MOST_ROWS + 1 => Some(Fault::OneRowMore),
        _ => Some(Fault::MoreRows),
    };
    let of_row = |(row, parent): (usize, &u8)| match (row, usize::from(*parent)) {
        (0, parent) => (parent != 0).then_some(Fault::RowZero),
        (1, 0) => None,
        (1, 1) => Some(Fault::RowOneItself),
        (1, _) => Some(Fault::RowOne),
        (_, parent) if parent < row => None,
        (_, parent) if parent == row => Some(Fault::Itself),
        (_, parent) if parent < rows => Some(Fault::Later),
        _ => Some(Fault::Beyond),
    };
    of_length.into_iter().chain(parents.iter().enumerate().filter_map(of_row)).collect()
}

/// The types of a table that is not refused.
pub struct Types {
    /// By row, which rows are it or derived from it.
    within: Vec<Vec<bool>>,
}

impl Types {
    pub fn read(parents: &[u8]) -> Result<Types, Refusal> {
        if let Some(fault) = faults(parents).first() {
            return Err(Refusal { number: TYPE_TABLE, place: fault.name().into() });
        }
        let rows = 0..parents.len();
        Ok(Types { within: rows.map(|base| derived_from(parents, base)).collect() })
    }

    pub fn rows(&self) -> usize {
        self.within.len()
    }

    /// The verdict on two rows, as a sheet's table has it; none where there is no
    /// such row.
    pub fn verdict(&self, derived: usize, base: usize) -> Option<u8> {
        let within = *self.within.get(base)?.get(derived)?;
        // With anyType or anySimpleType as base every type is ok.
        Some(if base < 2 || within { 0 } else { NOT_DERIVED as u8 })
    }
}

/// Which rows are this one or derived from it: with each row those whose parent
/// it is, which come later.
fn derived_from(parents: &[u8], base: usize) -> Vec<bool> {
    let mut within = vec![false; parents.len()];
    within[base] = true;
    for (row, parent) in parents.iter().enumerate() {
        within[row] |= within[usize::from(*parent)];
    }
    within
}

/// The bytes of the sheet filled by a table of types, as that was read, or the
/// first refusal.
pub fn filled(
    bytes: &[u8],
    types: &[u8],
    read: &Result<Types, Refusal>,
) -> Result<Vec<u8>, Refusal> {
    match read {
        Err(refusal) => Err(refusal.clone()),
        Ok(own) => types::filled_by(bytes, types, |derived, base| own.verdict(derived, base)),
    }
}
