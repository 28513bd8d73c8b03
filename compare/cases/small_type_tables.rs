//! Every small table of types, refused or not, and numbers to ask it for.

use crate::small_types::rows;

/// What a row may have for a parent, and how many rows there may be.
const PARENTS: [u8; 7] = [0, 1, 2, 3, 4, 5, 255];
const MOST_ROWS: usize = 5;

/// Two of them are asked for.
pub const NUMBERS: [u32; 10] = [0, 1, 2, 3, 4, 5, 6, 255, 256, u32::MAX];

/// Calls `visit` with each, until it returns an error.
pub fn every<E>(visit: &mut impl FnMut(&[u8]) -> Result<(), E>) -> Result<(), E> {
    (0..=MOST_ROWS)
        .try_for_each(|count| rows(&PARENTS, count).iter().try_for_each(|parents| visit(parents)))
}
