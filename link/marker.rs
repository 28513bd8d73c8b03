//! The marker for Rust: safe functions over the C functions of `libexports.a`,
//! which link/build writes. Take this file into a crate as a module
//! (`mod marker;`), a `no_std` crate too: it uses `core` alone. words.rs must
//! stand beside it. link/README.md has an example with its command.
//!
//! Every byte string is an input, and a bad one is refused by number. What a
//! function promises is what the contracts in crates/exports/src/lib.rt
//! promise; link/marker.h words them one by one and says what holds of threads,
//! stack and time. What a caller in C must see to, Rust's types see to here.
//! 'Document 01' is the specification of sheets, trees, marks and refusals, as
//! document 02 changes it; document 02 is also that of chains and of type
//! verdicts. sheet.rs writes sheets, trees and chains; types.rs has the types.

// A program may use a part of it.
#![allow(dead_code)]

use core::fmt;

#[path = "words.rs"]
mod words;

pub use words::{Reason, Refusal};

// As link/marker.h declares them: a slice is a pointer and a length. That these
// lines are those of crates/exports_c is held by link/check-names.
extern "C" {
    fn marker_mark(sheet: *const u8, sheet_len: usize) -> u32;
    fn marker_total_min(tree: *const u8, tree_len: usize) -> u64;
    fn marker_total_max(tree: *const u8, tree_len: usize) -> u64;
    fn marker_emptiable(tree: *const u8, tree_len: usize) -> u32;
    fn marker_tidy(tree: *const u8, tree_len: usize, out: *mut u8, out_len: usize) -> u64;
    fn marker_effective_particle(
        chain: *const u8,
        chain_len: usize,
        out: *mut u8,
        out_len: usize,
    ) -> u64;
    fn marker_item(
        tree: *const u8,
        tree_len: usize,
        k: usize,
        out: *mut u8,
        out_len: usize,
    ) -> usize;
    fn marker_type_derivation_ok(derived: u32, base: u32) -> u32;
    fn marker_fill_types(
        sheet: *mut u8,
        sheet_len: usize,
        types: *const u8,
        types_len: usize,
    ) -> u32;
    fn marker_type_derivation_ok_by(
        parents: *const u8,
        parents_len: usize,
        derived: u32,
        base: u32,
    ) -> u32;
    fn marker_fill_types_by(
        sheet: *mut u8,
        sheet_len: usize,
        types: *const u8,
        types_len: usize,
        parents: *const u8,
        parents_len: usize,
    ) -> u32;
}

/// The length of a tree's record in bytes.
pub const RECORD: usize = 16;

/// The length in bytes of the longest tree, of 1000 records.
pub const MOST_TREE: usize = 16000;

/// The length in bytes of the longest sheet.
pub const MOST_SHEET: usize = 40456;

/// The length in bytes of the longest chain that is joined.
pub const MOST_CHAIN: usize = 16035;

/// A sheet has at most so many leaves.
pub const MOST_LEAVES: usize = 64;

/// A tree has at most so many records.
pub const MOST_RECORDS: usize = 1000;

/// A tree has at most this depth; its root is at depth 1.
pub const MOST_DEPTH: usize = 12;

/// A chain has at most so many levels.
pub const MOST_LEVELS: usize = 17;

/// A table of types has at most so many rows.
pub const MOST_TYPES: usize = 200;

/// A call takes at most so many bytes of stack, for whoever sizes a thread's.
/// It is counted and tested (`link/stack`, `link/test_stack.c`), not proved.
pub const MOST_STACK: usize = 57344;

// Added to the number of a sheet's or of types' refusal.
const REFUSED: u32 = 1000;

// 2^32: an unbounded maximum; and added to the number of a tree's or chain's
// refusal.
const BEYOND: u64 = 1 << 32;

// 2^33: a total minimum or maximum that is too large.
const TOO_LARGE: u64 = 1 << 33;

/// The mark of a sheet. It displays as the line that the marking program
/// prints.
#[derive(Debug, Clone, Copy, PartialEq, Eq, Hash)]
pub enum Mark {
    /// The derived tree restricts the base tree.
    Passes,
    /// The sheet's verdicts, or the rules, leave it open.
    Undecided,
    /// It does not, for this reason.
    Fails(Reason),
    /// The sheet is not read.
    Refused(Refusal),
}

impl fmt::Display for Mark {
    fn fmt(&self, f: &mut fmt::Formatter<'_>) -> fmt::Result {
        match self {
            Mark::Passes => f.write_str("passes"),
            Mark::Undecided => f.write_str("undecided"),
            Mark::Fails(reason) => write!(f, "fails {}", reason.number()),
            Mark::Refused(refusal) => write!(f, "refused {}", refusal.number()),
        }
    }
}

/// A total range: its least and its greatest number. Both are exact: sums and
/// products are formed without limit, zero times unbounded being 0, and only the
/// result is held against 4294967295.
#[derive(Debug, Clone, Copy, PartialEq, Eq, Hash)]
pub struct Range {
    pub min: Minimum,
    pub max: Maximum,
}

/// The least number of a total range.
#[derive(Debug, Clone, Copy, PartialEq, Eq, Hash)]
pub enum Minimum {
    /// This number.
    Exact(u32),
    /// A number above 4294967295.
    TooLarge,
}

/// The greatest number of a total range.
#[derive(Debug, Clone, Copy, PartialEq, Eq, Hash)]
pub enum Maximum {
    /// This number.
    Bounded(u32),
    /// A number above 4294967295.
    TooLarge,
    /// There is none.
    Unbounded,
}

/// The mark of a sheet: the one that document 01's rules give, or the first
/// refusal in document 01's order.
pub fn mark(sheet: &[u8]) -> Mark {
    // SAFETY: a `&[u8]` is what the header asks of a slice.
    match unless_added(unsafe { marker_mark(sheet.as_ptr(), sheet.len()) }) {
        Ok(0) => Mark::Passes,
        Ok(1) => Mark::Undecided,
        Ok(number) => Mark::Fails(Reason(number)),
        Err(refusal) => Mark::Refused(refusal),
    }
}

/// The total range of a tree, as handed in; refused with 10 to 14.
pub fn total_range(tree: &[u8]) -> Result<Range, Refusal> {
    // SAFETY: a `&[u8]` is what the header asks of a slice.
    let min = unsafe { marker_total_min(tree.as_ptr(), tree.len()) };
    // SAFETY: as above.
    let max = unsafe { marker_total_max(tree.as_ptr(), tree.len()) };
    let min = match unless_refused(min)? {
        TOO_LARGE => Minimum::TooLarge,
        // Every other minimum is below 2^32.
        number => Minimum::Exact(number as u32),
    };
    let max = match unless_refused(max)? {
        TOO_LARGE => Maximum::TooLarge,
        BEYOND => Maximum::Unbounded,
        // Every other maximum is below 2^32.
        number => Maximum::Bounded(number as u32),
    };
    Ok(Range { min, max })
}

/// Whether a tree, as handed in, is emptiable; refused with 10 to 14.
pub fn emptiable(tree: &[u8]) -> Result<bool, Refusal> {
    // SAFETY: a `&[u8]` is what the header asks of a slice.
    match unsafe { marker_emptiable(tree.as_ptr(), tree.len()) } {
        0 => Ok(false),
        1 => Ok(true),
        number => Err(Refusal(number)),
    }
}

/// Tidies a tree into `out` and gives its new record count n. The tidied tree
/// is `out[..RECORD * n]`, which is no longer than `tree`; every later byte of
/// `out` keeps its value. It is accepted as a tree alone, and tidied again it is
/// the same bytes; n is the record count of `tree` exactly where that was tidy.
/// Refused with 10 to 14, then with 2 where `out` is
/// shorter than `tree`, and then every byte of `out` keeps its value.
pub fn tidy(tree: &[u8], out: &mut [u8]) -> Result<usize, Refusal> {
    let (lent, len) = (out.as_mut_ptr(), out.len());
    // SAFETY: a `&[u8]` and a `&mut [u8]` are what the header asks of the two
    // slices, and share no byte.
    let count = unsafe { marker_tidy(tree.as_ptr(), tree.len(), lent, len) };
    // At most 1000 records.
    Ok(unless_refused(count)? as usize)
}

/// Joins a chain of trees that extend one another, root type first, into `out`
/// and gives the joined tree's record count n; `None` where no level is present.
/// The tree is `out[..RECORD * n]`, and every other byte of `out` keeps its
/// value. Refused with 15, then with 10 to 14 for the first tree that is refused
/// alone, then with 16, then with 2 where `out` is shorter than the joined tree,
/// and then every byte of `out` keeps its value.
pub fn effective_particle(chain: &[u8], out: &mut [u8]) -> Result<Option<usize>, Refusal> {
    let (lent, len) = (out.as_mut_ptr(), out.len());
    // SAFETY: as in `tidy`.
    let count = unsafe { marker_effective_particle(chain.as_ptr(), chain.len(), lent, len) };
    // At most 1000 records.
    let count = unless_refused(count)? as usize;
    Ok(if count == 0 { None } else { Some(count) })
}

/// Copies the k-th item of a tree's root, from 0, to the start of `out`, and
/// gives its length in bytes; 0 where the tree is refused or k is not below the
/// item count. Every later byte of `out` keeps its value, and every byte of
/// `out` where the item is longer than `out`.
pub fn copy_item(tree: &[u8], k: usize, out: &mut [u8]) -> usize {
    let (lent, len) = (out.as_mut_ptr(), out.len());
    // SAFETY: as in `tidy`.
    unsafe { marker_item(tree.as_ptr(), tree.len(), k, lent, len) }
}

/// The k-th item of a tree's root, from 0, as a part of the tree's own bytes.
/// `None` where the tree is refused or k is not below the item count.
///
/// The library hands out an item's length and a copy of it, not its place. The
/// place is worked out here: the first item follows the root's record, and each
/// next item follows the one before it. So this makes k + 1 calls.
pub fn item(tree: &[u8], k: usize) -> Option<&[u8]> {
    let mut start = RECORD;
    for before in 0..k {
        let length = copy_item(tree, before, &mut []);
        if length == 0 {
            return None;
        }
        start += length;
    }
    match copy_item(tree, k, &mut []) {
        0 => None,
        length => tree.get(start..start + length),
    }
}

/// The verdict for two types of the built-in list, by their numbers: whether the
/// base is `anyType` or `anySimpleType`, or the derived type or one of its
/// ancestors. `false` is the verdict 148. Refused with 17 where the list does not
/// have one of the numbers.
pub fn type_derivation_ok(derived: impl Into<u32>, base: impl Into<u32>) -> Result<bool, Refusal> {
    let (derived, base) = (derived.into(), base.into());
    // SAFETY: the header asks nothing of a number.
    let verdict = unsafe { marker_type_derivation_ok(derived, base) };
    Ok(unless_added(verdict)? == 0)
}

/// Fills in the second table of a sheet from the types of its elements: each
/// verdict that is undecided, of an element against an element, becomes that of
/// `type_derivation_ok`, the row's type as derived. Every other byte of `sheet`
/// keeps its value; a filling done twice is the filling done once. `types` has a
/// number for each leaf; a wildcard's is not read.
///
/// Refused with 1, 3 to 14 as in `mark`, then with 17 where `types` is not as long
/// as the sheet has leaves, or the list does not have an element's number, and then
/// every byte of `sheet` keeps its value.
pub fn fill_types(sheet: &mut [u8], types: &[u8]) -> Result<(), Refusal> {
    let (lent, len) = (sheet.as_mut_ptr(), sheet.len());
    // SAFETY: as in `tidy`.
    let answer = unsafe { marker_fill_types(lent, len, types.as_ptr(), types.len()) };
    unless_added(answer).map(|_| ())
}

/// The verdict for two types of a table of types, by their rows: as
/// `type_derivation_ok` for the built-in list, which is `Type::PARENTS` of types.rs
/// in this form.
///
/// `parents` has the row of each row's parent, a byte each. Row 0 is its own parent
/// and stands for `anyType`, row 1 has parent 0 and stands for `anySimpleType`, and
/// every later row's parent is an earlier row. Refused with 18 where a row breaks
/// this, or there are 0 rows or over `MOST_TYPES`; then with 17 where the table does
/// not have one of the numbers. A table of one row has no number 1.
pub fn type_derivation_ok_by(
    parents: &[u8],
    derived: impl Into<u32>,
    base: impl Into<u32>,
) -> Result<bool, Refusal> {
    let (lent, len) = (parents.as_ptr(), parents.len());
    let (derived, base) = (derived.into(), base.into());
    // SAFETY: a `&[u8]` is what the header asks of a slice.
    let verdict = unsafe { marker_type_derivation_ok_by(lent, len, derived, base) };
    Ok(unless_added(verdict)? == 0)
}

/// Fills in the second table of a sheet from the types of its elements, as
/// `fill_types` does, by a table of types: verdicts become those of
/// `type_derivation_ok_by`, and an element's number is its type's row.
///
/// Refused with 18 as there, then with 1, 3 to 14 as in `mark`, then with 17 where
/// `types` is not as long as the sheet has leaves, or the table of types does not
/// have an element's number, and then every byte of `sheet` keeps its value.
pub fn fill_types_by(sheet: &mut [u8], types: &[u8], parents: &[u8]) -> Result<(), Refusal> {
    let (lent, len) = (sheet.as_mut_ptr(), sheet.len());
    let (numbers, count) = (types.as_ptr(), types.len());
    let (rows, row_count) = (parents.as_ptr(), parents.len());
    // SAFETY: as in `tidy`, of three slices; the two that are only read may share
    // bytes.
    let answer = unsafe { marker_fill_types_by(lent, len, numbers, count, rows, row_count) };
    unless_added(answer).map(|_| ())
}

// The number, unless it stands for a sheet's or types' refusal.
fn unless_added(number: u32) -> Result<u32, Refusal> {
    match number.checked_sub(REFUSED) {
        Some(refusal @ 1..) => Err(Refusal(refusal)),
        _ => Ok(number),
    }
}

// The number, unless it stands for a tree's or chain's refusal.
fn unless_refused(number: u64) -> Result<u64, Refusal> {
    match number.checked_sub(BEYOND) {
        // Refusals are 1 to 18.
        Some(refusal @ 1..) if number != TOO_LARGE => Err(Refusal(refusal as u32)),
        _ => Ok(number),
    }
}
