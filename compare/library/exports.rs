//! The proved library's entries, exported with a C ABI, behind safe functions.
//! `BEYOND`, `TOO_LARGE` and `REFUSED` stand in common/answers.rs.
//! `link/check-names` holds these declarations to crates/exports.

unsafe extern "C" {
    fn marker_total_min(tree: *const u8, len: usize) -> u64;
    fn marker_total_max(tree: *const u8, len: usize) -> u64;
    fn marker_emptiable(tree: *const u8, len: usize) -> u32;
    fn marker_tidy(tree: *const u8, len: usize, out: *mut u8, out_len: usize) -> u64;
    fn marker_item(tree: *const u8, len: usize, k: usize, out: *mut u8, out_len: usize) -> usize;
    fn marker_mark(sheet: *const u8, len: usize) -> u32;
    fn marker_effective_particle(
        chain: *const u8,
        chain_len: usize,
        out: *mut u8,
        out_len: usize,
    ) -> u64;
    fn marker_type_derivation_ok(derived: u32, base: u32) -> u32;
    fn marker_fill_types(
        sheet: *mut u8,
        sheet_len: usize,
        types: *const u8,
        types_len: usize,
    ) -> u32;
    fn marker_type_derivation_ok_by(
        parents: *const u8,
        parents_len: usize,
        derived: u32,
        base: u32,
    ) -> u32;
    fn marker_fill_types_by(
        sheet: *mut u8,
        sheet_len: usize,
        types: *const u8,
        types_len: usize,
        parents: *const u8,
        parents_len: usize,
    ) -> u32;
}

/// The total range's minimum, `TOO_LARGE` where it is too large; or `BEYOND` + N
/// where the tree is refused with N.
#[inline]
pub fn total_min(tree: &[u8]) -> u64 {
    unsafe { marker_total_min(tree.as_ptr(), tree.len()) }
}

/// The total range's maximum, `TOO_LARGE` where it is too large, `BEYOND` where it
/// is unbounded; or `BEYOND` + N where the tree is refused with N.
#[inline]
pub fn total_max(tree: &[u8]) -> u64 {
    unsafe { marker_total_max(tree.as_ptr(), tree.len()) }
}

/// 1 yes, 0 no; or N where the tree is refused with N.
pub fn emptiable(tree: &[u8]) -> u32 {
    unsafe { marker_emptiable(tree.as_ptr(), tree.len()) }
}

/// The length in bytes of the root's k-th item, 0 where the tree is refused or
/// k is not below the item count. The item is written to the start of `out`
/// where it fits, otherwise nothing is written.
pub fn item(tree: &[u8], k: usize, out: &mut [u8]) -> usize {
    unsafe { marker_item(tree.as_ptr(), tree.len(), k, out.as_mut_ptr(), out.len()) }
}

/// The record count of the tidied tree, which is written to the start of
/// `out`; or `BEYOND` + N where it is refused with N, and nothing is written.
pub fn tidy(tree: &[u8], out: &mut [u8]) -> u64 {
    unsafe { marker_tidy(tree.as_ptr(), tree.len(), out.as_mut_ptr(), out.len()) }
}

/// A sheet's mark: 0 passes, 1 undecided, the reason's number where it fails;
/// or `REFUSED` + N where it is refused with N.
// Inlined, so that the benchmark times the call alone.
#[inline]
pub fn mark(sheet: &[u8]) -> u32 {
    unsafe { marker_mark(sheet.as_ptr(), sheet.len()) }
}

/// The record count of the joined tree, which is written to the start of
/// `out`, and 0 for 'no content'; or `BEYOND` + N where it is refused with N,
/// and nothing is written.
#[inline]
pub fn effective_particle(chain: &[u8], out: &mut [u8]) -> u64 {
    unsafe { marker_effective_particle(chain.as_ptr(), chain.len(), out.as_mut_ptr(), out.len()) }
}

/// The verdict on two built-in types by their numbers: 0 ok, 148 where the derived
/// one is not derived from the base; or `REFUSED` + 17 where the list does not
/// have one of them.
pub fn type_derivation_ok(derived: u32, base: u32) -> u32 {
    unsafe { marker_type_derivation_ok(derived, base) }
}

/// Fills the second table of the sheet from the type numbers of its leaves, and
/// answers 0; or `REFUSED` + N where it is refused with N, and nothing is
/// written.
pub fn fill_types(sheet: &mut [u8], types: &[u8]) -> u32 {
    unsafe { marker_fill_types(sheet.as_mut_ptr(), sheet.len(), types.as_ptr(), types.len()) }
}

/// The verdict on two rows of a table of types, a byte for each row's parent: 0
/// ok, 148 where the derived one is not derived from the base; or `REFUSED` + 18
/// where the table of types is refused, `REFUSED` + 17 where it does not have one
/// of the rows.
pub fn type_derivation_ok_by(parents: &[u8], derived: u32, base: u32) -> u32 {
    unsafe { marker_type_derivation_ok_by(parents.as_ptr(), parents.len(), derived, base) }
}

/// Fills the second table of the sheet as `fill_types` does, by a table of types
/// in place of the built-in list.
pub fn fill_types_by(sheet: &mut [u8], types: &[u8], parents: &[u8]) -> u32 {
    unsafe {
        marker_fill_types_by(
            sheet.as_mut_ptr(),
            sheet.len(),
            types.as_ptr(),
            types.len(),
            parents.as_ptr(),
            parents.len(),
        )
    }
}
