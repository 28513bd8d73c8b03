//! Every small chain: up to three levels, each absent or a small tree.

use common::chain;

use crate::small_trees::{self, FEW_PAIRS};

/// Hands the bytes of every chain to `visit`, until it says that this is enough
/// (`Err`): one level with every tree of up to 3 records, two levels with those
/// of up to 2, three levels with those of 1; the pairs are few.
pub fn every<E>(visit: &mut impl FnMut(&[u8]) -> Result<(), E>) -> Result<(), E> {
    for (levels, records) in [(1, 3), (2, 2), (3, 1)] {
        with_levels(&mut Vec::new(), levels, &level(records), visit)?;
    }
    Ok(())
}

/// Absent, or a tree of up to so many records.
fn level(records: usize) -> Vec<Vec<u8>> {
    let mut out = vec![Vec::new()];
    for records in 1..=records {
        let added = small_trees::every(records, &FEW_PAIRS, &mut |bytes| {
            out.push(bytes.to_vec());
            Ok::<(), ()>(())
        });
        added.expect("nothing ends it");
    }
    out
}

fn with_levels<E>(
    before: &mut Vec<Vec<u8>>,
    more: usize,
    each: &[Vec<u8>],
    visit: &mut impl FnMut(&[u8]) -> Result<(), E>,
) -> Result<(), E> {
    if more == 0 {
        return visit(&chain::write(before));
    }
    for own in each {
        before.push(own.clone());
        with_levels(before, more - 1, each, visit)?;
        before.pop();
    }
    Ok(())
}
