//! Two builds of the library side by side: the same sheets, one program, one
//! run. The earlier one is the archive that BEFORE names (compare/run), with its
//! entries under other names. What it answers is not looked at.

use std::hint::black_box;
use std::time::Instant;

use crate::groups::Group;
use crate::time::{in_turn, nanoseconds};

/// The mark by the earlier build, where there is one.
#[cfg(not(before))]
pub const EARLIER: Option<fn(&[u8]) -> u32> = None;
#[cfg(before)]
pub const EARLIER: Option<fn(&[u8]) -> u32> = Some(earlier_mark);

#[cfg(before)]
unsafe extern "C" {
    fn before_marker_mark(sheet: *const u8, len: usize) -> u32;
}

#[cfg(before)]
fn earlier_mark(sheet: &[u8]) -> u32 {
    unsafe { before_marker_mark(sheet.as_ptr(), sheet.len()) }
}

/// A row for each group, in nanoseconds a sheet.
pub fn print(groups: &[Group], seed: u64, rounds: usize) {
    println!("| group | before, ns | now, ns | |\n|---|---|---|---|");
    for group in groups {
        let sheets: Vec<Vec<u8>> = group.sheets(seed).iter().map(|sheet| sheet.encode()).collect();
        let subjects: Vec<&Vec<u8>> = sheets.iter().collect();
        let times = in_turn(&subjects, [before, now], 0, rounds);
        let [before, now] = times.map(|time| time.map_or(f64::NAN, |time| time.least));
        let change = 100.0 * (now / before - 1.0);
        println!("| {} | {before:.0} | {now:.0} | {change:+.1}% |", group.name);
    }
}

fn before(batch: &[&Vec<u8>]) -> f64 {
    EARLIER.map_or(f64::NAN, |mark| marking(batch, mark))
}

fn now(batch: &[&Vec<u8>]) -> f64 {
    marking(batch, library::mark)
}

/// Both builds are called in the same way, by a pointer.
fn marking(batch: &[&Vec<u8>], mark: fn(&[u8]) -> u32) -> f64 {
    let mark = black_box(mark);
    let start = Instant::now();
    for sheet in batch {
        black_box(mark(black_box(sheet)));
    }
    nanoseconds(start)
}
