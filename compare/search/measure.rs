//! What a shape's sheet costs: the library's time and the entries of the rule.

use std::hint::black_box;
use std::time::{Duration, Instant};

use common::answers::{REFUSED, text};
use common::sheet::Sheet;
use entries::Counted;
use shapes::Shape;

#[derive(Clone)]
pub struct Measured {
    pub shape: Shape,
    /// The least time of several runs, in nanoseconds.
    pub time: f64,
    pub entries: u128,
    pub ceiling: u128,
    pub mark: u32,
    /// Records of the tidied trees, and the depth of the tidied base.
    pub records: (usize, usize),
    pub depth: usize,
}

/// Counts and marks the shape's sheet, and takes the time of one marking. A
/// sheet that is refused, a mark that is not the count's own, or more entries
/// than document 02 §14 allows, is said.
pub fn once(shape: Shape, sheet: &Sheet) -> Result<(Measured, Vec<u8>), String> {
    let bytes = sheet.encode();
    let start = Instant::now();
    let mark = black_box(library::mark(black_box(&bytes)));
    let time = start.elapsed().as_nanos() as f64;
    if mark >= REFUSED {
        return Err(format!("{}: {shape}", text(mark)));
    }
    let counted = entries::count(sheet);
    let Counted { marked, derived, base, depth } = counted;
    if marked.mark != mark {
        let (read, got) = (text(marked.mark), text(mark));
        return Err(format!("the rules read once more: {read}; the library: {got}; {shape}"));
    }
    let ceiling = counted.ceiling();
    if marked.entries > ceiling {
        return Err(format!("{} entries, at most {ceiling}: {shape}", marked.entries));
    }
    let (entries, records) = (marked.entries, (derived, base));
    Ok((Measured { shape, time, entries, ceiling, mark, records, depth }, bytes))
}

/// The least time of so many more runs; no further one begins after so long.
pub fn again(measured: &mut Measured, bytes: &[u8], (runs, enough): (usize, Duration)) {
    let begun = Instant::now();
    for _ in 0..runs {
        let start = Instant::now();
        black_box(library::mark(black_box(bytes)));
        measured.time = measured.time.min(start.elapsed().as_nanos() as f64);
        if begun.elapsed() > enough {
            break;
        }
    }
}
