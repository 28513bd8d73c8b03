//! Searches for long markings: draws shapes of sheets, measures the library's
//! time on each and counts the entries of the rule, and goes on from the worst.
//! Run it by compare/run. Each draw comes from the seed and its number; which
//! shape it changes depends on the times before, so that two runs need not find
//! the same. Exit status 0: done; 1: a mark or a count is not as it should be;
//! 2: bad usage, or a file that could not be written.

mod best;
mod draw;
mod held;
mod measure;
mod options;
mod report;

use std::time::Duration;

use best::{Best, Family, by_entries, by_time};
use common::random::Rng;
use measure::Measured;
use options::Options;
use shapes::Shape;

/// So many draws are new shapes, and then one of so many; of the others, one of
/// so many has one tree from another of the worst.
const FIRST: u64 = 1000;
const NEW: usize = 8;
const MIXED: usize = 6;
/// The records at which the original must mark and enter as counted.
const SMALL: usize = 12;
/// More runs for one that may be the worst of its family, and for those that
/// are listed.
const RUNS: (usize, Duration) = (5, Duration::from_millis(50));
const LAST_RUNS: (usize, Duration) = (100, Duration::from_secs(2));

fn main() {
    let options = options::read();
    if let Some(shape) = options.shape.clone() {
        return one(shape, &options);
    }
    or_stop(held::check(options.seed));
    let mut best = [Best::new(by_time), Best::new(by_entries)];
    for case in 0..options.count {
        let shape = drawn(&best, options.seed, case);
        let small = held::as_original(&shape.sheet(SMALL));
        or_stop(small.map_err(|what| format!("{what}: {SMALL} records of {shape}")));
        try_shape(shape, options.records, &mut best);
    }
    let titles = ["The longest by time:", "The most entries:"];
    for (title, best) in titles.into_iter().zip(best) {
        report::print(title, &listed(&best, &options), options.records);
    }
}

fn or_stop<T>(result: Result<T, String>) -> T {
    result.unwrap_or_else(|what| {
        eprintln!("difference: {what}");
        std::process::exit(1);
    })
}

/// A new shape, or one of the worst by time or by entries, changed.
fn drawn(best: &[Best; 2], seed: u64, case: u64) -> Shape {
    let mut rng = Rng::new(seed, case);
    if case < FIRST || rng.one_in(NEW) {
        return draw::shape(&mut rng);
    }
    // The longest by time are what is looked for most.
    let best = &best[usize::from(rng.one_in(4))];
    let parent = best.parent(&mut rng).clone();
    if rng.one_in(MIXED) {
        let other = best.parent(&mut rng).clone();
        return draw::mixed(&mut rng, parent, other);
    }
    draw::changed(&mut rng, &parent)
}

fn try_shape(shape: Shape, records: usize, best: &mut [Best; 2]) {
    let sheet = shape.sheet(records);
    let (mut measured, bytes) = or_stop(measure::once(shape, &sheet));
    let family = Family::of(&sheet);
    // The least time counts, so one that is below the worst of its family at
    // once need not be run again.
    let held = best[0].of(&family).map_or(0.0, |held| held.time);
    if measured.time > held {
        measure::again(&mut measured, &bytes, RUNS);
    }
    best.iter_mut().for_each(|best| best.put(family, &measured));
}

/// The worst, measured again with more runs, in the order that gives.
fn listed(best: &Best, options: &Options) -> Vec<Measured> {
    let mut out = best.worst(options.list);
    for measured in &mut out {
        let (mut more, bytes) =
            or_stop(measure::once(measured.shape.clone(), &measured.shape.sheet(options.records)));
        measure::again(&mut more, &bytes, LAST_RUNS);
        *measured = more;
    }
    out.sort_by(|a, b| (best.score)(b).total_cmp(&(best.score)(a)));
    out
}

/// Measures one shape, and writes its sheet.
fn one(shape: Shape, options: &Options) {
    let (mut measured, bytes) =
        or_stop(measure::once(shape.clone(), &shape.sheet(options.records)));
    measure::again(&mut measured, &bytes, LAST_RUNS);
    report::print("The shape:", &[measured], options.records);
    if let Some(path) = &options.out
        && let Err(error) = std::fs::write(path, &bytes)
    {
        eprintln!("{path}: {error}");
        std::process::exit(2);
    }
}
