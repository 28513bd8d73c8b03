//! The measuring. A round goes through the sheets, chains or trees in batches, and each of those
//! who are measured has its turn at a batch before the next batch comes: what
//! else the machine does meets all of them alike. No batch is repeated at once,
//! as the processor would then foresee its branches.

use std::hint::black_box;
use std::time::{Duration, Instant};

use oracle::doors;
use oracle::stubs::Particle;

use crate::direct;
use crate::subjects::Subject;

const BATCH: usize = 25;
/// No further round begins after so long; the slowest sheets have one round.
const ENOUGH: Duration = Duration::from_secs(4);
const ENOUGH_ALONE: Duration = Duration::from_secs(1);

/// Nanoseconds a sheet, chain or tree, from the least and from the median time of each batch.
#[derive(Clone, Copy, Default)]
pub struct Time {
    pub least: f64,
    pub median: f64,
}

/// Those who are measured, in the order of `Times`: the nanoseconds that each
/// takes for a batch.
pub type Measured<S> = [fn(&[&S]) -> f64; 3];

/// Those who mark sheets; the library is the last.
const MARKING: Measured<Subject> = [rust_ready, rust_bytes, library];

/// Who is left out, since a marking takes too long.
#[derive(Clone, Copy, PartialEq, PartialOrd)]
pub enum Without {
    Nobody,
    /// The Rust from ready particles, which then takes no other time than from
    /// the bytes.
    Ready,
    /// The Rust.
    Rust,
}

pub struct Times {
    /// The Rust, from particles that are ready.
    pub ready: Option<Time>,
    /// The Rust, from the bytes.
    pub bytes: Option<Time>,
    /// The library, from the bytes.
    pub library: Time,
}

impl Times {
    /// The library's time over the Rust's on the same bytes.
    pub fn ratio(&self) -> Option<f64> {
        Some(self.library.least / self.bytes?.least)
    }
}

/// The marking of sheets, by those whom none of them keeps too long.
pub fn marking(subjects: &[&Subject], rounds: usize) -> Times {
    let without = subjects.iter().map(|subject| subject.without);
    let without = without.fold(Without::Nobody, |most, each| if each > most { each } else { most });
    measure_without(subjects, MARKING, without, rounds)
}

pub fn measure<S>(subjects: &[&S], measured: Measured<S>, rounds: usize) -> Times {
    measure_without(subjects, measured, Without::Nobody, rounds)
}

fn measure_without<S>(
    subjects: &[&S],
    measured: Measured<S>,
    without: Without,
    rounds: usize,
) -> Times {
    let [ready, bytes, library] = in_turn(subjects, measured, without as usize, rounds);
    Times { ready, bytes, library: library.expect("the library is always measured") }
}

/// Each of those who are measured, from the place `first` on, in the order of their places.
pub fn in_turn<S, const N: usize>(
    subjects: &[&S],
    measured: [fn(&[&S]) -> f64; N],
    first: usize,
    rounds: usize,
) -> [Option<Time>; N] {
    let batches: Vec<&[&S]> = subjects.chunks(BATCH).collect();
    let mut times: Vec<[Vec<f64>; N]> = vec![[const { Vec::new() }; N]; batches.len()];
    let mut start = Instant::now();
    let mut alone = false;
    for round in 0..rounds {
        // Where the others took all the time, the last has rounds of its own.
        if round > 0 && !alone && start.elapsed() > ENOUGH {
            (alone, start) = (true, Instant::now());
        }
        if alone && start.elapsed() > ENOUGH_ALONE {
            break;
        }
        for (batch, times) in batches.iter().zip(&mut times) {
            for turn in 0..N {
                let who = (round + turn) % N;
                if who >= first && (!alone || who == N - 1) {
                    times[who].push(measured[who](batch));
                }
            }
        }
    }
    sums(times, subjects.len())
}

/// The least and the median time of each batch, summed up; nothing for one who
/// was left out.
fn sums<const N: usize>(times: Vec<[Vec<f64>; N]>, count: usize) -> [Option<Time>; N] {
    let mut sums = [Some(Time::default()); N];
    for (sum, mut times) in times.into_iter().flat_map(|times| (0..N).zip(times)) {
        times.sort_by(f64::total_cmp);
        sums[sum] = sums[sum].filter(|_| !times.is_empty()).map(|so_far| Time {
            least: so_far.least + times[0] / count as f64,
            median: so_far.median + times[times.len() / 2] / count as f64,
        });
    }
    sums
}

pub fn nanoseconds(start: Instant) -> f64 {
    start.elapsed().as_nanos() as f64
}

/// The original takes its base particle by value, so the copies are made
/// before the clock starts.
fn rust_ready(batch: &[&Subject]) -> f64 {
    let bases: Vec<Particle> = batch.iter().map(|subject| subject.base.clone()).collect();
    let start = Instant::now();
    for (subject, base) in batch.iter().zip(bases) {
        doors::judge(black_box(&subject.derived), black_box(base), black_box(&subject.schema));
    }
    nanoseconds(start)
}

fn rust_bytes(batch: &[&Subject]) -> f64 {
    let start = Instant::now();
    for subject in batch {
        let (derived, base, schema) = direct::particles(black_box(&subject.bytes));
        doors::judge(&derived, base, &schema);
    }
    nanoseconds(start)
}

fn library(batch: &[&Subject]) -> f64 {
    let start = Instant::now();
    for subject in batch {
        black_box(library::mark(black_box(&subject.bytes)));
    }
    nanoseconds(start)
}
