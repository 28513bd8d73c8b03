//! The chains that are measured: random ones with a joined tree, joined by the
//! original's `effective_particle` and by the library.

use std::hint::black_box;
use std::time::Instant;

use common::chain;
use common::random::Rng;
use common::tree::{MOST_RECORDS, RECORD};
use draw::chains;
use oracle::stubs::{ComplexType, TypeDef, Types};
use oracle::{bridge, doors};

use crate::direct;
use crate::table::{self, Row};
use crate::time::{self, Measured, nanoseconds};

/// The name by which the chains are chosen.
pub const NAME: &str = "chains";
const COUNT: usize = 2000;

struct Subject {
    bytes: Vec<u8>,
    last: String,
    types: Types,
}

/// Those who join chains.
const JOINING: Measured<Subject> = [rust_ready, rust_bytes, library];

pub fn print(seed: u64, rounds: usize) {
    let joined = |case| subject(chain::encode(&chains::chain(&mut Rng::new(seed, case))));
    let subjects: Vec<Subject> = (0..).filter_map(joined).take(COUNT).collect();
    let subjects: Vec<&Subject> = subjects.iter().collect();
    let bytes = subjects.iter().map(|subject| subject.bytes.len()).sum();
    let times = time::measure(&subjects, JOINING, rounds);
    println!();
    table::print_head("chains", "types");
    println!("{}", Row { group: NAME, mark: "joined", count: COUNT, bytes, times });
}

/// A chain made ready, if it has a joined tree. The library's and the
/// original's must be the expected one: otherwise there is nothing to measure.
fn subject(bytes: Vec<u8>) -> Option<Subject> {
    let expected = expected::chain::effective_particle(&bytes).joined.ok()?;
    if expected.is_empty() {
        return None;
    }
    let mut out = vec![0; expected.len()];
    let records = library::effective_particle(&bytes, &mut out) as usize;
    if RECORD * records != expected.len() || out != expected {
        eprintln!("difference in group {NAME}");
        std::process::exit(1);
    }
    let (last, types) = direct::types(&bytes);
    let subject = Subject { bytes, last, types };
    let direct =
        doors::effective_particle(last_type(&subject.last, &subject.types), &subject.types);
    let direct = direct.map(|particle| bridge::tree(&particle).encode());
    assert!(direct == Some(expected), "the types made for the benchmark are not the chain's");
    Some(subject)
}

fn last_type<'a>(last: &str, types: &'a Types) -> &'a ComplexType {
    match types.get_type(last) {
        Some(TypeDef::Complex(ct)) => ct,
        _ => panic!("a chain of no level"),
    }
}

fn rust_ready(batch: &[&Subject]) -> f64 {
    let start = Instant::now();
    for Subject { last, types, .. } in batch {
        black_box(doors::effective_particle(last_type(black_box(last), types), types));
    }
    nanoseconds(start)
}

fn rust_bytes(batch: &[&Subject]) -> f64 {
    let start = Instant::now();
    for subject in batch {
        let (last, types) = direct::types(black_box(&subject.bytes));
        black_box(doors::effective_particle(last_type(&last, &types), &types));
    }
    nanoseconds(start)
}

fn library(batch: &[&Subject]) -> f64 {
    let mut out = [0; RECORD * MOST_RECORDS];
    let start = Instant::now();
    for subject in batch {
        black_box(library::effective_particle(black_box(&subject.bytes), black_box(&mut out)));
    }
    nanoseconds(start)
}
