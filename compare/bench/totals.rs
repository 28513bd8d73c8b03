//! The trees whose total range is measured: groups of 254 and of 999 elements, a
//! chain of groups that ends at depth 12, and random trees; by the original's
//! `effective_total_range` and by the library, which is asked for both numbers
//! and checks the tree each time.

use std::hint::black_box;
use std::time::Instant;

use common::random::Rng;
use common::tree::{Kind, MOST_DEPTH, MOST_RECORDS, Pair, Tree};
use draw::trees;
use oracle::doors;
use oracle::stubs::Particle;

use crate::table::{self, Row};
use crate::time::{self, Measured, nanoseconds};
use crate::{direct, wide};

/// The name by which the total ranges are chosen.
pub const NAME: &str = "totals";
const RANDOM: u64 = 2000;
const ONCE: Pair = (1, Some(1));
const WIDE: usize = 254;
/// As wide as a tree may be.
const WIDEST: usize = MOST_RECORDS - 1;

struct Subject {
    bytes: Vec<u8>,
    particle: Particle,
}

/// Those who answer total ranges.
const ANSWERING: Measured<Subject> = [rust_ready, rust_bytes, library];

pub fn print(seed: u64, rounds: usize) {
    println!();
    table::print_head("trees", "particles");
    for (group, trees) in groups(seed) {
        let subjects: Vec<Subject> = trees.iter().map(|tree| subject(group, tree)).collect();
        let subjects: Vec<&Subject> = subjects.iter().collect();
        let bytes = subjects.iter().map(|subject| subject.bytes.len()).sum();
        let times = time::measure(&subjects, ANSWERING, rounds);
        println!("{}", Row { group, mark: "total range", count: subjects.len(), bytes, times });
    }
}

fn groups(seed: u64) -> [(&'static str, Vec<Tree>); 8] {
    let random = |case| trees::tree(&mut Rng::new(seed, case));
    let accepted = |tree: &Tree| tree.records() <= MOST_RECORDS && tree.depth() <= MOST_DEPTH;
    [
        ("wide sequence", vec![wide::tree(Kind::Sequence, WIDE)]),
        ("wide choice", vec![wide::tree(Kind::Choice, WIDE)]),
        ("wide all", vec![wide::tree(Kind::All, WIDE)]),
        ("widest sequence", vec![wide::tree(Kind::Sequence, WIDEST)]),
        ("widest choice", vec![wide::tree(Kind::Choice, WIDEST)]),
        ("widest all", vec![wide::tree(Kind::All, WIDEST)]),
        ("deep", vec![deep()]),
        ("random trees", (0..RANDOM).map(random).filter(accepted).collect()),
    ]
}

/// A sequence in a choice in a sequence and so on, to the greatest depth: the
/// next group first, and elements after it, as many as there is room for.
fn deep() -> Tree {
    let groups = MOST_DEPTH - 1;
    let each = (MOST_RECORDS - groups) / groups;
    let kinds = [Kind::Sequence, Kind::Choice].into_iter().cycle();
    let last = Tree::group(Kind::Sequence, ONCE, wide::elements(each));
    kinds.skip(1).take(groups - 1).fold(last, |inner, kind| {
        let items = std::iter::once(inner).chain(wide::elements(each)).collect();
        Tree::group(kind, ONCE, items)
    })
}

/// A tree made ready. The library must answer as the second reading does:
/// otherwise there is nothing to measure.
fn subject(group: &str, tree: &Tree) -> Subject {
    let bytes = tree.encode();
    let expected = expected::tree::answers(&bytes);
    if (library::total_min(&bytes), library::total_max(&bytes)) != expected.total {
        eprintln!("difference in group {group}");
        std::process::exit(1);
    }
    let particle = direct::tree(&bytes);
    let (min, max) = doors::effective_total_range(&particle);
    let direct = (min.into(), max.map_or(common::answers::BEYOND, u64::from));
    assert!(
        Some(direct) == expected.rust_total,
        "the particle made for the benchmark is not the tree's"
    );
    Subject { bytes, particle }
}

fn rust_ready(batch: &[&Subject]) -> f64 {
    let start = Instant::now();
    for subject in batch {
        black_box(doors::effective_total_range(black_box(&subject.particle)));
    }
    nanoseconds(start)
}

fn rust_bytes(batch: &[&Subject]) -> f64 {
    let start = Instant::now();
    for subject in batch {
        let particle = direct::tree(black_box(&subject.bytes));
        black_box(doors::effective_total_range(&particle));
    }
    nanoseconds(start)
}

fn library(batch: &[&Subject]) -> f64 {
    let start = Instant::now();
    for subject in batch {
        black_box(library::total_min(black_box(&subject.bytes)));
        black_box(library::total_max(black_box(&subject.bytes)));
    }
    nanoseconds(start)
}
