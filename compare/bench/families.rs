//! Families of sheets whose marking is long, each at several sizes; and how
//! their times grow.

use cases::limits;
use common::sheet::Sheet;
use common::tree::{Kind, MOST_RECORDS};
use shapes::words;

use crate::time::Times;
use crate::worst;

/// The records of each tree that grows with its family.
pub const SIZES: [usize; 4] = [125, 250, 500, MOST_RECORDS];

pub struct Family {
    pub name: &'static str,
    made: Made,
}

enum Made {
    By(fn(usize) -> Sheet),
    /// A shape that `compare/run search` found.
    Found(&'static str),
}

/// In the first three of the worst the base is a short chain.
const BY_HAND: [(&str, fn(usize) -> Sheet); 7] = [
    ("all-groups", |records| limits::other_order(Kind::All, records - 1)),
    ("worst", |records| limits::longest(records - 1)),
    ("worst, undecided", |records| worst::chain(records - 1, Kind::Choice, 1, (1, 1))),
    ("worst, sequences", |records| worst::chain(records - 1, Kind::Sequence, 1, (1, 1))),
    ("worst, wide", |records| worst::of_records(records, (1, 1))),
    ("worst, failing", |records| worst::of_records(records, (140, 140))),
    ("worst, own pairs", |records| worst::of_records(records, (0, 1))),
];

/// Ten that the search found. A chain is as long as a tree may be deep. The first
/// six were the worst by time before an element's two readings, emptiness and
/// total ranges were each worked out once; the last four are among the worst
/// since, and there the rule is entered at most twice for a pair of records.
const FOUND: [(&str, &str); 10] = [
    (
        "found, sequences",
        "S item=e | C(0,*) levels=10 of=S(1,2) last=S(1,2) item=e(0,1) tail=e \
         | item=late tail=ok",
    ),
    (
        "found, sequences and empty choices",
        "S item=e | C(0,*) levels=10 of=S(1,2) last=S(1,2) item=C(0,1)*0e tail=e \
         | item=late tail=ok",
    ),
    (
        "found, several chains",
        "S item=e | C(0,*) levels=10 of=S(1,2) last=S(1,2) item=e(0,1) tail=w(0,*) \
         fill=chains few=1 | item=late tail=ok",
    ),
    (
        "found, choices of groups",
        "S item=e | C(0,*) levels=9 of=C(1,2) last=C(1,2) item=S(1,2)*1e tail=e \
         | item=late tail=ok",
    ),
    (
        "found, one level down",
        "S levels=1 last=S(2,2) item=e | C(0,*) levels=10 of=C(0,*) last=C(0,*) item=e \
         | item=second",
    ),
    (
        "found, derived groups",
        "S item=S(1,2)*1e | C(0,*) levels=10 of=S(1,*) last=S(1,*) item=e(0,1) tail=w(0,*) \
         | item=late tail=ok",
    ),
    (
        "found, totals",
        "S levels=10 of=S(2,2) last=S(2,2) item=e fill=chains few=1 \
         | C(0,*) item=w(1,*) tail=w(0,*) | item=fails tail=ok",
    ),
    (
        "found, empty sequences",
        "S item=e(2,2) | C(0,*) item=S(1,2)*0e tail=w(0,*) | item=ok tail=ok",
    ),
    (
        "found, sequences of one",
        "S item=e(0,1) | C(0,*) item=S(0,1)*1e tail=w(0,*) | item=late tail=ok",
    ),
    ("found, flat", "S item=e | C(0,*) item=e tail=e | item=late tail=ok"),
];

pub fn every() -> Vec<Family> {
    let by_hand = BY_HAND.map(|(name, by)| Family { name, made: Made::By(by) });
    let found = FOUND.map(|(name, words)| Family { name, made: Made::Found(words) });
    by_hand.into_iter().chain(found).collect()
}

impl Family {
    pub fn sheet(&self, records: usize) -> Sheet {
        match self.made {
            Made::By(by) => by(records),
            Made::Found(words) => words::read(words).expect("a shape").sheet(records),
        }
    }
}

/// What was measured of a family, by size.
pub struct Growth {
    family: &'static str,
    times: Vec<(usize, Times)>,
}

/// Adds what was measured of a family at one size; its sizes come one after
/// another.
pub fn add(growths: &mut Vec<Growth>, (family, records): (&'static str, usize), times: Times) {
    match growths.last_mut() {
        Some(growth) if growth.family == family => growth.times.push((records, times)),
        _ => growths.push(Growth { family, times: vec![(records, times)] }),
    }
}

pub fn print(growths: &[Growth]) {
    if !growths.is_empty() {
        println!();
        Growth::print_head();
        growths.iter().for_each(Growth::print);
    }
}

impl Growth {
    fn print_head() {
        let sizes = SIZES.map(|size| size.to_string()).join(" | ");
        print!("| family | Rattle, ms, at {sizes} | a doubling ");
        println!("| Rust, ms, at {sizes} | a doubling | ratio at {sizes} |");
        println!("|---|{}", "---|".repeat(3 * SIZES.len() + 2));
    }

    fn print(&self) {
        let of = |time: fn(&Times) -> Option<f64>| {
            SIZES.map(|size| {
                let found = self.times.iter().find(|(records, _)| *records == size);
                found.and_then(|(_, times)| time(times))
            })
        };
        let library = of(|times| Some(times.library.least));
        let rust = of(|times| times.bytes.map(|time| time.least));
        let ratios = of(Times::ratio);
        let cells = [
            library.map(|time| cell(time, milliseconds)).join(" | "),
            doubling(&library),
            rust.map(|time| cell(time, milliseconds)).join(" | "),
            doubling(&rust),
            ratios.map(|ratio| cell(ratio, |ratio| format!("{ratio:.4}"))).join(" | "),
        ];
        println!("| {} | {} |", self.family, cells.join(" | "));
    }
}

fn cell(value: Option<f64>, text: fn(f64) -> String) -> String {
    value.map_or("-".into(), text)
}

fn milliseconds(nanoseconds: f64) -> String {
    let time = nanoseconds / 1e6;
    match time {
        10.0.. => format!("{time:.0}"),
        1.0.. => format!("{time:.1}"),
        _ => format!("{time:.3}"),
    }
}

/// By what the time grows where the records are twice as many, from the first
/// size that was measured to the last.
fn doubling(times: &[Option<f64>; SIZES.len()]) -> String {
    let known: Vec<(f64, f64)> =
        SIZES.iter().zip(times).filter_map(|(size, time)| Some((*size as f64, (*time)?))).collect();
    let [(least, first), .., (most, last)] = known[..] else { return "-".into() };
    format!("{:.1}", (last / first).powf(1.0 / (most / least).log2()))
}
