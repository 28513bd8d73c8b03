//! Compares the proved library's marks of whole sheets with the oracle's, but
//! for a base that may not occur (expected/sheet.rs), and its refusals with a
//! second reading of document 01. Run it by compare/run. Exit status 0: all
//! equal; 1: a difference; 2: bad usage; a panic says that the harness itself is
//! at fault.

mod check;
mod report;
mod ruled;
mod tally;

use cases::{known_sheets, limits, stated, tiny_sheets};
use common::answers::{self, REFUSED};
use common::options::{self, Options};
use common::random::Rng;
use common::sheet::Sheet;
use common::tree::MOST_RECORDS;
use draw::sheets::{self, Size};
use draw::{damaged_sheets, may_not_occur};
use expected::sheet::Answer;

use check::Difference;
use ruled::Run;
use tally::Tally;

const RANDOM: u64 = 500_000;
const DAMAGED: u64 = 300_000;
/// So many random sheets are small, so that a difference shows on a small one
/// if it can; after these, every second one.
const SMALL: u64 = 25_000;
/// Below so many records, all are small: others would be drawn in vain.
const FEW: u64 = 24;
/// Two of so many random sheets, a small one and one of any size, are about a
/// base that may not occur.
const ABOUT_BASE: u64 = 32;

/// Where a difference turned up: the run and its case, and the sheet.
struct Found {
    case: String,
    bytes: Vec<u8>,
    difference: Difference,
}

fn main() {
    let options = options::read("sheets", RANDOM, DAMAGED);
    let mut tally = Tally::default();
    // Short runs first, so that a difference shows on a small case if it can.
    for run in [known, tiny, at_limits, random, damaged] {
        if let Err(found) = run(&options, &mut tally) {
            report::print(&found.case, &found.bytes, &found.difference);
            std::process::exit(1);
        }
    }
    complete(&options, &tally);
    println!("{tally}");
}

/// At the default size or above it, every mark and refusal must have come up,
/// and each difference from the Rust; these also among the tiny sheets.
fn complete(options: &Options, tally: &Tally) {
    let marks = tally.random_answers.missing_marks();
    let few = options.count < RANDOM || options.records < MOST_RECORDS as u64;
    assert!(few || marks.is_empty(), "marks that never came up: {marks:?}");
    assert!(few || !tally.wide.contains(&0), "a wide group never came up: {:?}", tally.wide);
    if !few {
        tally.ruled.assert_each(Run::Random);
    }
    tally.ruled.assert_each(Run::Tiny);
    let refusals = tally.damaged_answers.missing_refusals();
    let few = options.damaged < DAMAGED;
    assert!(few || refusals.is_empty(), "refusals that never came up: {refusals:?}");
}

fn found(case: String, bytes: Vec<u8>) -> impl FnOnce(Difference) -> Found {
    move |difference| Found { case, bytes, difference }
}

/// Compares a sheet whose answer is stated by hand; the oracle and the second
/// reading must say the same.
fn stated_sheet(
    case: String,
    bytes: Vec<u8>,
    stated: &str,
    tally: &mut Tally,
) -> Result<(), Found> {
    let answer = expected::sheet::mark(&bytes);
    let read = answers::text(answer.mark);
    assert!(read == stated, "{case}: {read}, stated is {stated}");
    tally.ruled.count(Run::Known, &answer);
    check::compare(&bytes, answer.mark).map_err(found(case, bytes))
}

fn known(_: &Options, tally: &mut Tally) -> Result<(), Found> {
    for (what, bytes, stated) in known_sheets::known() {
        tally.known += 1;
        stated_sheet(format!("known sheet '{what}'"), bytes, stated, tally)?;
    }
    for (derived, base, also, stated) in stated::every() {
        tally.known += 1;
        let bytes = stated::sheet(derived, base, also).encode();
        let case = format!("example {derived} | {base}{also}");
        let rust = expected::sheet::mark(&bytes).rust_mark.map(answers::text);
        let held = rust.as_deref() == Some(stated.rust_mark());
        assert!(held, "{case}: the Rust {rust:?}, stated is {}", stated.rust_mark());
        stated_sheet(case, bytes, stated.mark(), tally)?;
    }
    Ok(())
}

fn at_limits(_: &Options, tally: &mut Tally) -> Result<(), Found> {
    for (what, sheet, stated) in limits::stated() {
        tally.limits += 1;
        stated_sheet(format!("sheet at the limits '{what}'"), sheet.encode(), stated, tally)?;
    }
    Ok(())
}

fn tiny(_: &Options, tally: &mut Tally) -> Result<(), Found> {
    tiny_sheets::every(&mut |sheet| {
        tally.tiny += 1;
        let bytes = sheet.encode();
        let answer = accepted(&bytes);
        tally.ruled.count(Run::Tiny, &answer);
        check::compare(&bytes, answer.mark).map_err(found("all tiny sheets".into(), bytes))
    })
}

/// What is expected; the sheets that these runs make are good ones.
fn accepted(bytes: &[u8]) -> Answer {
    let answer = expected::sheet::mark(bytes);
    assert!(answer.mark < REFUSED, "a sheet of ours: {}", answers::text(answer.mark));
    answer
}

/// A sheet whose trees have no more records than asked for.
fn random_sheet(options: &Options, rng: &mut Rng, case: u64) -> Sheet {
    let small = case < SMALL || case % 2 == 0 || options.records < FEW;
    let size = if small { Size::Small } else { Size::Any };
    let draw = if case % ABOUT_BASE < 2 { may_not_occur::sheet } else { sheets::sheet };
    loop {
        let sheet = draw(rng, size);
        let records = sheet.derived.records().max(sheet.base.records());
        if records as u64 <= options.records {
            return sheet;
        }
    }
}

fn random(options: &Options, tally: &mut Tally) -> Result<(), Found> {
    for case in 0..options.count {
        let mut rng = Rng::new(options.seed, case);
        let sheet = random_sheet(options, &mut rng, case);
        let bytes = sheet.encode();
        let answer = accepted(&bytes);
        tally.random += 1;
        for (count, tree) in tally.wide.iter_mut().zip([&sheet.derived, &sheet.base]) {
            *count += u64::from(tree.is_wide());
        }
        tally.random_answers.count(answer.mark);
        tally.ruled.count(Run::Random, &answer);
        let case = format!("random sheet {case} of seed {}", options.seed);
        check::compare(&bytes, answer.mark).map_err(found(case, bytes))?;
    }
    Ok(())
}

fn damaged(options: &Options, tally: &mut Tally) -> Result<(), Found> {
    for case in 0..options.damaged {
        let mut rng = Rng::new(!options.seed, case);
        let bytes = damaged_sheets::sheet(&mut rng);
        let answer = expected::sheet::mark(&bytes);
        tally.damaged += 1;
        tally.damaged_answers.count(answer.mark);
        tally.ruled.count(Run::Damaged, &answer);
        let case = format!("damaged sheet {case} of seed {}", options.seed);
        check::compare(&bytes, answer.mark).map_err(found(case, bytes))?;
    }
    Ok(())
}
