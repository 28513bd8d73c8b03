//! Compares the proved library's answers on single trees with the expected ones:
//! total range, emptiable, the tidied tree and what holds of it, the root's items,
//! and refusals. Run it by compare/run. Exit status 0: all equal; 1: a difference;
//! 2: bad usage; a panic says that the harness itself is at fault.

mod check;
mod fact_tally;
mod kept;
mod tally;
mod tidy_facts;

use cases::{known_totals, known_trees, known_words, small_trees};
use common::answers;
use common::notation::parse;
use common::options::{self, Options};
use common::random::Rng;
use common::tree::{MOST_RECORDS, RECORD, Tree};
use draw::{damaged_trees, disguise, trees};
use second::tree::first_refusal;

use check::Difference;
use tally::Tally;

const RANDOM: u64 = 200_000;
const DAMAGED: u64 = 150_000;

/// An untidy tree is drawn for so many random ones, from a tree of so many
/// records at most and by so many changes at most.
const UNTIDY_IN: u64 = 4;
const UNTIDY_RECORDS: usize = 6;
const UNTIDY_CHANGES: usize = 3;

/// Where a difference turned up: the run and its case, and the byte string.
struct Found {
    case: String,
    bytes: Vec<u8>,
    difference: Difference,
}

fn main() {
    let options = options::read("trees", RANDOM, DAMAGED);
    let mut tally = Tally::default();
    // Short runs first, so that a difference shows on a small case if it can.
    for run in [known, totals, words, small, short, untidy, random, damaged] {
        if let Err(found) = run(&options, &mut tally) {
            report(&found);
            std::process::exit(1);
        }
    }
    assert!(tally.covers_totals(), "an edge of the total range never came up: {tally}");
    let few = options.count < RANDOM || options.records < MOST_RECORDS as u64;
    assert!(few || tally.wide > 0, "a wide group never came up: {tally}");
    let facts = &tally.facts;
    assert!(facts.covered(), "what tidying can do never came up, or in other trees: {facts}");
    println!("{tally}\n{facts}");
}

fn found(case: String, bytes: &[u8]) -> impl FnOnce(Difference) -> Found {
    move |difference| Found { case, bytes: bytes.to_vec(), difference }
}

/// The trees that these runs make are good ones.
fn accepted(bytes: &[u8]) {
    let refusal = first_refusal(bytes);
    assert!(refusal.is_none(), "a tree of ours is refused: {refusal:?}");
}

fn known(options: &Options, tally: &mut Tally) -> Result<(), Found> {
    let mut rng = Rng::new(options.seed, 1);
    for (what, bytes, stated) in known_trees::known() {
        let read = first_refusal(&bytes).map_or(0, |refusal| refusal.number);
        assert!(read == stated, "{what}: the second reading says {read}, stated is {stated}");
        tally.known += 1;
        check::answers(&bytes, &mut rng, tally)
            .map_err(found(format!("known string '{what}'"), &bytes))?;
    }
    Ok(())
}

/// The trees about the cut, whose total ranges are written by hand.
fn totals(options: &Options, tally: &mut Tally) -> Result<(), Found> {
    let mut rng = Rng::new(options.seed, 2);
    for (text, stated) in known_totals::known() {
        let bytes = parse(&text).encode();
        accepted(&bytes);
        let read = answers::range_text(second::total::total(&Tree::decode(&bytes)));
        assert!(read == stated, "{text}: the second reading says {read}, stated is {stated}");
        tally.known += 1;
        check::answers(&bytes, &mut rng, tally)
            .map_err(found(format!("total of {text}"), &bytes))?;
    }
    Ok(())
}

/// The trees whose words are written by hand.
fn words(options: &Options, tally: &mut Tally) -> Result<(), Found> {
    let mut rng = Rng::new(options.seed, 4);
    for (text, stated) in known_words::KNOWN {
        let tree = parse(text);
        let read = second::words::words(&tree).to_string();
        assert!(read == stated, "{text}: the second reading says {read}, stated is {stated}");
        let bytes = tree.encode();
        accepted(&bytes);
        tally.known += 1;
        check::answers(&bytes, &mut rng, tally)
            .map_err(found(format!("known words of {text}"), &bytes))?;
    }
    Ok(())
}

fn small(options: &Options, tally: &mut Tally) -> Result<(), Found> {
    let mut rng = Rng::new(options.seed, 0);
    tally.facts.by_records = true;
    for (records, pairs) in [
        (1, &small_trees::PAIRS[..]),
        (2, &small_trees::PAIRS[..]),
        (3, &small_trees::PAIRS[..]),
        (4, &small_trees::FEW_PAIRS[..]),
    ] {
        small_trees::every(records, pairs, &mut |bytes| {
            tally.small += 1;
            accepted(bytes);
            check::answers(bytes, &mut rng, tally).map_err(found("all small trees".into(), bytes))
        })?;
    }
    tally.facts.by_records = false;
    Ok(())
}

/// Small trees again, with pairs that leave them short words.
fn short(options: &Options, tally: &mut Tally) -> Result<(), Found> {
    let mut rng = Rng::new(options.seed, 3);
    for records in 1..=4 {
        small_trees::every(records, &small_trees::SHORT_PAIRS, &mut |bytes| {
            tally.short += 1;
            accepted(bytes);
            check::answers(bytes, &mut rng, tally)
                .map_err(found("small trees of short words".into(), bytes))
        })?;
    }
    Ok(())
}

/// Random trees of few records that tidying mostly alters.
fn untidy(options: &Options, tally: &mut Tally) -> Result<(), Found> {
    for case in 0..options.count / UNTIDY_IN {
        let mut rng = Rng::new(options.seed, (1 << 32) + case);
        let draw = |rng: &mut Rng| disguise::tree(rng, UNTIDY_RECORDS, UNTIDY_CHANGES);
        let bytes = up_to(options, &mut rng, draw).encode();
        tally.untidy += 1;
        accepted(&bytes);
        check::answers(&bytes, &mut rng, tally)
            .map_err(found(format!("untidy tree {case} of seed {}", options.seed), &bytes))?;
    }
    Ok(())
}

/// A tree that has no more records than asked for.
fn up_to(options: &Options, rng: &mut Rng, draw: impl Fn(&mut Rng) -> Tree) -> Tree {
    loop {
        let tree = draw(rng);
        if tree.records() as u64 <= options.records {
            return tree;
        }
    }
}

fn random(options: &Options, tally: &mut Tally) -> Result<(), Found> {
    for case in 0..options.count {
        let mut rng = Rng::new(options.seed, case);
        let tree = up_to(options, &mut rng, trees::tree);
        let bytes = tree.encode();
        tally.random += 1;
        tally.wide += u64::from(tree.is_wide());
        accepted(&bytes);
        assert!(Tree::decode(&bytes) == tree, "read as another tree: {tree}");
        check::answers(&bytes, &mut rng, tally)
            .map_err(found(format!("random tree {case} of seed {}", options.seed), &bytes))?;
    }
    Ok(())
}

fn damaged(options: &Options, tally: &mut Tally) -> Result<(), Found> {
    for case in 0..options.damaged {
        let mut rng = Rng::new(!options.seed, case);
        let bytes = damaged_trees::string(&mut rng);
        tally.damaged += 1;
        check::answers(&bytes, &mut rng, tally)
            .map_err(found(format!("damaged string {case} of seed {}", options.seed), &bytes))?;
    }
    Ok(())
}

fn report(found: &Found) {
    let tree = match first_refusal(&found.bytes) {
        None => Tree::decode(&found.bytes).to_string(),
        Some(refusal) => {
            format!("none, refused {} at record {} (from 0)", refusal.number, refusal.record)
        }
    };
    let records = found.bytes.chunks(RECORD).map(|record| {
        let bytes = record.iter().map(|byte| format!("{byte:02x}"));
        bytes.collect::<String>()
    });
    println!("difference: {}", found.difference.what);
    println!("  case:     {}", found.case);
    println!("  tree:     {tree}");
    if let Some(tidied) = &found.difference.tidied {
        println!("  tidied:   {tidied}");
    }
    println!("  hex:      {}", records.collect::<Vec<_>>().join(" "));
    println!("  expected: {}", found.difference.expected);
    println!("  got:      {}", found.difference.got);
}
