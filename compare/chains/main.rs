//! Compares the proved library's joined trees with those of the original's
//! `effective_particle`, and its refusals of chains with a second reading of
//! document 02 §1. Run it by compare/run. Exit status 0: all equal; 1: a
//! difference; 2: bad usage; a panic says that the harness itself is at fault.

mod check;
mod report;
mod tally;

use cases::{known_chains, small_chains};
use common::chain::{self, Chain, MOST_LEVELS};
use common::options::{self, Options};
use common::random::Rng;
use common::tree::Tree;
use draw::{chains, damaged_chains};
use oracle::bridge;

use check::Difference;
use tally::Tally;

const RANDOM: u64 = 200_000;
const DAMAGED: u64 = 200_000;
/// Chains of more levels than are accepted.
const LONGER: u64 = 2_000;

/// Where a difference turned up: the run and its case, and the chain.
struct Found {
    case: String,
    bytes: Vec<u8>,
    difference: Difference,
}

fn main() {
    let options = options::read("chains", RANDOM, DAMAGED);
    let mut tally = Tally::default();
    // Short runs first, so that a difference shows on a small case if it can.
    for run in [known, lengths, small, random, damaged, longer] {
        if let Err(found) = run(&options, &mut tally) {
            report::print(&found.case, &found.bytes, &found.difference);
            std::process::exit(1);
        }
    }
    let missing = tally.missing();
    let few = options.count < RANDOM || options.damaged < DAMAGED;
    assert!(few || missing.is_empty(), "what never came up: {missing:?}");
    println!("{tally}");
}

fn found(case: String, bytes: &[u8]) -> impl FnOnce(Difference) -> Found {
    move |difference| Found { case, bytes: bytes.to_vec(), difference }
}

/// The oracle and the second reading must say what is stated by hand.
fn stated(what: &str, bytes: &[u8], room: usize, stated: &str) {
    let answer = expected::chain::effective_particle(bytes);
    let read = match answer.joined_into(room) {
        (_, written) if !written.is_empty() => Tree::decode(written).to_string(),
        (number, _) => check::text(number),
    };
    assert!(read == stated, "{what}: {read}, stated is {stated}");
}

fn known(options: &Options, tally: &mut Tally) -> Result<(), Found> {
    let mut rng = Rng::new(options.seed, 0);
    for (what, bytes, room, by_hand) in known_chains::known() {
        stated(what, &bytes, room, &by_hand);
        tally.known += 1;
        let case = format!("known chain '{what}'");
        let expected = expected::chain::effective_particle(&bytes);
        check::compare(&bytes, &expected, room, &mut rng).map_err(found(case.clone(), &bytes))?;
        check::answers(&bytes, &mut rng, tally).map_err(found(case, &bytes))?;
    }
    Ok(())
}

fn lengths(options: &Options, tally: &mut Tally) -> Result<(), Found> {
    let mut rng = Rng::new(options.seed, 1);
    for (bytes, by_hand) in known_chains::lengths() {
        stated("a length", &bytes, bytes.len() + 60, &by_hand);
        tally.lengths += 1;
        let case = format!("a chain cut or drawn out to {} bytes", bytes.len());
        check::answers(&bytes, &mut rng, tally).map_err(found(case, &bytes))?;
    }
    Ok(())
}

fn small(options: &Options, tally: &mut Tally) -> Result<(), Found> {
    let mut rng = Rng::new(options.seed, 2);
    small_chains::every(&mut |bytes| {
        tally.small += 1;
        check::answers(bytes, &mut rng, tally).map_err(found("all small chains".into(), bytes))
    })
}

/// The chains that this run makes are refused with 16 at most.
fn random(options: &Options, tally: &mut Tally) -> Result<(), Found> {
    for case in 0..options.count {
        let mut rng = Rng::new(options.seed, case);
        let chain = chains::chain(&mut rng);
        tally.wide += u64::from(chain.iter().flatten().any(Tree::is_wide));
        let bytes = chain::encode(&chain);
        let refusal = second::chain::joined(&bytes).err();
        assert!(refusal.is_none_or(|refusal| refusal.number == 16), "a chain of ours is refused");
        tally.random += 1;
        check::answers(&bytes, &mut rng, tally)
            .map_err(found(format!("random chain {case} of seed {}", options.seed), &bytes))?;
    }
    Ok(())
}

fn damaged(options: &Options, tally: &mut Tally) -> Result<(), Found> {
    for case in 0..options.damaged {
        let mut rng = Rng::new(!options.seed, case);
        let bytes = damaged_chains::chain(&mut rng);
        tally.damaged += 1;
        check::answers(&bytes, &mut rng, tally)
            .map_err(found(format!("damaged chain {case} of seed {}", options.seed), &bytes))?;
    }
    Ok(())
}

/// Chains of too many levels: the original answers as if there were none but
/// the last `MOST_LEVELS`; the library refuses.
fn longer(options: &Options, tally: &mut Tally) -> Result<(), Found> {
    for case in 0..LONGER {
        let mut rng = Rng::new(options.seed ^ (1 << 63), case);
        let mut chain: Chain = chains::chain(&mut rng);
        let levels = MOST_LEVELS + rng.within(1, 8);
        chain.extend(vec![None; levels.saturating_sub(chain.len())]);
        chain.rotate_left(rng.below(levels));
        let kept = bridge::effective_particle(&chain[levels - MOST_LEVELS..]);
        assert!(bridge::effective_particle(&chain) == kept, "the original drops other levels");
        tally.longer += 1;
        let bytes = chain::encode(&chain);
        check::answers(&bytes, &mut rng, tally)
            .map_err(found(format!("longer chain {case} of seed {}", options.seed), &bytes))?;
    }
    Ok(())
}
