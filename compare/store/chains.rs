//! The chains among the stored answers: known ones, random and damaged ones of
//! every answer (expected/chain.rs).

use cases::known_chains;
use common::chain;
use common::random::Rng;
use common::tree::RECORD;
use draw::{chains, damaged_chains};

use crate::case::{Case, Operation};
use crate::shares::{Round, Shares, Stored};
use crate::trees::{lent, room};

/// The most bytes of a stored chain: one that is too deep when joined has 13
/// records at least.
const SHORT: usize = 20 * RECORD;
/// Of the known ones these are longer: too many records take as many.
const LARGE: [&str; 4] = [
    "the most records joined",
    "one over joined",
    "256 records",
    "256 records, its bytes exchanged",
];

/// How many of each kind of joined tree, and of each refusal; 'no content' has
/// few chains.
const SHARE: usize = 50;
const REFUSED_SHARE: usize = 30;
const NO_CONTENT: usize = 20;

pub fn store(stored: &mut Stored, seed: u64) {
    let mut rng = Rng::new(seed, u64::MAX - 1);
    for (what, bytes, given, _) in known_chains::known() {
        if bytes.len() <= SHORT || LARGE.contains(&what) {
            stored.add(joined(&mut rng, &bytes, (given <= SHORT).then_some(given)));
        }
    }
    let kinds = ["one tree", "two trees", "more trees", "refused 2"].map(String::from);
    Shares::default()
        .ask(Operation::EffectiveParticle, kinds, SHARE)
        .ask(Operation::EffectiveParticle, ["no content".into()], NO_CONTENT)
        .ask(Operation::EffectiveParticle, ["refused 16".into()], REFUSED_SHARE)
        .fill(stored, seed, Round::Chains, |rng| {
            let bytes = chain::encode(&chains::chain(rng));
            up_to_short(rng, bytes)
        });
    let refusals = (10..=15).map(|number| format!("refused {number}"));
    Shares::default().ask(Operation::EffectiveParticle, refusals, REFUSED_SHARE).fill(
        stored,
        seed,
        Round::DamagedChains,
        |rng| {
            let bytes = damaged_chains::chain(rng);
            up_to_short(rng, bytes)
        },
    );
}

/// The chain with its answer, unless it is too long.
fn up_to_short(rng: &mut Rng, bytes: Vec<u8>) -> Vec<Case> {
    if bytes.len() > SHORT { Vec::new() } else { vec![joined(rng, &bytes, None)] }
}

/// The chain with its answer for a buffer of the given length, or of a drawn
/// one.
fn joined(rng: &mut Rng, bytes: &[u8], given: Option<usize>) -> Case {
    let answer = expected::chain::effective_particle(bytes);
    let length = answer.joined.as_ref().map_or(RECORD, Vec::len);
    let room = given.unwrap_or_else(|| room(rng, length));
    let (number, written) = answer.joined_into(room);
    lent(rng, Operation::EffectiveParticle, 0, bytes, number, room, written)
}
