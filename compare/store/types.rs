//! The built-in types among the stored answers: all pairs of the list and numbers
//! that it does not have; sheets to be filled, known ones, one of the most
//! leaves, random and damaged ones of every answer (expected/types.rs).

use cases::known_types;
use common::answers::{self, REFUSALS, REFUSED, TYPE_NUMBER};
use common::random::Rng;
use common::sheet::{Leaf, MOST_LEAVES, Sheet};
use common::tree::Kind;
use draw::sheets::Size;
use draw::types::{self, Among};
use expected::types::{CAUSES, fill_types, names, type_derivation_ok};

use crate::case::{Case, Operation};
use crate::shares::{Round, Shares, Stored};

/// Numbers that the list does not have, and listed ones to go with them.
const UNLISTED: [u8; 3] = [50, 51, 255];
const BESIDE: [u8; 4] = [0, 1, 2, 49];

/// The most bytes of a sheet: one that is refused for its depth is not shorter by
/// much.
pub const SHORT: usize = 300;
/// The one of the most leaves has trees of few records.
const WIDE: usize = 9_000;

/// How many of each kind of filling, of each refusal of a sheet, and of each
/// cause for which types are refused.
const FILLED: usize = 20;
const REFUSED_SHARE: usize = 8;

pub fn store(stored: &mut Stored, seed: u64) {
    pairs(stored);
    for (_, bytes, types, _) in known_types::known() {
        stored.add(filled(&bytes, &types));
    }
    stored.add(of_most_leaves(&mut Rng::new(seed, u64::MAX - 2)));
    let kinds = ["none changed", "ok", "148", "ok and 148"].map(|kind| format!("filled, {kind}"));
    let types_refused = answers::fill_text(REFUSED + TYPE_NUMBER);
    let causes = CAUSES.map(|cause| format!("{types_refused}, {cause}"));
    Shares::default()
        .ask(Operation::FillTypes, kinds, FILLED)
        .ask(Operation::FillTypes, causes, REFUSED_SHARE)
        .fill(stored, seed, Round::Fillings, |rng| {
            let bytes = types::sheet(rng, Size::Small);
            up_to_short(rng, bytes)
        });
    let refusals = REFUSALS.map(|number| answers::fill_text(REFUSED + number));
    Shares::default().ask(Operation::FillTypes, refusals, REFUSED_SHARE).fill(
        stored,
        seed,
        Round::DamagedFillings,
        |rng| {
            let bytes = types::damaged_sheet(rng);
            up_to_short(rng, bytes)
        },
    );
}

fn pairs(stored: &mut Stored) {
    let listed = 0..names().len() as u8;
    for derived in listed.clone() {
        listed.clone().for_each(|base| _ = stored.add(pair(derived, base)));
    }
    for number in UNLISTED {
        for beside in BESIDE.into_iter().chain(UNLISTED) {
            stored.add(pair(number, beside));
            stored.add(pair(beside, number));
        }
    }
}

fn pair(derived: u8, base: u8) -> Case {
    let answer = type_derivation_ok(derived.into(), base.into());
    let k = u16::from_le_bytes([derived, base]);
    Case { k, ..Case::number(Operation::TypeDerivationOk, &[], answer.into()) }
}

/// The sheet with drawn types, unless it is too long.
fn up_to_short(rng: &mut Rng, bytes: Vec<u8>) -> Vec<Case> {
    if bytes.len() > SHORT {
        return Vec::new();
    }
    let types = types::any(rng, &bytes, Among::List);
    vec![filled(&bytes, &types)]
}

/// A sheet of the most leaves with good types.
fn of_most_leaves(rng: &mut Rng) -> Case {
    let bytes = sheet_of_most_leaves(rng);
    let types = types::good(rng, &bytes, Among::List);
    filled(&bytes, &types)
}

/// A sheet of the most leaves, of both kinds.
pub fn sheet_of_most_leaves(rng: &mut Rng) -> Vec<u8> {
    let mixed = |leaves: &[Leaf]| {
        [Kind::Element, Kind::Wildcard]
            .iter()
            .all(|kind| leaves.iter().any(|leaf| leaf.kind == *kind))
    };
    loop {
        let bytes = types::sheet(rng, Size::Any);
        let leaves = Sheet::decode(&bytes).leaves;
        if leaves.len() == MOST_LEAVES && mixed(&leaves) && bytes.len() <= WIDE {
            return bytes;
        }
    }
}

fn filled(bytes: &[u8], types: &[u8]) -> Case {
    let filling = fill_types(bytes, types);
    Case {
        before: bytes.to_vec(),
        after: filling.after,
        ..Case::number(Operation::FillTypes, types, filling.answer.into())
    }
}
