//! The trees alone among the stored answers: known byte strings, trees about the
//! cut of totals, a tree of 1000 records, random and damaged ones, with what the
//! entries must answer on them (expected/tree.rs).

use cases::{known_totals, known_trees};
use common::answers::with_caps;
use common::notation::parse;
use common::random::Rng;
use common::sheet::Leaf;
use common::tree::{MOST_RECORDS, RECORD, Tree};
use draw::{change, damaged_trees, disguise, trees};
use expected::tree::Answers;

use crate::case::{Case, Operation};
use crate::shares::{Round, Shares, Stored};

/// The most bytes of a known string that goes through every operation.
const SHORT: usize = 17 * RECORD;
/// These are longer: counts of more than a byte.
const LARGE: [&str; 2] = ["a sequence of 256", "256 with its bytes exchanged"];
/// The most bytes of a damaged string: one that is too deep has a record less.
const SHORT_DAMAGED: usize = 14 * RECORD;
/// The most records of a random tree, before groups are added to it.
const FEW: usize = 6;

/// How many of each kind of answer, and of each refusal, by each operation.
const SHARE: usize = 50;
const REFUSED_SHARE: usize = 15;

pub fn store(stored: &mut Stored, seed: u64) {
    let mut rng = Rng::new(seed, u64::MAX);
    let known = known_trees::known().into_iter().map(|(what, bytes, _)| (what, bytes));
    let totals = known_totals::known().into_iter().map(|(text, _)| ("", parse(&text).encode()));
    for (what, bytes) in known.chain(totals) {
        if bytes.len() <= SHORT || LARGE.contains(&what) {
            answers(&mut rng, &bytes).into_iter().for_each(|case| _ = stored.add(case));
        }
    }
    of_most_records(&mut rng).into_iter().for_each(|case| _ = stored.add(case));
    accepted().fill(stored, seed, Round::Trees, |rng| {
        let tree = random_tree(rng);
        answers(rng, &tree.encode())
    });
    refused().fill(stored, seed, Round::DamagedTrees, |rng| {
        let bytes = damaged_trees::string(rng);
        if bytes.len() > SHORT_DAMAGED { Vec::new() } else { answers(rng, &bytes) }
    });
}

/// So many of each kind of answer on an accepted tree, and of refusal 2.
fn accepted() -> Shares {
    let kinds: [(Operation, &[&str]); 5] = [
        (Operation::TotalMin, &["0", "4294967295", "too large", "between"]),
        (Operation::TotalMax, &["0", "4294967295", "too large", "between", "unbounded"]),
        (Operation::Emptiable, &["no", "yes"]),
        (Operation::Tidy, &["changed", "unchanged", "refused 2"]),
        (Operation::Item, &["written", "too long", "none"]),
    ];
    let mut shares = Shares::default();
    for (operation, kinds) in kinds {
        shares = shares.ask(operation, kinds.iter().map(|kind| kind.to_string()), SHARE);
    }
    shares
}

/// So many of each refusal of a tree by each operation.
fn refused() -> Shares {
    let mut shares = Shares::default();
    for operation in
        [Operation::TotalMin, Operation::TotalMax, Operation::Emptiable, Operation::Tidy]
    {
        let refusals = (10..=14).map(|number| format!("refused {number}"));
        shares = shares.ask(operation, refusals, REFUSED_SHARE);
    }
    shares.ask(Operation::Item, ["none, refused".into()], REFUSED_SHARE)
}

fn random_tree(rng: &mut Rng) -> Tree {
    let records = rng.within(1, FEW);
    let mut tree = if rng.one_in(2) {
        trees::tree_of(rng, records)
    } else {
        trees::usual_tree_of(rng, records)
    };
    for _ in 0..rng.pick(&[0, 0, 1, 2]) {
        change::one(rng, &mut tree, &[Leaf::element(0)], &disguise::CHANGES);
    }
    tree
}

/// What every operation must answer on one byte string.
fn answers(rng: &mut Rng, bytes: &[u8]) -> Vec<Case> {
    let answers = expected::tree::answers(bytes);
    if let Some(rust) = answers.rust_total {
        assert!(with_caps(answers.total) == rust, "another total than the Rust's");
    }
    let of_tidied = room(rng, bytes.len());
    let items = &answers.items;
    let k = if rng.one_in(8) { u16::MAX } else { rng.below(items.len() + 2) as u16 };
    let of_item = room(rng, items.get(usize::from(k)).map_or(0, Vec::len));
    vec![
        Case::number(Operation::TotalMin, bytes, answers.total.0),
        Case::number(Operation::TotalMax, bytes, answers.total.1),
        Case::number(Operation::Emptiable, bytes, answers.emptiable.into()),
        tidied(rng, bytes, &answers, of_tidied),
        item(rng, bytes, &answers, k, of_item),
    ]
}

/// The longest tree: its total, all of it tidied, and an item whose number needs
/// more than a byte.
fn of_most_records(rng: &mut Rng) -> [Case; 3] {
    let tree = loop {
        let tree = trees::usual_tree_of(rng, MOST_RECORDS);
        if tree.items.len() > 256 {
            break tree;
        }
    };
    let bytes = tree.encode();
    let answers = expected::tree::answers(&bytes);
    let k = rng.within(256, tree.items.len() - 1);
    let length = answers.items[k].len();
    [
        Case::number(Operation::TotalMin, &bytes, answers.total.0),
        tidied(rng, &bytes, &answers, bytes.len()),
        item(rng, &bytes, &answers, k as u16, length),
    ]
}

pub fn tidied(rng: &mut Rng, bytes: &[u8], answers: &Answers, room: usize) -> Case {
    let (answer, written) = answers.tidied_into(bytes.len(), room);
    lent(rng, Operation::Tidy, 0, bytes, answer, room, written)
}

fn item(rng: &mut Rng, bytes: &[u8], answers: &Answers, k: u16, room: usize) -> Case {
    let (length, written) = answers.item_into(k.into(), room);
    lent(rng, Operation::Item, k, bytes, length as u64, room, written)
}

/// The length of a buffer for so many bytes: as long, longer, shorter.
pub fn room(rng: &mut Rng, length: usize) -> usize {
    match rng.below(4) {
        0 => length,
        1 => length + rng.within(1, 9),
        2 => length.saturating_sub(1),
        _ => rng.below(length + 1),
    }
}

/// A case with a lent buffer of any bytes, to whose start is written.
pub fn lent(
    rng: &mut Rng,
    operation: Operation,
    k: u16,
    input: &[u8],
    answer: u64,
    room: usize,
    written: &[u8],
) -> Case {
    let before: Vec<u8> = (0..room).map(|_| rng.byte()).collect();
    let mut after = before.clone();
    after[..written.len()].copy_from_slice(written);
    Case { operation, k, input: input.to_vec(), before, after, answer, unlike: None }
}
