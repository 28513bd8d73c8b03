//! The sheets among the stored answers: known ones, some at the limits, random
//! and damaged ones of every answer. Marks are the oracle's, but for a base that
//! may not occur; the Rust has no refusals, so these are the second reading's
//! (second/sheet.rs).

use cases::{known_sheets, limits, stated};
use common::answers::{self, REFUSALS, REFUSED};
use common::random::Rng;
use common::sheet::Sheet;
use common::tree::{Kind, RECORD, Tree};
use draw::sheets::{self, Size};
use draw::{damaged_sheets, leaves, may_not_occur};

use crate::case::{Case, Operation};
use crate::kind;
use crate::shares::{Round, Shares, Stored};

/// The bytes of a sheet without its records, of two leaves.
const TWO_LEAVES: usize = 24;
/// Most stored sheets are not longer than this, so that there can be many.
const SHORT: usize = TWO_LEAVES + 9 * RECORD;
/// Those that are refused for their depth are longer.
const DEEP: usize = TWO_LEAVES + 17 * RECORD;
const DEPTH: [u32; 2] = [8, 13];
/// A few are of any size up to this.
const LONG: usize = 75 * RECORD;
/// Of the known sheets and of those at the limits, those that are longer than
/// this are left out unless `LARGE` names them.
const WIDE: usize = 240 * RECORD;
const LARGE: [&str; 12] = [
    "256 derived records",
    "256 base records",
    "256 derived records, exchanged to 1",
    "700 derived records",
    "256 items twice",
    "256 items against 257",
    "256 members, none asked",
    "a member of 256 alternatives",
    "256 times 16777216, bounded",
    "999 elements in the other order",
    "the largest sheet, the last verdict",
    "the longest sheet and a byte",
];

/// How many draws are spread over the fine kinds, and how many of each these
/// give at most.
const DRAWS: u64 = 200_000;
const FINELY: usize = 9;
const LONG_FINELY: usize = 1;
/// How many of each mark and of each refusal there are at least.
const MARKED: usize = 60;
const REFUSED_EACH: usize = 60;
/// The same for sheets about a base that may not occur, and how many there are
/// at least of each mark that is not the Rust's.
const UNLIKE_DRAWS: u64 = 20_000;
const UNLIKE_FINELY: usize = 3;
const UNLIKE: usize = 30;

pub fn store(stored: &mut Stored, seed: u64) {
    fixed(stored);
    let short = |rng: &mut Rng| up_to(SHORT, sheets::sheet(rng, Size::Small).encode());
    let long = |rng: &mut Rng| up_to(LONG, sheets::sheet(rng, Size::Any).encode());
    let open = |rng: &mut Rng| up_to(SHORT, open(rng).encode());
    stored.spread(seed, Round::ShortSheets, DRAWS, FINELY, short);
    stored.spread(seed, Round::OpenSheets, DRAWS, FINELY, open);
    stored.spread(seed, Round::LongSheets, DRAWS, LONG_FINELY, long);
    let marks = answers::marks().map(answers::text);
    Shares::default().ask(Operation::Mark, marks, MARKED).fill(
        stored,
        seed,
        Round::MoreSheets,
        short,
    );
    unlike(stored, seed);
    damaged(stored, seed);
}

/// Sheets about a base that may not occur, and more of those where the Rust
/// passes or is undecided.
fn unlike(stored: &mut Stored, seed: u64) {
    let about = |rng: &mut Rng| up_to(SHORT, may_not_occur::sheet(rng, Size::Small).encode());
    stored.spread(seed, Round::UnlikeSheets, UNLIKE_DRAWS, UNLIKE_FINELY, about);
    let kinds = [(105, 0), (105, 1), (106, 0), (106, 1)];
    let kinds = kinds.map(|(mark, rust)| kind::mark(mark, Some(rust)));
    let shares = Shares::default().ask(Operation::Mark, kinds, UNLIKE);
    shares.fill(stored, seed, Round::UnlikeSheets, about);
}

fn damaged(stored: &mut Stored, seed: u64) {
    let (deep, others): (Vec<u32>, Vec<u32>) =
        REFUSALS.into_iter().partition(|n| DEPTH.contains(n));
    for (round, numbers, most) in
        [(Round::DamagedSheets, others, SHORT), (Round::DeepSheets, deep, DEEP)]
    {
        let kinds = numbers.into_iter().map(|number| answers::text(REFUSED + number));
        Shares::default().ask(Operation::Mark, kinds, REFUSED_EACH).fill(
            stored,
            seed,
            round,
            |rng| up_to(most, damaged_sheets::sheet(rng)),
        );
    }
}

/// A sheet with more undecided verdicts; now and then the base is a wildcard.
fn open(rng: &mut Rng) -> Sheet {
    let mut sheet = sheets::sheet(rng, Size::Small);
    leaves::open(rng, &mut sheet.first, &mut sheet.second);
    let wildcard = sheet.leaves.iter().position(|leaf| leaf.kind == Kind::Wildcard);
    match wildcard {
        Some(leaf) if rng.one_in(3) => {
            sheet.base = Tree::leaf(Kind::Wildcard, leaf as u8, (0, None));
        }
        _ => {}
    }
    sheet
}

/// The known sheets, those that are stated by hand, and some at the limits.
fn fixed(stored: &mut Stored) {
    for (derived, base, also, _) in stated::every() {
        stored.add(marked(&stated::sheet(derived, base, also).encode()));
    }
    let known = known_sheets::known().into_iter().map(|(what, bytes, _)| (what, bytes));
    let at_limits = limits::stated().into_iter().map(|(what, sheet, _)| (what, sheet.encode()));
    for (what, bytes) in known.chain(at_limits) {
        if bytes.len() <= WIDE || LARGE.contains(&what) {
            stored.add(marked(&bytes));
        }
    }
}

/// The sheet with its answer, unless it is too long.
fn up_to(most: usize, bytes: Vec<u8>) -> Vec<Case> {
    if bytes.len() > most { Vec::new() } else { vec![marked(&bytes)] }
}

fn marked(bytes: &[u8]) -> Case {
    let answer = expected::sheet::mark(bytes);
    Case { unlike: answer.unlike(), ..Case::number(Operation::Mark, bytes, answer.mark.into()) }
}
