//! One chain through the library's `effective_particle`, into several buffers,
//! and the first answer that is not the expected one (expected/chain.rs). A
//! joined tree is then handed to the other entries.

use common::answers::{self, BEYOND};
use common::random::Rng;
use common::sheet::Leaf;
use common::tree::{Kind, RECORD, Tree};
use draw::sheets;
use expected::chain::Answer;

use crate::tally::Tally;

pub struct Difference {
    pub what: String,
    pub expected: String,
    pub got: String,
}

/// Compares the answers on `bytes` for buffers of each kind of length.
pub fn answers(bytes: &[u8], rng: &mut Rng, tally: &mut Tally) -> Result<(), Difference> {
    let expected = expected::chain::effective_particle(bytes);
    tally.chain(bytes, &expected);
    let length = match &expected.joined {
        Ok(joined) => joined.len(),
        Err(_) => rng.below(bytes.len() + RECORD),
    };
    let shorter = [length.saturating_sub(1), rng.below(length + 1), 0];
    for room in [length + rng.within(1, 40), length].into_iter().chain(shorter) {
        compare(bytes, &expected, room, rng)?;
        tally.answer(expected.joined_into(room).0);
    }
    match &expected.joined {
        Ok(joined) if !joined.is_empty() => as_tree(joined, rng, tally),
        _ => Ok(()),
    }
}

/// Bytes on either side of a lent buffer, to see writes outside it.
const GUARD: usize = 16;

/// Joins into a buffer of `room` bytes and compares the count or refusal, every
/// byte of the buffer, and the bytes around it. The chain must come back
/// unchanged.
pub fn compare(
    bytes: &[u8],
    answer: &Answer,
    room: usize,
    rng: &mut Rng,
) -> Result<(), Difference> {
    let fill = rng.byte();
    let lent = |at| fill.wrapping_add((at as u8).wrapping_mul(37));
    let mut got: Vec<u8> = (0..GUARD + room + GUARD).map(lent).collect();
    let mut expected = got.clone();
    let (number, written) = answer.joined_into(room);
    expected[GUARD..GUARD + written.len()].copy_from_slice(written);
    let chain = bytes.to_vec();
    let answered = library::effective_particle(&chain, &mut got[GUARD..GUARD + room]);
    let what = || format!("joined into a buffer of {room} bytes");
    same(|| format!("{}: the answer", what()), number, answered)?;
    if chain != bytes {
        let (expected, got) = ("unchanged".into(), "changed by the call".into());
        return Err(Difference { what: "the chain handed in".into(), expected, got });
    }
    let Some(at) = (0..got.len()).find(|at| got[*at] != expected[*at]) else {
        return Ok(());
    };
    let part = match at.checked_sub(GUARD) {
        Some(place) if place < written.len() => "in what is written",
        Some(place) if place < room => "in a part that keeps its value",
        _ => "outside the buffer",
    };
    Err(Difference {
        what: format!("{}: byte {}, {part}", what(), at as isize - GUARD as isize),
        expected: format!("{:02x}", expected[at]),
        got: format!("{:02x}", got[at]),
    })
}

fn same(what: impl Fn() -> String, expected: u64, got: u64) -> Result<(), Difference> {
    if expected == got {
        return Ok(());
    }
    Err(Difference { what: what(), expected: text(expected), got: text(got) })
}

/// The words for an answer.
pub fn text(answer: u64) -> String {
    match answer.checked_sub(BEYOND) {
        None if answer == 0 => "no content".into(),
        None => format!("{answer} records"),
        Some(number) => format!("refused {number}"),
    }
}

/// The library accepts the joined tree alone, and as the base of a sheet whose
/// leaves have its numbers and kinds, and then marks as expected.
fn as_tree(joined: &[u8], rng: &mut Rng, tally: &mut Tally) -> Result<(), Difference> {
    if let Some(number) = answers::total_refusal(library::total_min(joined)) {
        let (expected, got) = ("accepted".into(), format!("refused {number}"));
        return Err(Difference { what: "the joined tree alone".into(), expected, got });
    }
    let tree = Tree::decode(joined);
    let Some(leaves) = fitting(rng, &tree) else {
        return Ok(());
    };
    let sheet = sheets::with_base(rng, leaves, tree).encode();
    let (expected, got) = (expected::sheet::mark(&sheet).mark, library::mark(&sheet));
    tally.bases += 1;
    if expected == got {
        return Ok(());
    }
    let (expected, got) = (answers::text(expected), answers::text(got));
    Err(Difference { what: "the joined tree as base of a sheet".into(), expected, got })
}

/// A list of leaves with the numbers and kinds of the tree's, any others
/// between; none where a number has both kinds.
fn fitting(rng: &mut Rng, tree: &Tree) -> Option<Vec<Leaf>> {
    let mut kinds = Vec::new();
    collect(tree, &mut kinds);
    let count = kinds.iter().map(|(number, _)| usize::from(*number) + 1).max().unwrap_or(1);
    let leaf = |number| {
        let mut own = kinds.iter().filter(|(of, _)| usize::from(*of) == number);
        let kind = own.next().map_or(Kind::Element, |(_, kind)| *kind);
        let one = own.all(|(_, other)| *other == kind);
        one.then(|| match kind {
            Kind::Wildcard => Leaf::wildcard(rng.below(3) as u8),
            _ => Leaf::element(rng.below(4) as u16),
        })
    };
    (0..count).map(leaf).collect()
}

/// Number and kind of each leaf.
fn collect(tree: &Tree, kinds: &mut Vec<(u8, Kind)>) {
    if tree.kind.is_leaf() {
        kinds.push((tree.leaf, tree.kind));
    }
    tree.items.iter().for_each(|item| collect(item, kinds));
}
