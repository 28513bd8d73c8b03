//! One byte string through every entry of the library, and the first answer
//! that is not the expected one (expected/tree.rs).

use common::answers::{self, BEYOND};
use common::random::Rng;
use expected::tree::Answers;

use crate::tally::Tally;
use crate::tidy_facts;

pub struct Difference {
    pub what: String,
    pub expected: String,
    pub got: String,
    /// The tidied tree, where the difference is about it.
    pub tidied: Option<String>,
}

impl Difference {
    pub fn new(what: &str, expected: String, got: String) -> Difference {
        Difference { what: what.into(), expected, got, tidied: None }
    }
}

/// Compares every answer on `bytes`.
pub fn answers(bytes: &[u8], rng: &mut Rng, tally: &mut Tally) -> Result<(), Difference> {
    let expected = expected::tree::answers(bytes);
    tally.string(bytes, &expected);
    let lent = bytes.to_vec();
    totals(&lent, &expected)?;
    let emptiable = library::emptiable(&lent);
    same("emptiable", expected.emptiable, emptiable, emptiable_text)?;
    tally.totals += 1;
    tally.emptiable += 1;
    items(&lent, &expected, rng, tally)?;
    let room = bytes.len() + rng.within(1, 40);
    for room in [room, bytes.len(), bytes.len().saturating_sub(1), rng.below(bytes.len() + 1)] {
        let answer = expected.tidied_into(bytes.len(), room);
        compare_tidied("tidied", &lent, answer, room, rng)?;
        tally.tidied += 1;
    }
    if expected.tidied.is_ok() {
        tidy_facts::compare(&lent, &expected, rng, &mut tally.facts)?;
    }
    unchanged("the tree handed in", bytes, &lent)
}

/// Compares what a call was handed with what it is after it.
pub fn unchanged(what: &str, before: &[u8], after: &[u8]) -> Result<(), Difference> {
    let text = |same| if same { "unchanged" } else { "changed by one of the calls" }.to_string();
    same(what, true, before == after, text)
}

/// Compares the total range with the second reading's, and with the Rust's.
fn totals(tree: &[u8], expected: &Answers) -> Result<(), Difference> {
    let text = total_text;
    let (min, max) = (library::total_min(tree), library::total_max(tree));
    same("total minimum", expected.total.0, min, text)?;
    same("total maximum", expected.total.1, max, text)?;
    if let Some(rust) = expected.rust_total {
        let (min, max) = answers::with_caps((min, max));
        same("total minimum with the cap, and the Rust's", rust.0, min, text)?;
        same("total maximum with the cap, and the Rust's", rust.1, max, text)?;
    }
    Ok(())
}

pub fn total_text(answer: u64) -> String {
    match answers::total_text(answer) {
        words if answer < BEYOND => words,
        words => format!("{answer} ({words})"),
    }
}

/// So many items at either end of the root's go into every kind of buffer, those
/// between them into one each.
const AT_ENDS: usize = 32;

/// Compares every item of the root, and places that no item has.
fn items(
    tree: &[u8],
    expected: &Answers,
    rng: &mut Rng,
    tally: &mut Tally,
) -> Result<(), Difference> {
    let count = expected.items.len();
    for (k, item) in expected.items.iter().enumerate() {
        let length = item.len();
        let every = [length + rng.within(1, 40), length, length - 1, rng.below(length)];
        let at_an_end = k < AT_ENDS || k + AT_ENDS >= count;
        let rooms = if at_an_end { &every[..] } else { &every[k % 4..][..1] };
        for room in rooms {
            compare_item(tree, k, expected, *room, rng)?;
        }
        tally.items += 1;
        tally.buffers += rooms.len() as u64;
    }
    for k in [count, count + 1, usize::MAX] {
        for room in [tree.len() + 5, 0] {
            compare_item(tree, k, expected, room, rng)?;
        }
        tally.no_items += 1;
        tally.buffers += 2;
    }
    Ok(())
}

pub fn same<T: PartialEq + Copy>(
    what: &str,
    expected: T,
    got: T,
    text: impl Fn(T) -> String,
) -> Result<(), Difference> {
    if expected == got {
        return Ok(());
    }
    Err(Difference::new(what, text(expected), text(got)))
}

pub fn emptiable_text(answer: u32) -> String {
    match answer {
        0 => "0 (no)".into(),
        1 => "1 (yes)".into(),
        _ => format!("{answer} (refused)"),
    }
}

/// Bytes on either side of a lent buffer, to see writes outside it.
const GUARD: usize = 16;

/// A buffer of `room` bytes between guards, filled with bytes that differ from
/// place to place.
fn lent_buffer(room: usize, rng: &mut Rng) -> Vec<u8> {
    let fill = rng.byte();
    (0..GUARD + room + GUARD).map(|at| fill.wrapping_add((at as u8).wrapping_mul(37))).collect()
}

/// The first byte that differs, and where it stands: in the first `written`
/// bytes of the buffer, after them, or outside it.
fn same_bytes(
    what: &str,
    expected: &[u8],
    got: &[u8],
    room: usize,
    written: usize,
) -> Result<(), Difference> {
    let Some(at) = (0..got.len()).find(|at| got[*at] != expected[*at]) else {
        return Ok(());
    };
    let place = at as isize - GUARD as isize;
    let part = if at < GUARD || at >= GUARD + room {
        "outside the buffer"
    } else if at < GUARD + written {
        "in what is written"
    } else {
        "in a part that keeps its value"
    };
    Err(Difference::new(
        &format!("{what}: byte {place}, {part}"),
        format!("{:02x}", expected[at]),
        format!("{:02x}", got[at]),
    ))
}

/// Asks for the k-th item with a buffer of `room` bytes and compares the
/// length, every byte of the buffer, and the bytes around it.
fn compare_item(
    tree: &[u8],
    k: usize,
    answers: &Answers,
    room: usize,
    rng: &mut Rng,
) -> Result<(), Difference> {
    let mut got = lent_buffer(room, rng);
    let mut expected = got.clone();
    let (length, written) = answers.item_into(k, room);
    expected[GUARD..GUARD + written.len()].copy_from_slice(written);
    let answered = library::item(tree, k, &mut got[GUARD..GUARD + room]);
    if answered == length && got == expected {
        return Ok(());
    }
    let what = format!("item {k} into a buffer of {room} bytes");
    same(&format!("{what}: its length"), length, answered, |length| format!("{length} bytes"))?;
    same_bytes(&what, &expected, &got, room, written.len())
}

/// Tidies into a buffer of `room` bytes and compares the count or refusal,
/// every byte of the buffer, and the bytes around it. Expected are the answer
/// and what is written to the buffer's start.
pub fn compare_tidied(
    what: &str,
    tree: &[u8],
    (answer, written): (u64, &[u8]),
    room: usize,
    rng: &mut Rng,
) -> Result<(), Difference> {
    let mut got = lent_buffer(room, rng);
    let mut expected = got.clone();
    expected[GUARD..GUARD + written.len()].copy_from_slice(written);
    let answered = library::tidy(tree, &mut got[GUARD..GUARD + room]);
    if answered == answer && got == expected {
        return Ok(());
    }
    let what = format!("{what} into a buffer of {room} bytes");
    same(&format!("{what}: the answer"), answer, answered, count_text)?;
    same_bytes(&what, &expected, &got, room, written.len())
}

pub fn count_text(answer: u64) -> String {
    match answer.checked_sub(BEYOND) {
        None => format!("{answer} records"),
        Some(number) => format!("refused {number}"),
    }
}
