//! One sheet and its types through the library's `fill_types`, or with a table of
//! types through its `fill_types_by`, and the first thing that is not as expected
//! (expected/types.rs, expected/type_table.rs). A filled sheet is filled once
//! more, and marked.

use common::answers::{self, REFUSED, fill_text};
use common::random::Rng;
use common::sheet::{Counts, Sheet};
use common::tree::Kind;
use expected::types::Filling;

pub struct Difference {
    pub what: String,
    pub expected: String,
    pub got: String,
}

/// What is handed in with a sheet: the types of its leaves, and a table of types
/// in place of the list.
#[derive(Clone, Copy)]
pub struct Given<'a> {
    pub types: &'a [u8],
    pub parents: Option<&'a [u8]>,
}

/// The marks of a sheet before it is filled and afterwards.
pub type Marks = (u32, u32);

/// Compares a filling and what follows from it; the marks are none where it is
/// refused. The first of them is not asked for again if it is known.
pub fn filling(
    bytes: &[u8],
    given: Given,
    expected: &Filling,
    known: Option<u32>,
    rng: &mut Rng,
) -> Result<Option<Marks>, Difference> {
    let filled = compare("the filling", bytes, given, expected, rng)?;
    if expected.answer != 0 {
        return Ok(None);
    }
    compare("the second filling", &filled, given, expected, rng)?;
    no_pair_undecided(&filled)?;
    let before = known.map_or_else(|| mark("the mark before", bytes), Ok)?;
    let after = if filled == bytes { before } else { mark("the mark after", &filled)? };
    stays(before, after).map(Some)
}

/// Bytes on either side of what is lent, to see writes outside it.
const GUARD: usize = 16;

/// What is lent, between guards.
#[derive(Clone)]
pub struct Lent(Vec<u8>);

impl Lent {
    pub fn new(bytes: &[u8], rng: &mut Rng) -> Lent {
        let fill = rng.byte();
        let guard = |at| fill.wrapping_add((at as u8).wrapping_mul(37));
        let mut lent = Lent((0..bytes.len() + 2 * GUARD).map(guard).collect());
        lent.inner().copy_from_slice(bytes);
        lent
    }

    pub fn inner(&mut self) -> &mut [u8] {
        let end = self.0.len() - GUARD;
        &mut self.0[GUARD..end]
    }

    /// The first place that is unlike, from the start of what is lent; negative
    /// before it.
    pub fn unlike(&self, other: &Lent) -> Option<isize> {
        let at = (0..self.0.len()).find(|at| self.0[*at] != other.0[*at])?;
        Some(at as isize - GUARD as isize)
    }
}

/// Fills the sheet and compares the answer, every byte of the sheet, and the
/// bytes around it; hands back the sheet. What is handed in with it must come
/// back unchanged.
pub fn compare(
    what: &str,
    bytes: &[u8],
    given: Given,
    expected: &Filling,
    rng: &mut Rng,
) -> Result<Vec<u8>, Difference> {
    let mut sheet = Lent::new(bytes, rng);
    let mut types = Lent::new(given.types, rng);
    let mut parents = Lent::new(given.parents.unwrap_or_default(), rng);
    let (mut wanted, unchanged) = (sheet.clone(), [types.clone(), parents.clone()]);
    wanted.inner().copy_from_slice(&expected.after);
    let answer = match given.parents {
        None => library::fill_types(sheet.inner(), types.inner()),
        Some(_) => library::fill_types_by(sheet.inner(), types.inner(), parents.inner()),
    };
    let differ = |place: String, expected, got| {
        Err(Difference { what: format!("{what}: {place}"), expected, got })
    };
    if answer != expected.answer {
        return differ("the answer".into(), fill_text(expected.answer), fill_text(answer));
    }
    if let Some(at) = sheet.unlike(&wanted) {
        let byte = |of: &Lent| of.0[(at + GUARD as isize) as usize].to_string();
        return differ(place(bytes, at), byte(&wanted), byte(&sheet));
    }
    for (name, own, before) in
        [("types", &types, &unchanged[0]), ("table of types", &parents, &unchanged[1])]
    {
        if let Some(at) = own.unlike(before) {
            let place = format!("byte {at} of the {name}");
            return differ(place, "unchanged".into(), "changed".into());
        }
    }
    Ok(sheet.inner().to_vec())
}

/// Which byte of a sheet it is; a cell of a table by its row and column.
fn place(bytes: &[u8], at: isize) -> String {
    let inside = usize::try_from(at).ok().filter(|at| *at < bytes.len());
    let counted = second::sheet::first_refusal(bytes).is_none_or(|refusal| refusal.number != 1);
    if let (Some(at), true) = (inside, counted) {
        let counts = Counts::read(bytes);
        let places = counts.places();
        for (name, table) in [("first", places.first), ("second", places.second)] {
            if table.contains(&at) {
                let cell = at - table.start;
                let (row, column) = (cell / counts.leaves, cell % counts.leaves);
                return format!("the {name} table's row {row}, column {column}");
            }
        }
    }
    let outside = if inside.is_none() { ", outside it" } else { "" };
    format!("byte {at} of the sheet{outside}")
}

/// No verdict on two elements is left undecided in the second table.
fn no_pair_undecided(bytes: &[u8]) -> Result<(), Difference> {
    let sheet = Sheet::decode(bytes);
    let n = sheet.leaves.len();
    let is_element = |leaf: usize| sheet.leaves[leaf].kind == Kind::Element;
    let left = |at: &usize| sheet.second[*at] == 1 && is_element(at / n) && is_element(at % n);
    match (0..n * n).find(left) {
        None => Ok(()),
        Some(at) => Err(Difference {
            what: format!("the second table's row {}, column {}", at / n, at % n),
            expected: "decided".into(),
            got: "undecided".into(),
        }),
    }
}

/// The library's mark of a sheet that is not refused.
fn mark(what: &str, bytes: &[u8]) -> Result<u32, Difference> {
    let (expected, got) = (expected::sheet::mark(bytes).mark, library::mark(bytes));
    assert!(expected < REFUSED, "a filled sheet is refused: {}", answers::text(expected));
    if expected == got { Ok(got) } else { Err(unlike(what, expected, got)) }
}

/// A definite mark stays.
fn stays(before: u32, after: u32) -> Result<Marks, Difference> {
    if before != 1 && before != after {
        return Err(unlike("a definite mark", before, after));
    }
    Ok((before, after))
}

fn unlike(what: &str, expected: u32, got: u32) -> Difference {
    let (expected, got) = (answers::text(expected), answers::text(got));
    Difference { what: what.into(), expected, got }
}
