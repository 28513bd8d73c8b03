//! All pairs of small trees, marked by the Rust, by the library and by our
//! reading of the W3C text. With the Rust's way at every number the reading must
//! answer as the Rust does, and with the W3C text's way at the number that
//! document 02 §5 settles as the library. A number alone explains a difference
//! where the W3C text's way at this number, and the Rust's at all others, gives
//! the W3C text's answer.

use std::collections::BTreeMap;

use common::answers::REFUSED;
use common::sheet::Sheet;
use common::tree::{Kind, Tree};
use oracle::bridge;
use oracle::reasons::Mark;
use w3c::{Answer, Order, Ways};

use crate::document::BY_RULES;
use crate::lots::{self, Lot};

/// The one number at which the library has not the Rust's way.
pub const OWN: u32 = 16;

#[derive(Default)]
pub struct Found {
    pub pairs: u64,
    /// Pairs on which the library differs from the Rust.
    pub own: u64,
    /// Pairs on which the two orders of ignoring pointless groups differ.
    pub by_order: u64,
    /// The other pairs on which the Rust and the reading differ.
    pub different: u64,
    /// Those of them that a number alone explains.
    pub by_one: u64,
    /// By number, what it alone explains.
    pub smallest: BTreeMap<u32, Smallest>,
}

pub struct Smallest {
    pub pairs: u64,
    /// Of the first of the smallest pairs.
    pub records: usize,
    pub text: String,
}

/// Marks every pair. The first on which the reading is unlike the Rust or the
/// library ends it.
pub fn run() -> Result<Found, String> {
    let mut found = Found::default();
    for lot in lots::every() {
        lots::pairs(&lot, &mut |derived, base| {
            let sheet = Sheet {
                leaves: lot.leaves.clone(),
                first: lot.table.clone(),
                second: lot.table.clone(),
                derived: derived.clone(),
                base: base.clone(),
            };
            compare(&sheet, &lot, &mut found)
        })?;
    }
    Ok(found)
}

/// The reading's answer; nothing where it hangs on the order.
pub fn reading(sheet: &Sheet, ways: Ways) -> Option<Answer> {
    let answer = w3c::answer(sheet, ways, Order::ItemsFirst);
    (answer == w3c::answer(sheet, ways, Order::GroupFirst)).then_some(answer)
}

/// Whether this number alone makes the Rust's answer the W3C text's.
pub fn explains(number: u32, sheet: &Sheet) -> bool {
    let w3c = reading(sheet, Ways::W3C);
    w3c.is_some() && reading(sheet, Ways::RUST.without(number)) == w3c
}

pub fn rust(sheet: &Sheet) -> Answer {
    match bridge::mark(sheet) {
        Mark::Passes => Answer::Valid,
        Mark::Fails(_) => Answer::Fails,
        Mark::Undecided => Answer::Undecided,
    }
}

/// The library's answer; nothing where it refuses the sheet.
fn library(sheet: &Sheet) -> Option<Answer> {
    match library::mark(&sheet.encode()) {
        0 => Some(Answer::Valid),
        1 => Some(Answer::Undecided),
        reason => (reason < REFUSED).then_some(Answer::Fails),
    }
}

fn compare(sheet: &Sheet, lot: &Lot, found: &mut Found) -> Result<(), String> {
    found.pairs += 1;
    let rust = rust(sheet);
    let library =
        library(sheet).ok_or_else(|| format!("{}: the library refuses it", text(sheet, lot)))?;
    let held = [("Rust", rust, Ways::RUST), ("library", library, Ways::RUST.without(OWN))];
    for (who, answer, ways) in held {
        let read = reading(sheet, ways);
        if read != Some(answer) {
            let text = text(sheet, lot);
            return Err(format!("{text}: the {who} {answer:?}, the reading by its ways {read:?}"));
        }
    }
    found.own += u64::from(library != rust);
    match reading(sheet, Ways::W3C) {
        None => found.by_order += 1,
        Some(w3c) if w3c != rust => note(sheet, lot, found),
        Some(_) => {}
    }
    Ok(())
}

/// Counts a difference where it belongs.
fn note(sheet: &Sheet, lot: &Lot, found: &mut Found) {
    found.different += 1;
    let records = sheet.derived.records() + sheet.base.records();
    let alone: Vec<u32> = BY_RULES.filter(|number| explains(*number, sheet)).collect();
    found.by_one += u64::from(!alone.is_empty());
    for number in alone {
        let first = || Smallest { pairs: 0, records, text: text(sheet, lot) };
        let smallest = found.smallest.entry(number).or_insert_with(first);
        smallest.pairs += 1;
        if records < smallest.records {
            (smallest.records, smallest.text) = (records, text(sheet, lot));
        }
    }
}

fn text(sheet: &Sheet, lot: &Lot) -> String {
    format!("{} | {} ({})", shown(&sheet.derived), shown(&sheet.base), lot.name)
}

/// A lot has one wildcard, w, whatever its leaf number is.
fn shown(tree: &Tree) -> Tree {
    let leaf = if tree.kind == Kind::Wildcard { 0 } else { tree.leaf };
    Tree { leaf, items: tree.items.iter().map(shown).collect(), ..tree.clone() }
}
