//! What was compared on types, counted, and the closing line that tells it.

use std::fmt;

use common::answers::{REFUSALS, REFUSED, TYPE_NUMBER};
use common::sheet::{LEAVES, Sheet};
use common::tree::Kind;
use expected::types::{CAUSES, Filling, cause, names};

use crate::check::{Given, Marks};
use crate::table_tally::Tables;

#[derive(Default)]
pub struct Tally {
    /// Names of the list.
    pub names: usize,
    /// Pairs of listed types that are ok, and those that are not.
    pub verdicts: [u64; 2],
    /// Pairs with a number that the list does not have.
    pub unlisted: u64,
    pub known: u64,
    pub small: u64,
    /// Of known sheets and of those at the limits.
    pub stated: u64,
    pub random: u64,
    pub damaged: u64,
    /// Of the random and the damaged sheets.
    pub answers: Answers,
    /// With tables of types.
    pub tables: Tables,
}

/// How many bytes a filling changes: the least number of each lot.
const CHANGED: [(usize, &str); 5] =
    [(0, "none"), (1, "one"), (2, "2 to 9"), (10, "10 to 99"), (100, "more")];
const WRITTEN: [&str; 2] = ["ok", "148"];
/// Where a verdict stays undecided; a column is an element's row's.
const LEFT: [&str; 3] = ["in the first table", "in a wildcard's row", "in a wildcard's column"];
/// A sheet's mark before and after.
const MARKS: [&str; 3] = ["definite", "decided by it", "undecided still"];

#[derive(Default)]
pub struct Answers {
    filled: [u64; CHANGED.len()],
    written: [u64; WRITTEN.len()],
    left: [u64; LEFT.len()],
    /// Fillings with a number at a wildcard that is no type's.
    not_read: u64,
    /// By number.
    refused: [u64; TYPE_NUMBER as usize + 1],
    causes: [u64; CAUSES.len()],
    marks: [u64; MARKS.len()],
}

impl Answers {
    pub fn count(&mut self, bytes: &[u8], given: Given, filling: &Filling, marks: Option<Marks>) {
        match filling.answer.checked_sub(REFUSED) {
            None => self.filled(bytes, given, &filling.after),
            Some(TYPE_NUMBER) => self.causes[cause(bytes[LEAVES].into(), given.types.len())] += 1,
            Some(number) => self.refused[number as usize] += 1,
        }
        let kind = marks.map(|marks| match marks {
            (1, 1) => 2,
            (1, _) => 1,
            _ => 0,
        });
        kind.into_iter().for_each(|kind| self.marks[kind] += 1);
    }

    fn filled(&mut self, bytes: &[u8], given: Given, after: &[u8]) {
        let changed: Vec<usize> = (0..bytes.len()).filter(|at| bytes[*at] != after[*at]).collect();
        let lot = CHANGED.iter().rposition(|(least, _)| changed.len() >= *least);
        self.filled[lot.expect("a lot")] += 1;
        changed.iter().for_each(|at| self.written[usize::from(after[*at] != 0)] += 1);
        let sheet = Sheet::decode(after);
        let n = sheet.leaves.len();
        let is_wildcard = |leaf: usize| sheet.leaves[leaf].kind == Kind::Wildcard;
        let undecided = |table: &[u8]| (0..n * n).filter(|at| table[*at] == 1).collect::<Vec<_>>();
        self.left[0] += undecided(&sheet.first).len() as u64;
        for at in undecided(&sheet.second) {
            self.left[if is_wildcard(at / n) { 1 } else { 2 }] += 1;
        }
        let known = given.parents.map_or(names().len(), <[u8]>::len);
        let unknown = |leaf: usize| usize::from(given.types[leaf]) >= known;
        self.not_read += u64::from((0..n).any(|leaf| is_wildcard(leaf) && unknown(leaf)));
    }

    /// Every count with its name, in lots.
    pub fn lots(&self) -> Vec<Lot> {
        let refused = REFUSALS.map(|number| (number.to_string(), self.refused[number as usize]));
        vec![
            ("filled, by changed bytes", named(&CHANGED.map(|(_, name)| name), &self.filled)),
            ("verdicts written", named(&WRITTEN, &self.written)),
            ("verdicts left undecided", named(&LEFT, &self.left)),
            ("not read", named(&["a wildcard's that is no type's"], &[self.not_read])),
            ("refused", refused.to_vec()),
            ("refused 17, types handed in", named(&CAUSES, &self.causes)),
            ("marks", named(&MARKS, &self.marks)),
        ]
    }
}

/// Counts with their names, under a name of their own.
pub type Lot = (&'static str, Vec<(String, u64)>);

pub fn named(names: &[&str], counts: &[u64]) -> Vec<(String, u64)> {
    names.iter().map(|name| name.to_string()).zip(counts.iter().copied()).collect()
}

/// What did not come up.
pub fn missing(lots: &[Lot]) -> Vec<String> {
    let rows = lots.iter().flat_map(|(lot, rows)| rows.iter().map(move |row| (lot, row)));
    let missing = rows.filter(|(_, (_, count))| *count == 0);
    missing.map(|(lot, (name, _))| format!("{lot}: {name}")).collect()
}

pub fn write_lots(f: &mut fmt::Formatter<'_>, lots: &[Lot]) -> fmt::Result {
    for (lot, rows) in lots {
        let rows: Vec<String> =
            rows.iter().map(|(name, count)| format!("{name} {count}")).collect();
        write!(f, "; {lot}: {}", rows.join(", "))?;
    }
    Ok(())
}

impl fmt::Display for Tally {
    fn fmt(&self, f: &mut fmt::Formatter<'_>) -> fmt::Result {
        let [ok, failing] = self.verdicts;
        write!(
            f,
            "all equal: {} names, {} pairs of types (ok {ok}, 148 {failing}), {} pairs with a \
             number that the list does not have; fillings: {} known, {} small, {} of known \
             sheets, {} random, {} damaged",
            self.names,
            ok + failing,
            self.unlisted,
            self.known,
            self.small,
            self.stated,
            self.random,
            self.damaged,
        )?;
        write_lots(f, &self.answers.lots())?;
        write!(f, "\n{}", self.tables)
    }
}
