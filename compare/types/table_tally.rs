//! What was compared with tables of types, counted, and the line that tells it.

use std::fmt;

use common::answers::{NOT_DERIVED, REFUSED, TYPE_NUMBER, TYPE_TABLE};
use expected::type_table::{RUST_LINKS, Verdict};
use expected::types::Filling;
use second::type_table::{Fault, faults};
use second::types::filled_by;

use crate::check::{Given, Marks};
use crate::tally::{Answers, Lot, missing, named, write_lots};

#[derive(Default)]
pub struct Tables {
    /// Pairs of numbers that are stated by hand.
    pub known: u64,
    /// Tables of types.
    pub small: u64,
    pub whole: u64,
    pub random: u64,
    pub damaged: u64,
    pub fillings: Fillings,
    /// Of all pairs of numbers.
    verdicts: [u64; VERDICTS.len()],
    rust: Rust,
    /// Of the damaged ones.
    faults: Faults,
}

const VERDICTS: [&str; 4] = ["ok", "148", "refused 17", "refused 18"];

/// Fillings by a table of types.
#[derive(Default)]
pub struct Fillings {
    pub known: u64,
    pub small: u64,
    /// Of known sheets and of those at the limits.
    pub stated: u64,
    pub random: u64,
    pub damaged: u64,
    /// Of all but the first two, by a table of types that is not refused.
    answers: Answers,
    faults: Faults,
    beside: [u64; BESIDE.len()],
}

/// What would be refused next after a table of types.
const BESIDE: [&str; 3] = ["nothing", "the sheet", "the types"];

/// Refused tables of types, by their first fault.
#[derive(Default)]
struct Faults {
    first: [u64; Fault::EVERY.len()],
    several: u64,
}

impl Faults {
    fn count(&mut self, parents: &[u8]) {
        let faults = faults(parents);
        faults.first().into_iter().for_each(|fault| self.first[*fault as usize] += 1);
        self.several += u64::from(faults.len() > 1);
    }

    fn rows(&self) -> Vec<(String, u64)> {
        let names = Fault::EVERY.map(Fault::name);
        [named(&names, &self.first), named(&["several"], &[self.several])].concat()
    }
}

/// Pairs of rows by what the Rust makes of them, each by the verdict, ok or 148.
#[derive(Default)]
struct Rust {
    at_once: u64,
    decided: [u64; 2],
    undecided: [u64; 2],
    /// The most links that it went up to a verdict, the fewest that were too many,
    /// and the fewest rows of a table of types with such a chain.
    most_links: [usize; 2],
    fewest_links: [Option<usize>; 2],
    fewest_rows: Option<usize>,
}

/// The smallest table of types that the Rust does not know everything of: a chain
/// of one link more than it goes, and a row that is not above its end.
const RUST_ROWS: usize = RUST_LINKS + 3;

impl Rust {
    fn count(&mut self, rows: usize, base: u32, verdict: &Verdict) {
        let Some(walk) = verdict.rust else { return };
        let of = usize::from(verdict.answer != 0);
        let least = |known: Option<usize>, own| Some(known.map_or(own, |known| known.min(own)));
        if base < 2 {
            self.at_once += 1;
        } else if walk.decided {
            self.decided[of] += 1;
            self.most_links[of] = self.most_links[of].max(walk.links);
        } else {
            self.undecided[of] += 1;
            self.fewest_links[of] = least(self.fewest_links[of], walk.links);
            self.fewest_rows = least(self.fewest_rows, rows);
        }
    }
}

impl Tables {
    pub fn verdict(&mut self, rows: usize, base: u32, verdict: &Verdict) {
        let place = match verdict.answer.checked_sub(REFUSED) {
            None if verdict.answer == 0 => 0,
            None => 1,
            Some(number) if number == TYPE_NUMBER => 2,
            Some(_) => 3,
        };
        assert!(place != 1 || verdict.answer == NOT_DERIVED);
        self.verdicts[place] += 1;
        self.rust.count(rows, base, verdict);
    }

    pub fn damaged(&mut self, parents: &[u8]) {
        self.damaged += 1;
        self.faults.count(parents);
    }

    /// Where the Rust's way up ends, which all pairs of some chains show.
    pub fn hold_limit(&self) {
        let Rust { most_links, fewest_links, fewest_rows, .. } = self.rust;
        assert!(most_links == [RUST_LINKS; 2], "the Rust goes up {most_links:?} links");
        let beyond = [Some(RUST_LINKS + 1); 2];
        assert!(fewest_links == beyond, "the Rust does not know from {fewest_links:?} links on");
        assert!(fewest_rows == Some(RUST_ROWS), "nor from {fewest_rows:?} rows on");
    }

    fn lots(&self) -> Vec<Lot> {
        let Rust { at_once, decided, undecided, .. } = self.rust;
        let knows = [at_once, decided[0], decided[1]];
        vec![
            ("verdicts", named(&VERDICTS, &self.verdicts)),
            ("the Rust knows", named(&["by base 0 or 1", "ok", "148"], &knows)),
            ("the Rust does not know", named(&["ok", "148"], &undecided)),
            ("refused 18, by the first fault of a damaged one", self.faults.rows()),
        ]
    }

    /// What did not come up.
    pub fn missing(&self) -> Vec<String> {
        [missing(&self.lots()), missing(&self.fillings.lots())].concat()
    }
}

impl Fillings {
    /// Counts a drawn filling.
    pub fn count(&mut self, bytes: &[u8], given: Given, filling: &Filling, marks: Option<Marks>) {
        if filling.answer != REFUSED + TYPE_TABLE {
            return self.answers.count(bytes, given, filling, marks);
        }
        let parents = given.parents.expect("a table of types");
        self.faults.count(parents);
        let is_row = |number| number < parents.len();
        let any = |derived, base| (is_row(derived) && is_row(base)).then_some(0);
        let next = match filled_by(bytes, given.types, any) {
            Ok(_) => 0,
            Err(refusal) if refusal.number != TYPE_NUMBER => 1,
            Err(_) => 2,
        };
        self.beside[next] += 1;
    }

    fn lots(&self) -> Vec<Lot> {
        let mut lots = self.answers.lots();
        lots.push(("refused 18, by the first fault", self.faults.rows()));
        lots.push(("refused 18, what comes next", named(&BESIDE, &self.beside)));
        lots
    }
}

impl fmt::Display for Tables {
    fn fmt(&self, f: &mut fmt::Formatter<'_>) -> fmt::Result {
        let Tables { known, small, whole, random, damaged, fillings, .. } = self;
        write!(
            f,
            "tables of types: {known} known pairs, {small} small ones, {whole} with all \
             pairs, {random} random, {damaged} damaged; the Rust goes {RUST_LINKS} links up, and \
             knows everything of up to {} rows",
            RUST_ROWS - 1,
        )?;
        write_lots(f, &self.lots())?;
        let Fillings { known, small, stated, random, damaged, .. } = fillings;
        write!(
            f,
            "\nfillings by tables of types: {known} known, {small} small, {stated} of known \
             sheets, {random} random, {damaged} damaged"
        )?;
        write_lots(f, &fillings.lots())
    }
}
