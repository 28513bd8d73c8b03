//! What the entries with a table of types must answer (document 02 §7): the second
//! reading's verdict or refusal, and the sheet that its filling leaves. The oracle
//! has a verdict on two rows too. It tests a type and 31 types above it, and does
//! not know what comes after; everywhere else it must come to the same.

use std::cell::OnceCell;
use std::collections::HashMap;

use common::answers::{REFUSED, TYPE_NUMBER};
use oracle::reasons::Mark;
use oracle::type_table::{Form, Rows};
use second::type_table::{Types, filled};
use second::types::Refusal;

use crate::sheet;
use crate::types::{self, Filling};

/// So many links the oracle goes up.
pub const RUST_LINKS: usize = 31;

/// A table of types, refused or not, with what is expected of it.
pub struct TypeTable {
    parents: Vec<u8>,
    read: Result<Types, Refusal>,
    rust: OnceCell<Rust>,
}

/// One that is not refused, as the oracle has it.
struct Rust {
    forms: [Rows; Form::EVERY.len()],
    /// From each row up to row 0.
    links: Vec<usize>,
}

pub struct Verdict {
    /// What the library must answer.
    pub answer: u32,
    /// What the oracle makes of it; none where it is refused.
    pub rust: Option<Walk>,
}

/// The links that a verdict takes: up to the base, or to row 0 where the base is
/// not met; none for base 0 or 1, which is ok at once.
#[derive(Debug, Clone, Copy, PartialEq)]
pub struct Walk {
    pub links: usize,
    /// Whether the oracle knows.
    pub decided: bool,
}

impl TypeTable {
    pub fn new(parents: &[u8]) -> TypeTable {
        let read = Types::read(parents);
        TypeTable { parents: parents.to_vec(), read, rust: OnceCell::new() }
    }

    /// The verdict on two numbers, or the refusal.
    pub fn verdict(&self, derived: u32, base: u32) -> Verdict {
        let (derived, base) = (derived as usize, base as usize);
        let refused = |number| Verdict { answer: REFUSED + number, rust: None };
        match &self.read {
            Err(refusal) => refused(refusal.number),
            Ok(types) => match types.verdict(derived, base) {
                None => refused(TYPE_NUMBER),
                Some(verdict) => {
                    let rust = self.rust.get_or_init(|| Rust::new(&self.parents));
                    let walk = rust.held(derived, base, verdict.into());
                    Verdict { answer: verdict.into(), rust: Some(walk) }
                }
            },
        }
    }

    /// The filling of a sheet. Each pair of types is held to the oracle once.
    pub fn fill(&self, bytes: &[u8], types: &[u8]) -> Filling {
        let filled = filled(bytes, types, &self.read);
        let mut known = HashMap::new();
        types::filling(bytes, types, filled, |derived, base| {
            *known.entry((derived, base)).or_insert_with(|| self.verdict(derived, base).answer)
        })
    }
}

impl Rust {
    fn new(parents: &[u8]) -> Rust {
        Rust { forms: Form::EVERY.map(|form| Rows::new(parents, form)), links: links(parents) }
    }

    /// Holds the oracle to a verdict on two rows, as far as it goes.
    fn held(&self, derived: usize, base: usize, answer: u32) -> Walk {
        let links = match (base, answer) {
            (0 | 1, _) => 0,
            (_, 0) => self.links[derived] - self.links[base],
            _ => self.links[derived],
        };
        let decided = links <= RUST_LINKS;
        let expected = if decided { answer } else { sheet::number(Mark::Undecided) };
        for (form, rows) in Form::EVERY.iter().zip(&self.forms) {
            let got = rows.derivation_ok(derived, base);
            let same = sheet::number(got) == expected;
            assert!(same, "the oracle, {form:?}, {derived} from {base} by {links} links: {got}");
        }
        Walk { links, decided }
    }
}

/// How many links there are from each row up to row 0.
fn links(parents: &[u8]) -> Vec<usize> {
    let mut links: Vec<usize> = vec![0];
    for parent in &parents[1..] {
        links.push(links[usize::from(*parent)] + 1);
    }
    links
}
