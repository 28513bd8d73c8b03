//! The words that tell stored answers of one kind from those of another.

use common::answers::{self, BEYOND, REFUSED, TYPE_NUMBER, TYPE_TABLE};
use common::chain;
use common::sheet::{LEAVES, Sheet};
use common::tree::{Kind, Tree};
use expected::types::{CAUSES, cause};
use oracle::bridge::{self, Leaves};
use oracle::doors;
use oracle::reasons::Mark;
use second::tree::first_refusal;
use second::type_table::faults;

use crate::case::{Case, Operation};

/// The greatest exact minimum and bounded maximum.
const TOP: u64 = BEYOND - 1;

/// The kind of an answer.
pub fn of(case: &Case) -> String {
    match case.operation {
        Operation::Mark => mark(case.answer as u32, case.unlike),
        Operation::TotalMin | Operation::TotalMax => total(case),
        Operation::Emptiable => match case.answer {
            0 => "no".into(),
            1 => "yes".into(),
            number => format!("refused {number}"),
        },
        Operation::Tidy => match case.answer.checked_sub(BEYOND) {
            Some(number) => format!("refused {number}"),
            None if case.after.starts_with(&case.input) => "unchanged".into(),
            None => "changed".into(),
        },
        Operation::Item => item(case).into(),
        Operation::EffectiveParticle => joined(case),
        Operation::TypeDerivationOk => answers::type_text(case.answer as u32),
        Operation::FillTypes => filled(case, case.input.len()),
        Operation::TypeDerivationOkBy if case.answer == TABLE => table_refused(&case.input),
        Operation::TypeDerivationOkBy => answers::type_text(case.answer as u32),
        Operation::FillTypesBy => {
            let (types, parents) = case.input.split_at(case.k.into());
            if case.answer == TABLE { table_refused(parents) } else { filled(case, types.len()) }
        }
    }
}

/// The refusal of a table of types.
const TABLE: u64 = (REFUSED + TYPE_TABLE) as u64;

/// Why a table of types is refused.
fn table_refused(parents: &[u8]) -> String {
    let fault = faults(parents).first().map_or("no fault", |fault| fault.name());
    format!("{}, {fault}", answers::type_text(REFUSED + TYPE_TABLE))
}

/// The kind of a sheet's answer; a mark that the Rust does not give is one of
/// its own.
pub fn mark(answer: u32, unlike: Option<u32>) -> String {
    let answer = answers::text(answer);
    match unlike.map(answers::text) {
        None => answer,
        Some(rust) => format!("{answer} and the Rust {rust}"),
    }
}

fn total(case: &Case) -> String {
    match case.answer {
        1..TOP => "between".into(),
        answer => answers::total_text(answer),
    }
}

fn item(case: &Case) -> &'static str {
    if first_refusal(&case.input).is_some() {
        "none, refused"
    } else if case.answer == 0 {
        "none"
    } else if case.before.len() < case.answer as usize {
        "too long"
    } else {
        "written"
    }
}

fn joined(case: &Case) -> String {
    match case.answer.checked_sub(BEYOND) {
        Some(number) => format!("refused {number}"),
        None => match chain::levels(&case.input).iter().filter(|own| !own.is_empty()).count() {
            0 => "no content".into(),
            1 => "one tree".into(),
            2 => "two trees".into(),
            _ => "more trees".into(),
        },
    }
}

/// What a filling from so many types writes, or why it is refused.
fn filled(case: &Case, types: usize) -> String {
    const TYPES: u32 = REFUSED + TYPE_NUMBER;
    let written = case.after.iter().zip(&case.before).filter(|(after, before)| after != before);
    let written: Vec<u8> = written.map(|(after, _)| *after).collect();
    match case.answer as u32 {
        0 if written.is_empty() => "filled, none changed".into(),
        0 => match (written.contains(&0), written.iter().any(|verdict| *verdict != 0)) {
            (true, false) => "filled, ok".into(),
            (false, _) => "filled, 148".into(),
            _ => "filled, ok and 148".into(),
        },
        TYPES => {
            let cause = cause(case.before[LEAVES].into(), types);
            format!("{}, {}", answers::fill_text(TYPES), CAUSES[cause])
        }
        answer => answers::fill_text(answer),
    }
}

/// For a sheet with a mark, also its roots, since they decide by which rule the
/// mark is found, and of an undecided one whether it would fail if every
/// undecided verdict were ok. The reasons that the paper sets are one kind.
pub fn finely(case: &Case) -> String {
    if case.operation != Operation::Mark || case.answer > REFUSED.into() {
        return of(case);
    }
    let kind = if case.answer < 140 { of(case) } else { "fails by a verdict".into() };
    let mut sheet = Sheet::decode(&case.input);
    let roots = format!("{}|{}", root(&sheet.derived), root(&sheet.base));
    for verdict in sheet.first.iter_mut().chain(&mut sheet.second) {
        *verdict = if *verdict == 1 { 0 } else { *verdict };
    }
    let over_a_failure = case.answer == 1 && matches!(bridge::mark(&sheet), Mark::Fails(_));
    format!("{kind}{} {roots}", if over_a_failure { " over a failure" } else { "" })
}

/// The root once tidied, in document 01's notation, a for any element.
fn root(tree: &Tree) -> char {
    match bridge::tree(&doors::normalize(&Leaves::none().particle(tree))).kind {
        Kind::Element => 'a',
        Kind::Wildcard => 'w',
        Kind::Sequence => 'S',
        Kind::Choice => 'C',
        Kind::All => 'A',
    }
}
