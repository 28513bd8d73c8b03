//! Tables of types among the stored answers: verdicts by known and small ones, by
//! the built-in list, by chains of 199 links and by random ones, sheets filled by
//! them, and refused ones of each fault (expected/type_table.rs).

use cases::{known_type_tables, known_types};
use common::answers::{self, REFUSALS, REFUSED, TYPE_NUMBER, TYPE_TABLE};
use common::random::Rng;
use draw::sheets::Size;
use draw::types::Among;
use draw::{type_tables, types};
use expected::type_table::TypeTable;
use expected::types::{CAUSES, parents};
use second::type_table::{Fault, MOST_ROWS, Types};

use crate::case::{Case, Operation};
use crate::shares::{Round, Shares, Stored};
use crate::types::{SHORT, sheet_of_most_leaves};

/// The most rows of a random one, before it is damaged, and afterwards.
const FEW_ROWS: usize = 40;
const MOST_STORED: usize = 300;
/// Every good one of up to so many rows is stored.
const SMALL: usize = 4;
/// What a refused one is asked for: these, or the first of them if it is long.
const BESIDE_BAD: [(u8, u8); 3] = [(0, 0), (2, 2), (255, 0)];
/// The refused one that is stored with every known filling.
const BAD: [u8; 2] = [0, 1];

/// How many of each verdict, and of each fault.
const VERDICTS: usize = 100;
const FAULTS: usize = 6;
/// How many of each kind of filling, of each refusal of a sheet, of each cause
/// for which types are refused, and of each fault.
const FILLED: usize = 12;
const REFUSED_SHARE: usize = 4;

pub fn store(stored: &mut Stored, seed: u64) {
    known(stored);
    small(stored);
    let verdicts = [0, answers::NOT_DERIVED, REFUSED + TYPE_NUMBER].map(answers::type_text);
    let by = Operation::TypeDerivationOkBy;
    Shares::default().ask(by, verdicts, VERDICTS).ask(by, every_fault(), FAULTS).fill(
        stored,
        seed,
        Round::TypeTables,
        |rng| {
            let parents = few_rows(rng);
            let parents = damaged_or_not(rng, parents);
            let (derived, base) = type_tables::pair(rng, &parents);
            up_to_byte(&parents, derived, base).into_iter().collect()
        },
    );
    fillings(stored, seed);
}

/// The refusals of a table of types, as kind.rs tells them.
fn every_fault() -> impl Iterator<Item = String> {
    let refused = answers::type_text(REFUSED + TYPE_TABLE);
    Fault::EVERY.into_iter().map(move |fault| format!("{refused}, {}", fault.name()))
}

/// What is stated by hand, as far as the numbers fit in a byte, and pairs of the
/// built-in list.
fn known(stored: &mut Stored) {
    let mut asked: Vec<(Vec<u8>, u32, u32)> = Vec::new();
    for (_, parents, pairs) in known_type_tables::good() {
        asked.extend(pairs.iter().map(|(derived, base, _)| (parents.clone(), *derived, *base)));
    }
    let limit = known_type_tables::at_rusts_limit().into_iter();
    asked.extend(limit.map(|(parents, (derived, base, _), _)| (parents, derived, base)));
    let listed = known_types::VERDICTS.into_iter();
    asked.extend(listed.map(|(derived, base, _)| (parents().to_vec(), derived, base)));
    for (parents, derived, base) in asked {
        up_to_byte(&parents, derived, base).into_iter().for_each(|case| _ = stored.add(case));
    }
    for (_, parents) in known_type_tables::bad() {
        let asked = match parents.len() {
            ..MOST_ROWS => &BESIDE_BAD[..],
            MOST_ROWS..=MOST_STORED => &BESIDE_BAD[..1],
            _ => &[],
        };
        asked.iter().for_each(|(derived, base)| _ = stored.add(pair(&parents, *derived, *base)));
    }
}

/// Every good one of few rows, with each pair of its last two rows and of the first
/// number that is no row.
fn small(stored: &mut Stored) {
    let mut tables: Vec<Vec<u8>> = vec![vec![0]];
    for rows in 1..=SMALL as u8 {
        let numbers = || rows.saturating_sub(2)..=rows;
        for parents in &tables {
            for derived in numbers() {
                numbers().for_each(|base| _ = stored.add(pair(parents, derived, base)));
            }
        }
        let next = if rows == 1 { 0..1 } else { 0..rows };
        let longer = |parents: &Vec<u8>| {
            let with = |parent| [&parents[..], &[parent]].concat();
            next.clone().map(with).collect::<Vec<_>>()
        };
        tables = tables.iter().flat_map(longer).collect();
    }
}

fn pair(parents: &[u8], derived: u8, base: u8) -> Case {
    let answer = TypeTable::new(parents).verdict(derived.into(), base.into()).answer;
    let k = u16::from_le_bytes([derived, base]);
    Case { k, ..Case::number(Operation::TypeDerivationOkBy, parents, answer.into()) }
}

/// None for a number that a byte has no room for.
fn up_to_byte(parents: &[u8], derived: u32, base: u32) -> Option<Case> {
    Some(pair(parents, derived.try_into().ok()?, base.try_into().ok()?))
}

/// A good one of few rows.
fn few_rows(rng: &mut Rng) -> Vec<u8> {
    let rows = rng.within(1, FEW_ROWS);
    type_tables::of_rows(rng, rows)
}

/// The same, or in one of four draws a damaged one.
fn damaged_or_not(rng: &mut Rng, good: Vec<u8>) -> Vec<u8> {
    let mut damaged = good.clone();
    type_tables::damage(rng, &mut damaged);
    if rng.one_in(4) && damaged.len() <= MOST_STORED { damaged } else { good }
}

/// Known fillings, one of the most leaves by a chain of 199 links, random and
/// damaged ones of every answer.
fn fillings(stored: &mut Stored, seed: u64) {
    for (_, bytes, types, parents, stated) in known_type_tables::fillings() {
        if stated != Err(TYPE_TABLE) || parents == BAD {
            stored.add(filled(&bytes, &types, &parents));
        }
    }
    stored.add(of_most_leaves_by_chain(&mut Rng::new(seed, u64::MAX - 3)));
    let by = Operation::FillTypesBy;
    let kinds = ["none changed", "ok", "148", "ok and 148"].map(|kind| format!("filled, {kind}"));
    let types_refused = answers::fill_text(REFUSED + TYPE_NUMBER);
    let causes = CAUSES.map(|cause| format!("{types_refused}, {cause}"));
    Shares::default()
        .ask(by, kinds, FILLED)
        .ask(by, causes, REFUSED_SHARE)
        .ask(by, every_fault(), REFUSED_SHARE)
        .fill(stored, seed, Round::FillingsByTables, |rng| {
            let bytes = types::sheet(rng, Size::Small);
            up_to_short(rng, bytes)
        });
    let refusals = REFUSALS.map(|number| answers::fill_text(REFUSED + number));
    Shares::default().ask(by, refusals, REFUSED_SHARE).fill(
        stored,
        seed,
        Round::DamagedFillingsByTables,
        |rng| {
            let bytes = types::damaged_sheet(rng);
            up_to_short(rng, bytes)
        },
    );
}

/// The sheet by a drawn table of types, unless it is too long.
fn up_to_short(rng: &mut Rng, bytes: Vec<u8>) -> Vec<Case> {
    if bytes.len() > SHORT {
        return Vec::new();
    }
    let good = few_rows(rng);
    let own = Types::read(&good).expect("a good one");
    let types = types::any(rng, &bytes, Among::Rows(&own));
    vec![filled(&bytes, &types, &damaged_or_not(rng, good))]
}

fn of_most_leaves_by_chain(rng: &mut Rng) -> Case {
    let bytes = sheet_of_most_leaves(rng);
    let parents = known_type_tables::chain(MOST_ROWS);
    let own = Types::read(&parents).expect("a good one");
    let types = types::good(rng, &bytes, Among::Rows(&own));
    filled(&bytes, &types, &parents)
}

fn filled(bytes: &[u8], types: &[u8], parents: &[u8]) -> Case {
    let filling = TypeTable::new(parents).fill(bytes, types);
    let input = [types, parents].concat();
    Case {
        k: types.len().try_into().expect("few types"),
        before: bytes.to_vec(),
        after: filling.after,
        ..Case::number(Operation::FillTypesBy, &input, filling.answer.into())
    }
}
