//! Compares the proved library's verdicts on two types, of the built-in list or of
//! a table of types, with those of the original's `type_derivation_ok` as far as
//! that goes, and its fillings of sheets and its refusals with a second reading of
//! document 02 §6 and §7. Run it by compare/run. Exit status 0: all equal; 1: a
//! difference; 2: bad usage, or a file that is missing; a panic says that the
//! harness itself is at fault.

mod check;
mod listed;
mod report;
mod table_tally;
mod tables;
mod tally;

use cases::{known_sheets, known_types, limits, small_types};
use common::answers::{REFUSED, type_text};
use common::options::{self, Options};
use common::random::Rng;
use draw::sheets::Size;
use draw::types::{self, Among};
use expected::type_table::TypeTable;
use expected::types::{Filling, fill_types, names, parents, type_derivation_ok};

use check::{Difference, Given, Marks};
use tally::Tally;

const RANDOM: u64 = 100_000;
const DAMAGED: u64 = 100_000;
/// So many random sheets are small, so that a difference shows on a small one if
/// it can; after these, every second one.
const SMALL: u64 = 5_000;

/// A run; a difference is told in full.
type Run = fn(&Options, &mut Tally) -> Result<(), String>;

fn main() {
    let options = options::read("types", RANDOM, DAMAGED);
    let mut tally = Tally::default();
    // Short runs first, so that a difference shows on a small case if it can.
    let verdicts: [Run; 5] = [list, pairs, numbers, tables::known, tables::small];
    let fillings: [Run; 5] = [known, tables::known_fillings, small, tables::small_fillings, stated];
    let drawn: [Run; 5] = [tables::whole, tables::random, tables::damaged, random, damaged];
    for run in [verdicts, fillings, drawn].concat() {
        if let Err(found) = run(&options, &mut tally) {
            println!("{found}");
            std::process::exit(1);
        }
    }
    tally.tables.hold_limit();
    let missing = [tally::missing(&tally.answers.lots()), tally.tables.missing()].concat();
    let few = options.count < RANDOM || options.damaged < DAMAGED;
    assert!(few || missing.is_empty(), "what never came up: {missing:?}");
    println!("{tally}");
}

/// The names of the library's list.
fn list(_: &Options, tally: &mut Tally) -> Result<(), String> {
    let text = std::fs::read_to_string(listed::LIST).unwrap_or_else(|error| {
        eprintln!("{}: {error}", listed::LIST);
        std::process::exit(2);
    });
    let told = |(number, difference)| report::number(listed::LIST, number, &difference);
    tally.names = listed::compare(&text).map_err(told)?;
    Ok(())
}

/// The library's verdict on two numbers, by its list and by the list as a table of
/// types.
fn verdict(case: &str, derived: u32, base: u32) -> Result<u32, String> {
    let expected = type_derivation_ok(derived, base);
    let by_list = library::type_derivation_ok(derived, base);
    let by_table = library::type_derivation_ok_by(parents(), derived, base);
    for (what, got) in [("", by_list), (" by the list as a table of types", by_table)] {
        if got != expected {
            let (what, expected) = (format!("type verdict{what}"), type_text(expected));
            let difference = Difference { what, expected, got: type_text(got) };
            return Err(report::pair(case, derived, base, &difference));
        }
    }
    Ok(expected)
}

/// Every pair of the list, those that are stated by hand first.
fn pairs(_: &Options, tally: &mut Tally) -> Result<(), String> {
    for (derived, base, stated) in known_types::VERDICTS {
        let read = type_derivation_ok(derived, base);
        assert!(read == stated, "{derived} from {base}: {read}, stated is {stated}");
        verdict("known pair", derived, base)?;
    }
    let listed = names().len() as u32;
    let table = TypeTable::new(parents());
    for derived in 0..listed {
        for base in 0..listed {
            let (own, by_table) =
                (type_derivation_ok(derived, base), table.verdict(derived, base).answer);
            assert!(own == by_table, "{derived} from {base}: the list as a table of types differs");
            let answer = verdict("all pairs of the list", derived, base)?;
            tally.verdicts[usize::from(answer != 0)] += 1;
        }
    }
    Ok(())
}

/// Every number up to this on either side, and some that are larger; the lowest
/// bits of most of these are a listed number's.
const NUMBERS: u32 = 300;
const LARGE: [u32; 9] = [
    256 + 300,
    1 << 15,
    65535,
    1 << 16,
    (1 << 16) + 34,
    (1 << 24) + 4,
    1 << 31,
    (1 << 31) + 49,
    u32::MAX,
];

fn numbers(_: &Options, tally: &mut Tally) -> Result<(), String> {
    let every = || (0..=NUMBERS).chain(LARGE);
    for derived in every() {
        for base in every() {
            let answer = verdict("all numbers", derived, base)?;
            tally.unlisted += u64::from(answer > REFUSED);
        }
    }
    Ok(())
}

/// Compares one filling, by the library's list and by the list as a table of types;
/// the sheet's mark may be known.
fn compare(
    case: &str,
    bytes: &[u8],
    types: &[u8],
    known: Option<u32>,
    rng: &mut Rng,
) -> Result<(Filling, Option<Marks>), String> {
    let expected = fill_types(bytes, types);
    let told = |given| move |difference| report::filling(case, bytes, given, &difference);
    let given = Given { types, parents: None };
    let marks = check::filling(bytes, given, &expected, known, rng).map_err(told(given))?;
    let given = Given { types, parents: Some(parents()) };
    check::compare("the filling", bytes, given, &expected, rng).map_err(told(given))?;
    Ok((expected, marks))
}

fn known(options: &Options, tally: &mut Tally) -> Result<(), String> {
    let mut rng = Rng::new(options.seed, 0);
    for (what, bytes, types, stated) in known_types::known() {
        let Filling { answer, after } = fill_types(&bytes, &types);
        let read = if answer == 0 { Ok(after) } else { Err(answer - REFUSED) };
        assert!(read == stated, "{what}: {read:?}, stated is {stated:?}");
        tally.known += 1;
        compare(&format!("known filling '{what}'"), &bytes, &types, None, &mut rng)?;
    }
    Ok(())
}

fn small(options: &Options, tally: &mut Tally) -> Result<(), String> {
    let mut rng = Rng::new(options.seed, 1);
    small_types::every(&mut |bytes, types| {
        tally.small += 1;
        compare("all small fillings", bytes, types, None, &mut rng).map(|_| ())
    })
}

/// The known sheets, and those at the limits, with more undecided verdicts.
fn stated(options: &Options, tally: &mut Tally) -> Result<(), String> {
    let mut rng = Rng::new(options.seed, 2);
    let known = known_sheets::known().into_iter().map(|(what, bytes, _)| (what, bytes));
    let at_limits = limits::stated().into_iter().map(|(what, sheet, _)| (what, sheet.encode()));
    for (what, mut bytes) in known.chain(at_limits) {
        types::open(&mut rng, &mut bytes);
        let case = format!("known sheet '{what}'");
        let list = Among::List;
        let mut known = None;
        for types in [types::good(&mut rng, &bytes, list), types::any(&mut rng, &bytes, list)] {
            tally.stated += 1;
            let (_, marks) = compare(&case, &bytes, &types, known, &mut rng)?;
            known = known.or(marks.map(|(before, _)| before));
        }
        tally.tables.fillings.stated += 1;
        tables::drawn(&case, &bytes, known, &mut rng, tally)?;
    }
    Ok(())
}

/// Compares a drawn filling and counts it, and then one by a table of types.
fn drawn(case: String, bytes: &[u8], rng: &mut Rng, tally: &mut Tally) -> Result<(), String> {
    let types = types::any(rng, bytes, Among::List);
    let (filling, marks) = compare(&case, bytes, &types, None, rng)?;
    let given = Given { types: &types, parents: None };
    tally.answers.count(bytes, given, &filling, marks);
    tables::drawn(&case, bytes, marks.map(|(before, _)| before), rng, tally)
}

fn random(options: &Options, tally: &mut Tally) -> Result<(), String> {
    for case in 0..options.count {
        let mut rng = Rng::new(options.seed, case);
        let size = if case < SMALL || case % 2 == 0 { Size::Small } else { Size::Any };
        let bytes = types::sheet(&mut rng, size);
        tally.random += 1;
        tally.tables.fillings.random += 1;
        let case = format!("random sheet {case} of seed {}", options.seed);
        drawn(case, &bytes, &mut rng, tally)?;
    }
    Ok(())
}

fn damaged(options: &Options, tally: &mut Tally) -> Result<(), String> {
    for case in 0..options.damaged {
        let mut rng = Rng::new(!options.seed, case);
        let bytes = types::damaged_sheet(&mut rng);
        tally.damaged += 1;
        tally.tables.fillings.damaged += 1;
        let case = format!("damaged sheet {case} of seed {}", options.seed);
        drawn(case, &bytes, &mut rng, tally)?;
    }
    Ok(())
}
