//! The runs on tables of types (document 02 §7): the verdict on two rows of one,
//! and sheets filled by it.

use cases::{known_type_tables, small_type_tables, small_types};
use common::answers::{REFUSED, TYPE_TABLE, type_text};
use common::options::Options;
use common::random::Rng;
use draw::types::Among;
use draw::{type_tables, types};
use expected::type_table::TypeTable;
use expected::types::{Filling, parents};
use second::type_table::{MOST_ROWS, Types};

use crate::check::{self, Difference, Given, Lent, Marks};
use crate::report;
use crate::tally::Tally;

/// Compares the verdicts on these pairs of numbers. The table of types must come
/// back unchanged.
fn verdicts(
    case: &str,
    parents: &[u8],
    pairs: impl IntoIterator<Item = (u32, u32)>,
    rng: &mut Rng,
    tally: &mut Tally,
) -> Result<(), String> {
    let table = TypeTable::new(parents);
    let mut lent = Lent::new(parents, rng);
    let unchanged = lent.clone();
    for (derived, base) in pairs {
        let expected = table.verdict(derived, base);
        tally.tables.verdict(parents.len(), base, &expected);
        let got = library::type_derivation_ok_by(lent.inner(), derived, base);
        if got != expected.answer {
            let (expected, got) = (type_text(expected.answer), type_text(got));
            let difference = Difference { what: "verdict on two rows".into(), expected, got };
            return Err(report::by_table(case, parents, Some((derived, base)), &difference));
        }
    }
    let Some(at) = lent.unlike(&unchanged) else { return Ok(()) };
    let (expected, got) = ("unchanged".into(), "changed".into());
    let difference = Difference { what: format!("byte {at} of the parents"), expected, got };
    Err(report::by_table(case, parents, None, &difference))
}

/// Those that are stated by hand.
pub fn known(options: &Options, tally: &mut Tally) -> Result<(), String> {
    let mut rng = Rng::new(options.seed, 3);
    let bad = known_type_tables::bad().into_iter().map(|(what, parents)| {
        let refused = |(derived, base)| (derived, base, REFUSED + TYPE_TABLE);
        (what, parents, known_type_tables::BESIDE_BAD.map(refused).to_vec())
    });
    for (what, parents, stated) in known_type_tables::good().into_iter().chain(bad) {
        let table = TypeTable::new(&parents);
        for (derived, base, stated) in &stated {
            let read = table.verdict(*derived, *base).answer;
            assert!(read == *stated, "{what}, {derived} from {base}: {read}, stated is {stated}");
            tally.tables.known += 1;
        }
        let pairs = stated.into_iter().map(|(derived, base, _)| (derived, base));
        verdicts(&format!("known table of types '{what}'"), &parents, pairs, &mut rng, tally)?;
    }
    for (parents, (derived, base, stated), decided) in known_type_tables::at_rusts_limit() {
        let read = TypeTable::new(&parents).verdict(derived, base);
        let held = read.rust.is_some_and(|walk| walk.decided == decided) && read.answer == stated;
        assert!(held, "{derived} from {base}, of {} rows: not as stated", parents.len());
        tally.tables.known += 1;
        verdicts("at the Rust's limit", &parents, [(derived, base)], &mut rng, tally)?;
    }
    Ok(())
}

/// Every small table of types.
pub fn small(options: &Options, tally: &mut Tally) -> Result<(), String> {
    let mut rng = Rng::new(options.seed, 4);
    let numbers = small_type_tables::NUMBERS;
    let pairs = || numbers.iter().flat_map(|one| numbers.map(|other| (*one, other)));
    small_type_tables::every(&mut |parents| {
        tally.tables.small += 1;
        verdicts("all small tables of types", parents, pairs(), &mut rng, tally)
    })
}

/// Random tables of types of the most rows with all pairs.
const WHOLE: u64 = 5;

/// All pairs of rows, and some numbers beyond: chains of every length about the
/// Rust's limit and of 199 links, the built-in list, some random ones of 200 rows.
pub fn whole(options: &Options, tally: &mut Tally) -> Result<(), String> {
    let lengths = (1..=37).chain([100, MOST_ROWS]);
    let mut tables: Vec<Vec<u8>> = lengths
        .flat_map(|rows| [known_type_tables::chain(rows), known_type_tables::beside(rows)])
        .collect();
    tables.push(parents().to_vec());
    for number in 0..WHOLE {
        tables.push(type_tables::of_rows(&mut Rng::new(options.seed, number), MOST_ROWS));
    }
    let mut rng = Rng::new(options.seed, 5);
    for parents in tables {
        tally.tables.whole += 1;
        let case = format!("all pairs of {} rows", parents.len());
        verdicts(&case, &parents, every_pair(parents.len()), &mut rng, tally)?;
    }
    Ok(())
}

/// Every two numbers of rows and of some others.
fn every_pair(rows: usize) -> impl Iterator<Item = (u32, u32)> {
    let rows = rows as u32;
    let every = move || (0..rows + 2).chain([255, 256, 256 + rows - 1, u32::MAX]);
    every().flat_map(move |derived| every().map(move |base| (derived, base)))
}

/// All pairs of numbers up to so many rows, and otherwise so many pairs.
const FEW_ROWS: usize = 6;
const PAIRS: usize = 24;

pub fn random(options: &Options, tally: &mut Tally) -> Result<(), String> {
    for number in 0..options.count {
        let mut rng = Rng::new(options.seed ^ (1 << 62), number);
        let parents = type_tables::good(&mut rng);
        tally.tables.random += 1;
        let case = format!("random table of types {number} of seed {}", options.seed);
        let pairs = match parents.len() {
            rows @ 0..=FEW_ROWS => every_pair(rows).collect(),
            _ => drawn_pairs(&mut rng, &parents, PAIRS),
        };
        verdicts(&case, &parents, pairs, &mut rng, tally)?;
    }
    Ok(())
}

pub fn damaged(options: &Options, tally: &mut Tally) -> Result<(), String> {
    for number in 0..options.damaged {
        let mut rng = Rng::new(!options.seed ^ (1 << 62), number);
        let mut parents = type_tables::good(&mut rng);
        type_tables::damage(&mut rng, &mut parents);
        tally.tables.damaged(&parents);
        let case = format!("damaged table of types {number} of seed {}", options.seed);
        let pairs = drawn_pairs(&mut rng, &parents, PAIRS / 3);
        verdicts(&case, &parents, pairs, &mut rng, tally)?;
    }
    Ok(())
}

fn drawn_pairs(rng: &mut Rng, parents: &[u8], count: usize) -> Vec<(u32, u32)> {
    (0..count).map(|_| type_tables::pair(rng, parents)).collect()
}

/// Compares one filling; the sheet's mark may be known.
fn compare(
    case: &str,
    bytes: &[u8],
    given: Given,
    known: Option<u32>,
    rng: &mut Rng,
) -> Result<(Filling, Option<Marks>), String> {
    let table = TypeTable::new(given.parents.expect("a table of types"));
    let expected = table.fill(bytes, given.types);
    let told = |difference| report::filling(case, bytes, given, &difference);
    let marks = check::filling(bytes, given, &expected, known, rng).map_err(told)?;
    Ok((expected, marks))
}

pub fn known_fillings(options: &Options, tally: &mut Tally) -> Result<(), String> {
    let mut rng = Rng::new(options.seed, 6);
    for (what, bytes, types, parents, stated) in known_type_tables::fillings() {
        let Filling { answer, after } = TypeTable::new(&parents).fill(&bytes, &types);
        let read = if answer == 0 { Ok(after) } else { Err(answer - REFUSED) };
        assert!(read == stated, "{what}: {read:?}, stated is {stated:?}");
        tally.tables.fillings.known += 1;
        let case = format!("known filling by a table of types '{what}'");
        let given = Given { types: &types, parents: Some(&parents) };
        compare(&case, &bytes, given, None, &mut rng)?;
    }
    Ok(())
}

pub fn small_fillings(options: &Options, tally: &mut Tally) -> Result<(), String> {
    let mut rng = Rng::new(options.seed, 7);
    small_types::every_by(&mut |bytes, types, parents| {
        tally.tables.fillings.small += 1;
        let given = Given { types, parents: Some(parents) };
        compare("all small fillings by a table of types", bytes, given, None, &mut rng).map(|_| ())
    })
}

/// A sheet with a drawn table of types, one in four damaged, and types that are
/// drawn from it before that; the sheet's mark may be known.
pub fn drawn(
    case: &str,
    bytes: &[u8],
    known: Option<u32>,
    rng: &mut Rng,
    tally: &mut Tally,
) -> Result<(), String> {
    let mut parents = type_tables::good(rng);
    let own = Types::read(&parents).expect("a good one");
    let types = types::any(rng, bytes, Among::Rows(&own));
    if rng.one_in(4) {
        type_tables::damage(rng, &mut parents);
    }
    let given = Given { types: &types, parents: Some(&parents) };
    let (filling, marks) = compare(case, bytes, given, known, rng)?;
    tally.tables.fillings.count(bytes, given, &filling, marks);
    Ok(())
}
