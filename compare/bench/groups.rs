//! The groups of sheets that are measured: random ones by size, from the seeded
//! generator, and those whose marking is long, at several sizes.

use std::ops::RangeInclusive;

use cases::limits;
use common::random::Rng;
use common::sheet::Sheet;
use common::tree::{Kind, MOST_RECORDS};
use draw::sheets::{self, Size};

use crate::families::{self, SIZES};
use crate::{wide, worst};

/// A group, and how its sheets are chosen.
pub struct Group {
    pub name: String,
    choice: Choice,
    /// The family that it belongs to, and the records of its trees.
    pub family: Option<(&'static str, usize)>,
}

enum Choice {
    /// So many of the generator's sheets of this size, that have so many
    /// leaves, and so many records in each tree.
    Drawn(usize, Size, RangeInclusive<usize>, RangeInclusive<usize>),
    /// One whose marking is long.
    Long(Sheet),
    /// A group of each kind, of so many elements, against a wildcard: the rule
    /// that asks for the total range.
    Wide(usize),
}

pub fn every() -> Vec<Group> {
    let mut out = vec![
        drawn("small", 2000, Size::Small, 1..=7, 1..=8),
        drawn("middle", 500, Size::Any, 1..=24, 20..=60),
        drawn("large", 200, Size::Between(128, 255), 25..=64, 128..=255),
        drawn("few leaves", 200, Size::Between(128, 255), 1..=7, 128..=255),
        drawn("many leaves", 1000, Size::Any, 25..=64, 1..=8),
        drawn("any", 2000, Size::Any, 1..=64, 1..=1000),
        drawn("700 records", 60, Size::Between(600, 800), 1..=64, 600..=800),
        drawn("1000 records", 60, Size::Between(900, 1000), 1..=64, 900..=1000),
        Group { name: "wide, wildcard".into(), choice: Choice::Wide(254), family: None },
        Group {
            name: "widest, wildcard".into(),
            choice: Choice::Wide(MOST_RECORDS - 1),
            family: None,
        },
        long("worst", limits::longest(254)),
        long("worst, undecided", worst::chain(254, Kind::Choice, 1, (1, 1))),
        long("worst, sequences", worst::chain(254, Kind::Sequence, 1, (1, 1))),
        long("worst, wide", worst::chain(20, Kind::Choice, 240, (1, 1))),
        long("worst, failing", worst::chain(2, Kind::Choice, 240, (140, 140))),
        long("worst, own pairs", worst::chain(254, Kind::Choice, 240, (0, 1))),
    ];
    for family in families::every() {
        out.extend(SIZES.map(|records| {
            let name = format!("{}, {records} records", family.name);
            let choice = Choice::Long(family.sheet(records));
            Group { name, choice, family: Some((family.name, records)) }
        }));
    }
    out
}

fn long(name: &str, sheet: Sheet) -> Group {
    Group { name: name.into(), choice: Choice::Long(sheet), family: None }
}

fn drawn(
    name: &str,
    count: usize,
    size: Size,
    leaves: RangeInclusive<usize>,
    records: RangeInclusive<usize>,
) -> Group {
    Group { name: name.into(), choice: Choice::Drawn(count, size, leaves, records), family: None }
}

impl Group {
    pub fn sheets(&self, seed: u64) -> Vec<Sheet> {
        match &self.choice {
            Choice::Long(sheet) => vec![sheet.clone()],
            Choice::Wide(elements) => {
                let sheet = |kind| wide::sheet(kind, *elements);
                [Kind::Sequence, Kind::Choice, Kind::All].map(sheet).to_vec()
            }
            Choice::Drawn(count, size, leaves, records) => {
                let fits = |sheet: &Sheet| {
                    leaves.contains(&sheet.leaves.len())
                        && records.contains(&sheet.derived.records())
                        && records.contains(&sheet.base.records())
                };
                let drawn = |case| sheets::sheet(&mut Rng::new(seed, case), *size);
                (0..).map(drawn).filter(fits).take(*count).collect()
            }
        }
    }
}
