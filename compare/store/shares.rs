//! How many answers of each kind are stored, and the drawing that goes on until
//! they are there: without it most sheets would show a few of the reasons only.

use std::collections::{BTreeMap, HashSet};

use common::random::Rng;

use crate::case::{Case, Operation};
use crate::kind;

/// More draws than any of the shares takes.
const MOST_DRAWS: u64 = 2_000_000;

/// The rounds of drawing, no two of which make the same draws.
#[derive(Clone, Copy)]
pub enum Round {
    ShortSheets,
    OpenSheets,
    LongSheets,
    MoreSheets,
    DamagedSheets,
    DeepSheets,
    Trees,
    DamagedTrees,
    Chains,
    DamagedChains,
    UnlikeSheets,
    Fillings,
    DamagedFillings,
    TypeTables,
    FillingsByTables,
    DamagedFillingsByTables,
    TidiedTrees,
}

impl Round {
    pub fn rng(self, seed: u64, draw: u64) -> Rng {
        Rng::new(seed, ((self as u64) << 32) + draw)
    }
}

/// What has been stored, none twice.
#[derive(Default)]
pub struct Stored {
    pub cases: Vec<Case>,
    known: HashSet<Case>,
}

impl Stored {
    /// False where the case is stored already.
    pub fn add(&mut self, case: Case) -> bool {
        let new = self.known.insert(case.clone());
        if new {
            self.cases.push(case);
        }
        new
    }

    /// How many there are of each kind.
    pub fn counts(&self) -> BTreeMap<(Operation, String), usize> {
        let mut counts = BTreeMap::new();
        for case in &self.cases {
            *counts.entry((case.operation, kind::of(case))).or_default() += 1;
        }
        counts
    }

    fn of(&self, operation: Operation) -> impl Iterator<Item = &Case> {
        self.cases.iter().filter(move |case| case.operation == operation)
    }

    /// How many cases ask this entry.
    pub fn asked(&self, operation: Operation) -> usize {
        self.of(operation).count()
    }

    /// How many cases ask an entry for one tree, and over how many trees these
    /// are.
    pub fn of_trees(&self) -> (usize, usize) {
        let cases = || Operation::OF_TREE.into_iter().flat_map(|operation| self.of(operation));
        let trees: HashSet<&[u8]> = cases().map(|case| &case.input[..]).collect();
        (cases().count(), trees.len())
    }

    /// Draws so many times, and stores at most so many cases of each fine kind.
    pub fn spread(
        &mut self,
        seed: u64,
        round: Round,
        draws: u64,
        most: usize,
        draw: impl Fn(&mut Rng) -> Vec<Case>,
    ) {
        let mut counts: BTreeMap<String, usize> = BTreeMap::new();
        for case in (0..draws).flat_map(|number| draw(&mut round.rng(seed, number))) {
            let count = counts.entry(kind::finely(&case)).or_default();
            if *count < most && self.add(case) {
                *count += 1;
            }
        }
    }
}

/// How many of each kind are to be stored; a kind that is not listed is left
/// as it is.
#[derive(Default)]
pub struct Shares(BTreeMap<(Operation, String), usize>);

impl Shares {
    /// Asks for so many of each of these kinds.
    pub fn ask(
        mut self,
        operation: Operation,
        kinds: impl IntoIterator<Item = String>,
        count: usize,
    ) -> Shares {
        self.0.extend(kinds.into_iter().map(|kind| ((operation, kind), count)));
        self
    }

    /// Draws again and again and stores what is wanted until there is enough;
    /// panics where that does not come about.
    pub fn fill(
        mut self,
        stored: &mut Stored,
        seed: u64,
        round: Round,
        draw: impl Fn(&mut Rng) -> Vec<Case>,
    ) {
        let counts = stored.counts();
        self.0.retain(|kind, left| {
            *left = left.saturating_sub(counts.get(kind).copied().unwrap_or(0));
            *left > 0
        });
        for number in 0..MOST_DRAWS {
            if self.0.is_empty() {
                return;
            }
            for case in draw(&mut round.rng(seed, number)) {
                self.offer(stored, case);
            }
        }
        panic!("answers that did not come up so often: {:?}", self.0);
    }

    fn offer(&mut self, stored: &mut Stored, case: Case) {
        let kind = (case.operation, kind::of(&case));
        if let Some(left) = self.0.get_mut(&kind) {
            *left -= usize::from(stored.add(case));
            self.0.retain(|_, left| *left > 0);
        }
    }
}
