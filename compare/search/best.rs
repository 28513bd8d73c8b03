//! The worst shape of each family, by time and by entries. A family is told by
//! what the tidied trees look like, so that the list of the worst is not ten
//! times the same, and the search does not forget the others over one.

use std::collections::BTreeMap;

use common::random::Rng;
use common::sheet::Sheet;
use common::tree::{MOST_DEPTH, Tree};
use entries::tidied;
use shapes::{ONCE, Shape};

use crate::measure::Measured;

/// So many of one stem may be listed.
const ALIKE: usize = 2;

/// By what shapes are ranked.
pub type Score = fn(&Measured) -> f64;

pub fn by_time(measured: &Measured) -> f64 {
    measured.time
}

pub fn by_entries(measured: &Measured) -> f64 {
    measured.entries as f64
}

/// A tidied tree in short: how deep most of its leaves stand, up to 4, whether it
/// has more groups than a chain, the leaves' kind, and whether they have another
/// pair than (1,1); the kinds of their group and of the root, and of the groups
/// below the root, a bit each.
#[derive(Debug, Clone, Copy, PartialEq, Eq, PartialOrd, Ord)]
struct Short {
    depth: usize,
    many_groups: bool,
    leaf: u8,
    own_pairs: bool,
    group: u8,
    root: u8,
    inner: u8,
}

/// The derived and the base tree in short.
#[derive(Debug, Clone, Copy, PartialEq, Eq, PartialOrd, Ord)]
pub struct Family(Short, Short);

/// What families have in common that are much alike.
type Stem = [(usize, bool); 2];

impl Family {
    pub fn of(sheet: &Sheet) -> Family {
        Family(short(&sheet.derived), short(&sheet.base))
    }

    fn stem(&self) -> Stem {
        [&self.0, &self.1].map(|short| (short.depth, short.many_groups))
    }
}

fn short(tree: &Tree) -> Short {
    let tree = tidied(tree);
    let root = tree.kind as u8;
    let mut survey = Survey::default();
    survey.below(&tree, 2);
    let most = survey.leaves.into_iter().max_by_key(|(_, count)| *count);
    let (depth, leaf, own_pairs, group) = most.map_or((1, root, false, root), |(most, _)| most);
    let many_groups = survey.groups > MOST_DEPTH;
    Short { depth, many_groups, leaf, own_pairs, group, root, inner: survey.kinds }
}

/// What a tree has below its root: the leaves by depth, kind, pair and group, and
/// the number and the kinds of groups. One without items is a leaf of its own
/// kind.
#[derive(Default)]
struct Survey {
    leaves: BTreeMap<(usize, u8, bool, u8), usize>,
    groups: usize,
    kinds: u8,
}

impl Survey {
    fn below(&mut self, tree: &Tree, depth: usize) {
        for item in &tree.items {
            if item.items.is_empty() {
                let key = (depth.min(4), item.kind as u8, item.pair != ONCE, tree.kind as u8);
                *self.leaves.entry(key).or_default() += 1;
            } else {
                self.groups += 1;
                self.kinds |= 1 << item.kind as u8;
                self.below(item, depth + 1);
            }
        }
    }
}

/// A place below `end`, one of the first eighth in half of the draws.
fn low(rng: &mut Rng, end: usize) -> usize {
    let part = rng.below(1000) as f64 / 1000.0;
    (part.powi(3) * end as f64) as usize
}

pub struct Best {
    pub score: Score,
    families: BTreeMap<Family, Measured>,
}

impl Best {
    pub fn new(score: Score) -> Best {
        Best { score, families: BTreeMap::new() }
    }

    /// The worst of a family so far.
    pub fn of(&self, family: &Family) -> Option<&Measured> {
        self.families.get(family)
    }

    pub fn put(&mut self, family: Family, measured: &Measured) {
        let held = self.of(&family).map_or(-1.0, self.score);
        if (self.score)(measured) > held {
            self.families.insert(family, measured.clone());
        }
    }

    /// All of them, the worst first.
    fn ranked(&self) -> Vec<(&Family, &Measured)> {
        let mut out: Vec<(&Family, &Measured)> = self.families.iter().collect();
        out.sort_by(|a, b| (self.score)(b.1).total_cmp(&(self.score)(a.1)));
        out
    }

    /// One to go on from: any stem, and of it any family, in both mostly one of
    /// the worst.
    pub fn parent(&self, rng: &mut Rng) -> &Shape {
        let ranked = self.ranked();
        let mut stems: Vec<Stem> = Vec::new();
        for (family, _) in &ranked {
            if !stems.contains(&family.stem()) {
                stems.push(family.stem());
            }
        }
        let stem = stems[low(rng, stems.len())];
        let of_stem: Vec<_> = ranked.iter().filter(|(family, _)| family.stem() == stem).collect();
        &of_stem[low(rng, of_stem.len())].1.shape
    }

    /// The worst, with few of the same stem.
    pub fn worst(&self, count: usize) -> Vec<Measured> {
        let mut stems: BTreeMap<Stem, usize> = BTreeMap::new();
        let few = |(family, _): &(&Family, &Measured)| {
            let alike = stems.entry(family.stem()).or_default();
            *alike += 1;
            *alike <= ALIKE
        };
        let listed = self.ranked().into_iter().filter(few).take(count);
        listed.map(|(_, measured)| measured.clone()).collect()
    }
}
