//! The leaves of a random sheet, and the verdicts on them.

use common::random::Rng;
use common::sheet::Leaf;

/// Local name numbers, of which a sheet uses so many from the start: few, so
/// that all-groups match; some differ in one byte only.
const NAMES: [u16; 8] = [7, 263, 8, 65535, 0, 1, 519, 65280];

/// What a leaf list and two tables say: a sheet without its trees.
pub struct Paper {
    pub leaves: Vec<Leaf>,
    pub first: Vec<u8>,
    pub second: Vec<u8>,
}

pub fn paper(rng: &mut Rng, count: usize) -> Paper {
    let leaves = leaves(rng, count);
    over(rng, leaves)
}

/// Tables over these leaves.
pub fn over(rng: &mut Rng, leaves: Vec<Leaf>) -> Paper {
    let first = table(rng, leaves.len());
    let second = table(rng, leaves.len());
    Paper { leaves, first, second }
}

pub fn leaves(rng: &mut Rng, count: usize) -> Vec<Leaf> {
    let wildcards_in_10 = if rng.one_in(30) { 10 } else { rng.pick(&[0, 1, 2, 2, 3, 5]) };
    let names = rng.pick(&[1, 2, 2, 3, 5, 8, 64]);
    let leaf = |place| {
        if rng.below(10) < wildcards_in_10 {
            Leaf::wildcard(rng.below(3) as u8)
        } else if names > NAMES.len() {
            Leaf::element(255 * place as u16)
        } else {
            Leaf::element(NAMES[rng.below(names)])
        }
    };
    (0..count).map(leaf).collect()
}

/// Makes about one verdict in four undecided.
pub fn open(rng: &mut Rng, first: &mut [u8], second: &mut [u8]) {
    for verdict in first.iter_mut().chain(second) {
        if rng.one_in(4) {
            *verdict = 1;
        }
    }
}

/// From all ok to nearly all failing, with and without undecided verdicts;
/// on the diagonal mostly ok.
fn table(rng: &mut Rng, count: usize) -> Vec<u8> {
    let failing = rng.pick(&[0, 0, 5, 20, 50, 80, 100]);
    let undecided = rng.pick(&[0, 0, 0, 3, 10, 30]);
    let spared_diagonal = !rng.one_in(6);
    let verdict = |at| {
        if spared_diagonal && at / count == at % count && !rng.one_in(30) {
            0
        } else if rng.below(100) < undecided {
            1
        } else if rng.below(100) < failing {
            140 + rng.below(13) as u8
        } else {
            0
        }
    };
    (0..count * count).map(verdict).collect()
}
