//! Chains that are mostly refused: damaged copies of good ones. Trees are
//! damaged first, several of them at once, and the counts fit what is there;
//! then the chain's bytes are damaged as they stand.

use common::bytes::{exchange, put_short, short};
use common::chain::{self, COUNT_BYTES, LEVELS, MOST_LEVELS, count_place};
use common::random::Rng;
use common::tree::{KIND, MOST_RECORDS, RECORD};

use crate::{chains, damaged_trees, trees};

pub fn chain(rng: &mut Rng) -> Vec<u8> {
    if rng.one_in(40) {
        return noise(rng);
    }
    let drawn = chains::chain(rng);
    let mut levels: Vec<Vec<u8>> =
        chain::levels(&chain::encode(&drawn)).into_iter().map(<[u8]>::to_vec).collect();
    let (inside, after) =
        rng.pick(&[(1, 0), (1, 0), (1, 0), (2, 0), (2, 0), (3, 0), (0, 1), (0, 1), (1, 1)]);
    for _ in 0..inside {
        rng.pick(&IN_LEVELS)(rng, &mut levels);
    }
    let mut bytes = chain::write(&levels);
    for _ in 0..after {
        rng.pick(&IN_BYTES)(rng, &mut bytes);
    }
    bytes
}

/// A few bytes or none, some of them with levels and a length that fit.
fn noise(rng: &mut Rng) -> Vec<u8> {
    let mut bytes: Vec<u8> = (0..rng.below(60)).map(|_| rng.byte()).collect();
    let start = count_place(1);
    if bytes.len() > start && rng.one_in(2) {
        bytes[LEVELS] = 1;
        let records = (bytes.len() - start) / RECORD;
        put_short(&mut bytes, count_place(0), records);
        bytes.truncate(start + RECORD * records);
    }
    bytes
}

type InLevels = fn(&mut Rng, &mut Vec<Vec<u8>>);
type InBytes = fn(&mut Rng, &mut Vec<u8>);

const IN_LEVELS: [InLevels; 9] =
    [tree, tree, tree, tree, tree, string, too_long, move_record, more];

const IN_BYTES: [InBytes; 11] = [
    flip,
    overwrite,
    truncate,
    by_little,
    by_little,
    level_count,
    count,
    count,
    exchange_bytes,
    exchange_counts,
    drop_count,
];

/// Damage of a present tree, mostly leaving whole records.
fn tree(rng: &mut Rng, levels: &mut Vec<Vec<u8>>) {
    let present: Vec<usize> = (0..levels.len()).filter(|at| !levels[*at].is_empty()).collect();
    if present.is_empty() {
        return string(rng, levels);
    }
    let tree = &mut levels[rng.pick(&present)];
    for _ in 0..rng.pick(&[1, 1, 2, 3]) {
        damaged_trees::once(rng, tree);
    }
    if !rng.one_in(8) {
        tree.truncate(tree.len() / RECORD * RECORD);
    }
}

/// A damaged string in a level's place, mostly of whole records.
fn string(rng: &mut Rng, levels: &mut Vec<Vec<u8>>) {
    let mut own = damaged_trees::string(rng);
    if !rng.one_in(8) {
        own.truncate(own.len() / RECORD * RECORD);
    }
    *some(rng, levels) = own;
}

/// A tree of more records than it may have, its first one damaged or not.
fn too_long(rng: &mut Rng, levels: &mut Vec<Vec<u8>>) {
    let mut own = trees::tree_of(rng, MOST_RECORDS + 1).encode();
    own.resize(RECORD * rng.pick(&[MOST_RECORDS + 1, MOST_RECORDS + 2, 2 * MOST_RECORDS]), 0);
    if rng.one_in(2) {
        own[KIND] = rng.byte();
    }
    *some(rng, levels) = own;
}

/// The last record of a level goes to the start of the next.
fn move_record(rng: &mut Rng, levels: &mut Vec<Vec<u8>>) {
    let from = rng.below(levels.len());
    if from + 1 < levels.len() && levels[from].len() >= RECORD {
        let at = levels[from].len() - RECORD;
        let record = levels[from].split_off(at);
        levels[from + 1].splice(0..0, record);
    }
}

/// Levels until there are as many as may be, or one more.
fn more(rng: &mut Rng, levels: &mut Vec<Vec<u8>>) {
    let count = MOST_LEVELS + rng.below(2);
    while levels.len() < count {
        let own = if rng.one_in(3) { some(rng, levels).clone() } else { Vec::new() };
        levels.insert(rng.below(levels.len() + 1), own);
    }
}

fn flip(rng: &mut Rng, bytes: &mut Vec<u8>) {
    let at = rng.below(bytes.len());
    bytes[at] ^= 1 << rng.below(8);
}

fn overwrite(rng: &mut Rng, bytes: &mut Vec<u8>) {
    let at = rng.below(bytes.len());
    bytes[at] = rng.byte();
}

fn truncate(rng: &mut Rng, bytes: &mut Vec<u8>) {
    bytes.truncate(rng.below(bytes.len()));
}

/// Longer or shorter by up to two records.
fn by_little(rng: &mut Rng, bytes: &mut Vec<u8>) {
    let by = if rng.one_in(3) { RECORD } else { rng.within(1, 2 * RECORD) };
    let length = if rng.one_in(2) { bytes.len() + by } else { bytes.len().saturating_sub(by) };
    bytes.resize(length, 0);
}

fn level_count(rng: &mut Rng, bytes: &mut Vec<u8>) {
    let (near, most) = (bytes[LEVELS], MOST_LEVELS as u8);
    bytes[LEVELS] =
        rng.pick(&[0, near.wrapping_add(1), near.wrapping_sub(1), most, most + 1, 128, 255]);
}

/// Where one of the counts stands, if the chain is long enough.
fn some_count(rng: &mut Rng, bytes: &[u8]) -> Option<usize> {
    let at = count_place(rng.below(bytes[LEVELS].max(1).into()));
    (at + COUNT_BYTES <= bytes.len()).then_some(at)
}

/// A count that is unlike the level, now and then with a length that fits.
fn count(rng: &mut Rng, bytes: &mut Vec<u8>) {
    let Some(at) = some_count(rng, bytes) else { return };
    let before = usize::from(short(bytes, at));
    let near = [before + 1, before.saturating_sub(1), before | 256];
    let after = rng.pick(&[0, 255, 256, MOST_RECORDS, MOST_RECORDS + 1, 65535]);
    let after = if rng.one_in(2) { rng.pick(&near) } else { after };
    put_short(bytes, at, after);
    if rng.one_in(2) && after <= 2 * MOST_RECORDS {
        bytes.resize((bytes.len() + RECORD * after).saturating_sub(RECORD * before), 0);
    }
}

fn exchange_bytes(rng: &mut Rng, bytes: &mut Vec<u8>) {
    if let Some(at) = some_count(rng, bytes) {
        exchange(bytes, at);
    }
}

/// The counts of two levels: the trees are read in the wrong places.
fn exchange_counts(rng: &mut Rng, bytes: &mut Vec<u8>) {
    if let (Some(a), Some(b)) = (some_count(rng, bytes), some_count(rng, bytes)) {
        let (of_a, of_b) = (short(bytes, a), short(bytes, b));
        put_short(bytes, a, of_b.into());
        put_short(bytes, b, of_a.into());
    }
}

/// A level goes, but not its records.
fn drop_count(rng: &mut Rng, bytes: &mut Vec<u8>) {
    if let Some(at) = some_count(rng, bytes) {
        bytes.drain(at..at + COUNT_BYTES);
        bytes[LEVELS] = bytes[LEVELS].wrapping_sub(1);
    }
}

fn some<'a>(rng: &mut Rng, levels: &'a mut [Vec<u8>]) -> &'a mut Vec<u8> {
    &mut levels[rng.below(levels.len())]
}
