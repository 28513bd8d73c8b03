//! Sheets that are mostly refused: damaged copies of good ones. Bodies are
//! damaged first, several of them at once, and the contents count what is
//! there; then the sheet's bytes are damaged as they stand.

use common::bytes::{exchange, put_short, short};
use common::random::Rng;
use common::sheet::{
    BASE, Bodies, CONTENTS, Counts, DERIVED, LEAF_BYTES, LEAF_KIND, LEAVES, MOST_LEAVES, NAME,
    PROCESSING, Sheet, TOTAL, ZERO,
};
use common::tree::{KIND, LEAF, MOST_RECORDS, RECORD};

use crate::sheets::{self, Size};
use crate::{cost, damaged_trees};

pub fn sheet(rng: &mut Rng) -> Vec<u8> {
    loop {
        let bytes = draw(rng);
        if second::sheet::first_refusal(&bytes).is_some() {
            return bytes;
        }
        let sheet = Sheet::decode(&bytes);
        if cost::is_small(&sheet.derived, &sheet.base) {
            return bytes;
        }
    }
}

fn draw(rng: &mut Rng) -> Vec<u8> {
    if rng.one_in(40) {
        return noise(rng);
    }
    let size = if rng.one_in(8) { Size::Any } else { Size::Small };
    let mut bodies = Bodies::split(&sheets::sheet(rng, size).encode());
    let (inside, after) =
        rng.pick(&[(1, 0), (1, 0), (1, 0), (2, 0), (2, 0), (3, 0), (0, 1), (1, 1)]);
    for _ in 0..inside {
        rng.pick(&IN_BODIES)(rng, &mut bodies);
    }
    let mut bytes = bodies.join();
    for _ in 0..after {
        rng.pick(&IN_BYTES)(rng, &mut bytes);
    }
    bytes
}

/// A few bytes, some of them with contents that ask for so many.
fn noise(rng: &mut Rng) -> Vec<u8> {
    let mut bytes: Vec<u8> = (0..rng.below(60)).map(|_| rng.byte()).collect();
    if bytes.len() >= CONTENTS && rng.one_in(2) {
        Counts { leaves: 1, derived: 1, base: 1 }.put(&mut bytes);
        bytes[ZERO] = 0;
        reframe(&mut bytes);
    }
    bytes
}

type InBodies = fn(&mut Rng, &mut Bodies);
type InBytes = fn(&mut Rng, &mut Vec<u8>);

const IN_BODIES: [InBodies; 12] = [
    bad_leaf,
    bad_leaf,
    other_leaf,
    bad_verdict,
    bad_verdict,
    other_verdict,
    |rng, bodies| tree(rng, &mut bodies.base),
    |rng, bodies| tree(rng, &mut bodies.base),
    |rng, bodies| tree(rng, &mut bodies.derived),
    |rng, bodies| tree(rng, &mut bodies.derived),
    |rng, bodies| leaf_number(rng, &bodies.leaves, &mut bodies.base),
    |rng, bodies| leaf_number(rng, &bodies.leaves, &mut bodies.derived),
];

const IN_BYTES: [InBytes; 13] = [
    flip,
    flip,
    overwrite,
    truncate,
    append,
    leaf_count,
    record_count,
    record_count,
    exchange_bytes,
    exchange_counts,
    zero,
    total,
    other_counts,
];

/// A field of a leaf that the leaf may not have.
fn bad_leaf(rng: &mut Rng, bodies: &mut Bodies) {
    let leaf = some_part(rng, &mut bodies.leaves, LEAF_BYTES);
    match rng.below(4) {
        0 => leaf[LEAF_KIND] = rng.pick(&[2, 3, 128, 255]),
        1 => leaf[PROCESSING] = rng.pick(&[1, 3, 4, 255]),
        2 => (leaf[LEAF_KIND], leaf[NAME]) = (1, 1),
        _ => (leaf[LEAF_KIND], leaf[NAME + 1]) = (1, rng.byte()),
    }
}

/// Another good leaf, now and then of the other kind.
fn other_leaf(rng: &mut Rng, bodies: &mut Bodies) {
    let leaf = some_part(rng, &mut bodies.leaves, LEAF_BYTES);
    if rng.one_in(3) {
        leaf[LEAF_KIND] ^= 1;
    }
    let is_element = leaf[LEAF_KIND] == 0;
    leaf[PROCESSING] = if is_element { 0 } else { rng.below(3) as u8 };
    leaf[NAME] = if is_element { rng.byte() } else { 0 };
    leaf[NAME + 1] = 0;
}

fn bad_verdict(rng: &mut Rng, bodies: &mut Bodies) {
    let table = if rng.one_in(2) { &mut bodies.first } else { &mut bodies.second };
    some_part(rng, table, 1)[0] = rng.pick(&[2, 3, 100, 101, 128, 139, 153, 154, 255]);
}

fn other_verdict(rng: &mut Rng, bodies: &mut Bodies) {
    let table = if rng.one_in(2) { &mut bodies.first } else { &mut bodies.second };
    some_part(rng, table, 1)[0] = rng.pick(&[0, 1, 140, 152]);
}

/// Damage of a tree alone, mostly leaving whole records.
fn tree(rng: &mut Rng, tree: &mut Vec<u8>) {
    for _ in 0..rng.pick(&[1, 1, 2, 3]) {
        damaged_trees::once(rng, tree);
    }
    if !rng.one_in(8) {
        tree.truncate(tree.len() / RECORD * RECORD);
    }
}

/// A leaf number that is too large by little, or of the other kind.
fn leaf_number(rng: &mut Rng, leaves: &[u8], tree: &mut [u8]) {
    let count = leaves.len() / LEAF_BYTES;
    if tree.len() >= RECORD {
        let record = some_part(rng, tree, RECORD);
        match rng.below(3) {
            0 => record[LEAF] = count as u8,
            1 => record[LEAF] = rng.below(count) as u8,
            _ => record[KIND] ^= 1,
        }
    }
}

fn flip(rng: &mut Rng, bytes: &mut Vec<u8>) {
    some_part(rng, bytes, 1)[0] ^= 1 << rng.below(8);
}

fn overwrite(rng: &mut Rng, bytes: &mut Vec<u8>) {
    some_part(rng, bytes, 1)[0] = rng.byte();
}

fn truncate(rng: &mut Rng, bytes: &mut Vec<u8>) {
    let length = if rng.one_in(2) { bytes.len() - 1 } else { rng.below(bytes.len()) };
    bytes.truncate(length);
}

fn append(rng: &mut Rng, bytes: &mut Vec<u8>) {
    for _ in 0..rng.pick(&[1, 1, 2, RECORD]) {
        let byte = if rng.one_in(2) { 0 } else { rng.byte() };
        bytes.push(byte);
    }
}

/// A leaf count that is out of its range or unlike the bodies.
fn leaf_count(rng: &mut Rng, bytes: &mut Vec<u8>) {
    bytes[LEAVES] = near(rng, bytes[LEAVES].into(), MOST_LEAVES) as u8;
}

/// A record count of this kind.
fn record_count(rng: &mut Rng, bytes: &mut Vec<u8>) {
    let place = rng.pick(&[DERIVED, BASE]);
    let count = near(rng, short(bytes, place).into(), MOST_RECORDS);
    put_short(bytes, place, count);
}

/// One more or one less than a count, or a number about the least and the most.
fn near(rng: &mut Rng, count: usize, most: usize) -> usize {
    rng.pick(&[count + 1, count.saturating_sub(1), 0, 1, 2, most, most + 1, 255, 256, count + 256])
}

/// Of a record count or of the total.
fn exchange_bytes(rng: &mut Rng, bytes: &mut Vec<u8>) {
    exchange(bytes, rng.pick(&[DERIVED, BASE, TOTAL]));
}

/// The total is the same: the trees are read in the wrong places.
fn exchange_counts(_: &mut Rng, bytes: &mut Vec<u8>) {
    let Counts { leaves, derived, base } = Counts::read(bytes);
    Counts { leaves, derived: base, base: derived }.put(bytes);
}

fn zero(rng: &mut Rng, bytes: &mut Vec<u8>) {
    bytes[ZERO] = if rng.one_in(2) { rng.byte() } else { rng.pick(&[1, 128, 255]) };
}

fn total(rng: &mut Rng, bytes: &mut Vec<u8>) {
    let place = TOTAL + rng.below(2);
    bytes[place] = bytes[place].wrapping_add(rng.pick(&[1, 255, 128]));
}

/// Other counts with the total and length that they ask for: the bodies are
/// read in the wrong places.
fn other_counts(rng: &mut Rng, bytes: &mut Vec<u8>) {
    let mut counts = Counts::read(bytes);
    match rng.below(3) {
        0 => counts.leaves = near(rng, counts.leaves, MOST_LEAVES) % 256,
        1 => counts.derived = near(rng, counts.derived, MOST_RECORDS),
        _ => counts.base = near(rng, counts.base, MOST_RECORDS),
    }
    counts.put(bytes);
    reframe(bytes);
}

/// Sets total and length to what the counts ask for.
fn reframe(bytes: &mut Vec<u8>) {
    let length = Counts::read(bytes).places().base.end;
    bytes.resize(length, 0);
    put_short(bytes, TOTAL, length);
}

/// One of the parts of so many bytes; there is one.
fn some_part<'a>(rng: &mut Rng, bytes: &'a mut [u8], length: usize) -> &'a mut [u8] {
    let at = length * rng.below(bytes.len() / length);
    &mut bytes[at..at + length]
}
