//! Tables of types (document 02 §7) of 1 to 200 rows and of several shapes, from
//! one long chain to one row above all others; damaged ones, mostly refused; and
//! pairs of numbers to ask for.

use common::random::Rng;
use second::type_table::MOST_ROWS;

/// One that is not refused.
pub fn good(rng: &mut Rng) -> Vec<u8> {
    let rows = match rng.below(8) {
        0..3 => rng.within(1, 9),
        3 => rng.within(10, 40),
        4 => rng.pick(&[33, 34, 35, MOST_ROWS - 1]),
        5 => MOST_ROWS,
        _ => rng.within(1, MOST_ROWS),
    };
    of_rows(rng, rows)
}

pub fn of_rows(rng: &mut Rng, rows: usize) -> Vec<u8> {
    let parent = rng.pick(&SHAPES);
    (0..rows).map(|row| if row < 2 { 0 } else { parent(rng, row) as u8 }).collect()
}

/// A parent for each row from 2 on, some row before it.
type Shape = fn(&mut Rng, usize) -> usize;

const SHAPES: [Shape; 9] = [
    |rng, row| rng.below(row),
    |rng, row| rng.below(row),
    // One chain below row 1, or beside it.
    |_, row| row - 1,
    |_, row| if row == 2 { 0 } else { row - 1 },
    // A chain with short ways off it.
    |rng, row| row - 1 - rng.pick(&[0, 0, 0, 0, 0, 0, 0, 1]),
    // Chains side by side.
    |_, row| row.saturating_sub(3),
    // Two rows below each.
    |_, row| row / 2,
    // All below row 1, or below the first rows.
    |_, _| 1,
    |rng, row| rng.below(row.min(5)),
];

/// Damages a good one, in one place or in several; a change that it has no row
/// for does nothing.
pub fn damage(rng: &mut Rng, parents: &mut Vec<u8>) {
    for _ in 0..rng.pick(&[1, 1, 1, 2, 3]) {
        rng.pick(&DAMAGES)(rng, parents);
    }
}

type Damage = fn(&mut Rng, &mut Vec<u8>);

const DAMAGES: [Damage; 10] = [
    |_, parents| parents.clear(),
    |rng, parents| lengthen(rng, parents, MOST_ROWS + 1),
    more_rows,
    row_zero,
    |_, parents| put(parents, 1, 1),
    row_one,
    itself,
    further_down,
    beyond,
    any_byte,
];

/// Many more rows, also as many as have a good number in their lowest byte.
fn more_rows(rng: &mut Rng, parents: &mut Vec<u8>) {
    let rows = match rng.below(8) {
        0..5 => rng.pick(&[MOST_ROWS + 2, 255, 256, 257, 300, 1000]),
        5 => 256 + parents.len(),
        6 => 512 + rng.within(1, MOST_ROWS),
        _ => rng.within(MOST_ROWS + 2, 700),
    };
    lengthen(rng, parents, rows);
}

/// Adds rows, each with an earlier parent.
fn lengthen(rng: &mut Rng, parents: &mut Vec<u8>, rows: usize) {
    let as_chain = rng.one_in(2);
    for row in parents.len()..rows {
        let parent = match row {
            0 | 1 => 0,
            _ if as_chain => row - 1,
            _ => rng.below(row),
        };
        parents.push(parent.min(255) as u8);
    }
}

fn row_zero(rng: &mut Rng, parents: &mut Vec<u8>) {
    let some = rng.within(1, 255);
    put(parents, 0, rng.pick(&[1, 2, 255, some]));
}

/// Another parent than 0 and 1.
fn row_one(rng: &mut Rng, parents: &mut Vec<u8>) {
    let some = rng.within(2, 255);
    put(parents, 1, rng.pick(&[2, 3, 255, some]));
}

fn itself(rng: &mut Rng, parents: &mut Vec<u8>) {
    let row = later_row(rng, parents);
    put(parents, row, row);
}

/// A parent that comes after the row, the next one or any.
fn further_down(rng: &mut Rng, parents: &mut Vec<u8>) {
    let row = later_row(rng, parents);
    if row + 1 < parents.len() {
        let some = rng.within(row + 1, parents.len() - 1);
        put(parents, row, rng.pick(&[row + 1, some]));
    }
}

fn beyond(rng: &mut Rng, parents: &mut Vec<u8>) {
    let row = later_row(rng, parents);
    let rows = parents.len().min(255);
    let some = rng.within(rows, 255);
    put(parents, row, rng.pick(&[rows, 255, some]));
}

fn any_byte(rng: &mut Rng, parents: &mut Vec<u8>) {
    let row = rng.below(parents.len().max(1));
    put(parents, row, rng.byte().into());
}

/// The first row, the last one or any, from row 2 on.
fn later_row(rng: &mut Rng, parents: &[u8]) -> usize {
    let last = parents.len().max(3) - 1;
    let some = rng.within(2, last);
    rng.pick(&[2, last, some])
}

/// A parent that is too large becomes 255.
fn put(parents: &mut [u8], row: usize, parent: usize) {
    if let Some(own) = parents.get_mut(row) {
        *own = parent.min(255) as u8;
    }
}

/// A derived number and a base's: mostly rows, and then often one above the
/// other.
pub fn pair(rng: &mut Rng, parents: &[u8]) -> (u32, u32) {
    let rows = parents.len();
    let derived = rng.below(rows.max(1));
    let base = match rng.below(8) {
        0..2 => rng.below(rows.max(1)),
        2 => rng.below(3),
        3 => derived,
        4 => above(rng, parents, derived) + 1,
        _ => above(rng, parents, derived),
    };
    let numbers = match rng.below(16) {
        0 => (no_row(rng, rows), base),
        1 => (derived, no_row(rng, rows)),
        2 => (base, derived),
        _ => (derived, base),
    };
    (numbers.0 as u32, numbers.1 as u32)
}

/// A row so many links up, or the last one below rows 0 and 1.
fn above(rng: &mut Rng, parents: &[u8], row: usize) -> usize {
    let some = rng.below(MOST_ROWS);
    let links = rng.pick(&[1, 1, 2, 3, 30, 31, 32, 33, some, some]);
    (0..links).fold(row, |row, _| match parents.get(row) {
        Some(2..) => parents[row].into(),
        _ => row,
    })
}

/// A number that is no row's; the lowest bits of some are.
fn no_row(rng: &mut Rng, rows: usize) -> usize {
    let low = rng.below(rows.max(1));
    let large = u32::MAX as usize;
    let some = rng.within(rows, large);
    rng.pick(&[
        rows,
        rows,
        rows + 1,
        255,
        256,
        256 + low,
        65536 + low,
        (1 << 31) + low,
        large,
        some,
    ])
}
