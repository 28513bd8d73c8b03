//! Byte strings that are mostly no trees: damaged copies of good ones, noise,
//! and strings of the lengths at which the reading turns.

use common::bytes::{self, number};
use common::random::Rng;
use common::sheet::MOST_LEAVES;
use common::tree::{
    self, COUNT, KIND, Kind, LEAF, MARK, MAX, MIN, MOST_RECORDS, Pair, RECORD, ZEROS, put_count,
    put_pair,
};

use crate::trees;

const LONGEST: usize = RECORD * MOST_RECORDS;
const LENGTHS: [usize; 10] = [
    0,
    1,
    RECORD - 1,
    RECORD,
    RECORD + 1,
    LONGEST - 1,
    LONGEST,
    LONGEST + 1,
    LONGEST + RECORD,
    2 * LONGEST,
];

pub fn string(rng: &mut Rng) -> Vec<u8> {
    match rng.below(80) {
        0..2 => of_length(rng),
        2..4 => of_size(rng),
        4..8 => {
            let length = rng.below(400);
            noise(rng, length)
        }
        8..30 => nearly(rng),
        _ => {
            let mut bytes = trees::tree(rng).encode();
            for _ in 0..rng.pick(&[1, 1, 1, 2, 3]) {
                once(rng, &mut bytes);
            }
            bytes
        }
    }
}

/// Damages a tree in one way.
pub fn once(rng: &mut Rng, bytes: &mut Vec<u8>) {
    rng.pick(&DAMAGES)(rng, bytes);
}

/// Zeros, noise, or a good tree cut or drawn out to a length.
fn of_length(rng: &mut Rng) -> Vec<u8> {
    let length = rng.pick(&LENGTHS);
    let mut bytes = match rng.below(3) {
        0 => Vec::new(),
        1 => noise(rng, length),
        _ => {
            let records = rng.within(1, MOST_RECORDS);
            trees::tree_of(rng, records).encode()
        }
    };
    bytes.resize(length, 0);
    bytes
}

/// Whole trees about the most records and one over, and two over.
fn of_size(rng: &mut Rng) -> Vec<u8> {
    let records = rng.within(MOST_RECORDS - 1, MOST_RECORDS + 2);
    let mut bytes = trees::tree_of(rng, records.min(MOST_RECORDS + 1)).encode();
    bytes.resize(records * RECORD, 0);
    bytes
}

fn noise(rng: &mut Rng, length: usize) -> Vec<u8> {
    (0..length).map(|_| rng.byte()).collect()
}

/// Records that are nearly good each, in no order.
fn nearly(rng: &mut Rng) -> Vec<u8> {
    let all_chance = rng.pick(&[2, 12]);
    let mut out = Vec::new();
    for _ in 0..rng.within(1, 30) {
        let kind = match rng.below(12) {
            0..5 => Kind::Element,
            5 => Kind::Wildcard,
            _ if rng.one_in(all_chance) => Kind::All,
            _ => rng.pick(&[Kind::Sequence, Kind::Choice]),
        };
        let count = if kind.is_leaf() { 0 } else { rng.pick(&[0, 1, 1, 1, 2, 2, 3]) };
        let pair = if kind == Kind::All { (1, Some(1)) } else { rng.pick(&PAIRS) };
        let mut record = tree::record(kind, count, pair);
        if kind.is_leaf() {
            record[LEAF] = rng.below(MOST_LEAVES) as u8;
        }
        if rng.one_in(20) {
            rng.pick(&RECORD_DAMAGES)(rng, &mut record);
        }
        out.extend(record);
    }
    out
}

const PAIRS: [Pair; 6] =
    [(0, Some(0)), (0, Some(1)), (1, Some(1)), (1, Some(1)), (1, None), (3, Some(65536))];

type Damage = fn(&mut Rng, &mut Vec<u8>);
type RecordDamage = fn(&mut Rng, &mut [u8]);

const DAMAGES: [Damage; 17] = [
    flip,
    overwrite,
    truncate,
    drop_last,
    append_bytes,
    append_record,
    remove,
    repeat,
    exchange,
    deepen,
    to_all,
    item_of_all,
    one_record,
    one_record,
    one_record,
    one_record,
    one_record,
];

const RECORD_DAMAGES: [RecordDamage; 11] = [
    count,
    high_count,
    exchange_count,
    mark,
    zero,
    maximum_beside_mark,
    minimum_above,
    kind,
    leaf,
    all_pair,
    pair,
];

fn flip(rng: &mut Rng, bytes: &mut Vec<u8>) {
    if !bytes.is_empty() {
        let at = rng.below(bytes.len());
        bytes[at] ^= 1 << rng.below(8);
    }
}

fn overwrite(rng: &mut Rng, bytes: &mut Vec<u8>) {
    if !bytes.is_empty() {
        let at = rng.below(bytes.len());
        bytes[at] = rng.byte();
    }
}

fn truncate(rng: &mut Rng, bytes: &mut Vec<u8>) {
    let length = rng.below(bytes.len() + 1);
    bytes.truncate(length);
}

fn drop_last(rng: &mut Rng, bytes: &mut Vec<u8>) {
    let length = bytes.len().saturating_sub(RECORD * rng.within(1, 3));
    bytes.truncate(length);
}

fn append_bytes(rng: &mut Rng, bytes: &mut Vec<u8>) {
    let length = rng.within(1, 2 * RECORD + 1);
    let more = noise(rng, length);
    bytes.extend(more);
}

fn append_record(rng: &mut Rng, bytes: &mut Vec<u8>) {
    let more = match random_record(rng, bytes) {
        Some(record) if rng.one_in(2) => record.to_vec(),
        _ => vec![0; RECORD],
    };
    bytes.extend(more);
}

fn remove(rng: &mut Rng, bytes: &mut Vec<u8>) {
    if let Some(at) = random_start(rng, bytes) {
        bytes.drain(at..at + RECORD);
    }
}

fn repeat(rng: &mut Rng, bytes: &mut Vec<u8>) {
    if let Some(at) = random_start(rng, bytes) {
        let record = bytes[at..at + RECORD].to_vec();
        bytes.splice(at..at, record);
    }
}

fn exchange(rng: &mut Rng, bytes: &mut Vec<u8>) {
    if let (Some(a), Some(b)) = (random_start(rng, bytes), random_start(rng, bytes)) {
        for k in 0..RECORD {
            bytes.swap(a + k, b + k);
        }
    }
}

/// Puts the whole tree below groups of one item, or one record of it.
fn deepen(rng: &mut Rng, bytes: &mut Vec<u8>) {
    let at = match random_start(rng, bytes) {
        Some(at) if rng.one_in(2) => at,
        _ => 0,
    };
    for _ in 0..rng.within(1, 13) {
        let kind = rng.pick(&[Kind::Sequence, Kind::Choice]);
        bytes.splice(at..at, tree::record(kind, 1, (1, Some(1))));
    }
}

/// Turns a group into an all-group, whatever its items are.
fn to_all(rng: &mut Rng, bytes: &mut Vec<u8>) {
    if let Some(at) = random_start_of(rng, bytes, |record| record[KIND] > 1) {
        let record = &mut bytes[at..at + RECORD];
        record[KIND] = Kind::All as u8;
        put_pair(record, (0, Some(1)));
    }
}

/// Makes an item of an all-group another kind than an element.
fn item_of_all(rng: &mut Rng, bytes: &mut Vec<u8>) {
    let full = |record: &[u8]| record[KIND] == Kind::All as u8 && tree::count(record) > 0;
    if let Some(at) = random_start_of(rng, bytes, full) {
        let item = at + RECORD * rng.within(1, tree::count(&bytes[at..]));
        if let Some(record) = bytes.get_mut(item..item + RECORD) {
            record[KIND] = rng.pick(&[1, 1, 2, 3, 4]);
            if record[KIND] > 1 {
                record[LEAF] = 0;
            }
        }
    }
}

fn one_record(rng: &mut Rng, bytes: &mut Vec<u8>) {
    if let Some(record) = random_record(rng, bytes) {
        rng.pick(&RECORD_DAMAGES)(rng, record);
    }
}

/// One more or one less, or any number; 65535 is one less than 0.
fn count(rng: &mut Rng, record: &mut [u8]) {
    let count = tree::count(record);
    let near = [count + 1, count.wrapping_sub(1)];
    let any = [rng.below(256), rng.next() as usize];
    put_count(record, if rng.one_in(4) { rng.pick(&any) } else { rng.pick(&near) });
}

/// The count's higher byte alone.
fn high_count(rng: &mut Rng, record: &mut [u8]) {
    record[COUNT + 1] = rng.pick(&[0, 1, 1, 2, 3, 128, 255]);
}

fn exchange_count(_: &mut Rng, record: &mut [u8]) {
    bytes::exchange(record, COUNT);
}

fn zero(rng: &mut Rng, record: &mut [u8]) {
    let place = rng.within(ZEROS.start, ZEROS.end - 1);
    record[place] = if rng.one_in(2) { rng.byte() } else { rng.pick(&[1, 128, 255]) };
}

fn mark(rng: &mut Rng, record: &mut [u8]) {
    record[MARK] = rng.pick(&[0, 1, 2, 3, 128, 255]);
}

fn maximum_beside_mark(rng: &mut Rng, record: &mut [u8]) {
    put_pair(record, (number(record, MIN), None));
    record[MAX + rng.below(4)] = rng.pick(&[1, 128, 255]);
}

fn minimum_above(rng: &mut Rng, record: &mut [u8]) {
    let max = number(record, MAX);
    let min = max.saturating_add(rng.pick(&[1, 1, 256, 65536, u32::MAX]));
    put_pair(record, (min, Some(max)));
}

fn kind(rng: &mut Rng, record: &mut [u8]) {
    record[KIND] = rng.pick(&[0, 1, 2, 3, 4, 5, 6, 255]);
}

fn leaf(rng: &mut Rng, record: &mut [u8]) {
    let most = MOST_LEAVES as u8;
    record[LEAF] = rng.pick(&[0, 1, most - 1, most, most + 1, 128, 255]);
}

fn all_pair(rng: &mut Rng, record: &mut [u8]) {
    record[KIND] = Kind::All as u8;
    record[LEAF] = 0;
    let pairs = [(0, None), (0, Some(0)), (0, Some(2)), (2, Some(1)), (1, Some(257)), (1, Some(1))];
    put_pair(record, rng.pick(&pairs));
}

fn pair(rng: &mut Rng, record: &mut [u8]) {
    put_pair(record, rng.pick(&PAIRS));
}

fn random_start(rng: &mut Rng, bytes: &[u8]) -> Option<usize> {
    let records = bytes.len() / RECORD;
    (records > 0).then(|| RECORD * rng.below(records))
}

/// Where a random one of certain records starts.
fn random_start_of(rng: &mut Rng, bytes: &[u8], wanted: impl Fn(&[u8]) -> bool) -> Option<usize> {
    let records = bytes.chunks_exact(RECORD).enumerate();
    let starts = records.filter(|(_, record)| wanted(record)).map(|(at, _)| RECORD * at);
    let starts: Vec<usize> = starts.collect();
    (!starts.is_empty()).then(|| rng.pick(&starts))
}

fn random_record<'a>(rng: &mut Rng, bytes: &'a mut [u8]) -> Option<&'a mut [u8]> {
    let at = random_start(rng, bytes)?;
    Some(&mut bytes[at..at + RECORD])
}
