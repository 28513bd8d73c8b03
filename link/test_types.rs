//! Tests of types.rs, `type_derivation_ok` and `fill_types`: each name, the verdict
//! for every two types, numbers that the list does not have, every byte of a filled
//! sheet and around it, each refusal.

use crate::marker::{fill_types, mark, type_derivation_ok, Mark, Reason, Refusal, MOST_SHEET};
use crate::types::Type;
use crate::{element_below, once, pattern, put, record, row, sheet};
use crate::{ALL, CONTENTS_SIZE, ELEMENT, LEAF_SIZE, PRINTED, SEQUENCE, WILDCARD, ZERO};
use crate::{MOST_DEPTH, MOST_LEAVES, MOST_RECORDS, RECORD};

/// The chains below `anySimpleType`, each from its top; a type that stands in none is
/// derived from itself alone.
const CHAINS: [&str; 12] = [
    "string normalizedString token language",
    "string normalizedString token NMTOKEN",
    "string normalizedString token Name NCName ID",
    "string normalizedString token Name NCName IDREF",
    "string normalizedString token Name NCName ENTITY",
    "decimal integer nonPositiveInteger negativeInteger",
    "decimal integer nonNegativeInteger unsignedLong unsignedInt unsignedShort unsignedByte",
    "decimal integer nonNegativeInteger positiveInteger",
    "decimal integer long int short byte",
    "dateTime dateTimeStamp",
    "duration dayTimeDuration",
    "duration yearMonthDuration",
];

/// The verdict for two types, by the chains.
fn by_chains(derived: Type, base: Type) -> bool {
    let follows = |chain: &str| {
        let place = |known: Type| chain.split(' ').position(|name| name == known.name());
        place(base).is_some_and(|base| place(derived).is_some_and(|derived| base <= derived))
    };
    [Type::ANY_TYPE, Type::ANY_SIMPLE_TYPE, derived].contains(&base)
        || CHAINS.iter().any(|chain| follows(chain))
}

#[test]
fn names() {
    for (number, &known) in Type::ALL.iter().enumerate() {
        assert_eq!(usize::from(known.number()), number);
        assert_eq!(Type::numbered(known.number()), Some(known));
        assert_eq!(Type::named(known.name()), Some(known));
        assert_eq!(known.to_string(), known.name());
    }
    assert_eq!(Type::ALL.len(), 50);
    assert_eq!((Type::INTEGER.number(), Type::INTEGER.name()), (34, "integer"));
    for chain in CHAINS {
        assert!(chain.split(' ').all(|name| Type::named(name).is_some()), "{chain}");
    }
    for name in ["", "in", "integers", "Integer", "integer "] {
        assert_eq!(Type::named(name), None);
    }
    for number in 50..=255 {
        assert_eq!(Type::numbered(number), None);
    }
}

#[test]
fn verdicts() {
    for &derived in Type::ALL {
        for &base in Type::ALL {
            let expected = Ok(by_chains(derived, base));
            assert_eq!(type_derivation_ok(derived, base), expected, "{derived} | {base}");
        }
    }
    assert_eq!(type_derivation_ok(Type::UNSIGNED_BYTE, Type::DECIMAL), Ok(true));
    assert_eq!(type_derivation_ok(Type::INTEGER, Type::INT), Ok(false));
    assert_eq!(type_derivation_ok(Type::ANY_TYPE, Type::ANY_SIMPLE_TYPE), Ok(true));
}

#[test]
fn unknown_numbers() {
    for unknown in [50, 51, 255, 256, 256 + 34, 65536, u32::MAX - 1, u32::MAX] {
        for &known in Type::ALL {
            assert_eq!(type_derivation_ok(unknown, known), Err(Refusal::TYPE_NUMBER));
            assert_eq!(type_derivation_ok(known, unknown), Err(Refusal::TYPE_NUMBER));
        }
        assert_eq!(type_derivation_ok(unknown, unknown), Err(Refusal::TYPE_NUMBER));
    }
}

/// What a filling makes of a sheet, within bytes that it must leave as they are.
pub fn lent_to(
    fill: impl FnOnce(&mut [u8]) -> Result<(), Refusal>,
    sheet: &[u8],
) -> Result<Vec<u8>, Refusal> {
    const GUARD: usize = 16;
    let (start, end) = (GUARD, GUARD + sheet.len());
    let mut lent = pattern(end + GUARD);
    put(&mut lent, start, sheet);
    let around = [lent[..start].to_vec(), lent[end..].to_vec()];
    let answer = fill(&mut lent[start..end]);
    assert_eq!([&lent[..start], &lent[end..]], [&around[0][..], &around[1]], "around the sheet");
    if answer.is_err() {
        assert_eq!(lent[start..end], *sheet, "nothing is written");
    }
    answer.map(|()| lent[start..end].to_vec())
}

fn filled(sheet: &[u8], types: &[u8]) -> Result<Vec<u8>, Refusal> {
    lent_to(|lent| fill_types(lent, types), sheet)
}

/// It is filled in so; and filled in again, it stays so.
fn fills(sheet: &[u8], types: &[u8], expected: &[u8]) {
    assert_eq!(filled(sheet, types).as_deref(), Ok(expected));
    assert_eq!(filled(expected, types).as_deref(), Ok(expected));
}

// The leaves of `undecided`: three elements, and a wildcard among them.
const W: usize = 1;
pub const FOUR: usize = 4;
const FIRST: usize = CONTENTS_SIZE + FOUR * LEAF_SIZE;
const SECOND: usize = FIRST + FOUR * FOUR;
const TREES: usize = SECOND + FOUR * FOUR;

/// A type for each of them.
fn good() -> [u8; FOUR] {
    [Type::INT.number(), 255, Type::INTEGER.number(), Type::STRING.number()]
}

/// What they make of a second table without a verdict.
const FILLED: [u8; FOUR * FOUR] = [
    0, 1, 0, 148, // int against int, a wildcard, integer, string
    1, 1, 1, 1, // a wildcard
    148, 1, 0, 148, // integer
    148, 1, 148, 0, // string
];

/// A sheet of these leaves, every verdict undecided.
fn undecided(derived: &[u8], base: &[u8]) -> Vec<u8> {
    let mut bytes = sheet(FOUR as u8, derived, base);
    bytes[CONTENTS_SIZE + W * LEAF_SIZE] = WILDCARD;
    bytes[FIRST..TREES].fill(1);
    bytes
}

/// a | b, with the first table ok and the second undecided.
pub fn a_and_b() -> Vec<u8> {
    let mut bytes = undecided(&once(ELEMENT, 0, 0), &once(ELEMENT, 2, 0));
    bytes[FIRST..SECOND].fill(0);
    bytes
}

#[test]
fn filled_bytes() {
    let sheet = undecided(&once(ELEMENT, 0, 0), &once(ELEMENT, 2, 0));
    let mut expected = sheet.clone();
    put(&mut expected, SECOND, &FILLED);
    for unread in 0..=255 {
        let mut types = good();
        types[W] = unread;
        fills(&sheet, &types, &expected);
    }
}

#[test]
fn every_two_types() {
    let sheet = a_and_b();
    for &derived in Type::ALL {
        for &base in Type::ALL {
            let types = [derived, Type::ANY_TYPE, base, Type::STRING];
            let mut expected = sheet.clone();
            for place in (0..FOUR * FOUR).filter(|place| place / FOUR != W && place % FOUR != W) {
                let ok = by_chains(types[place / FOUR], types[place % FOUR]);
                expected[SECOND + place] = if ok { 0 } else { 148 };
            }
            fills(&sheet, &types.map(Type::number), &expected);
        }
    }
}

#[test]
fn what_stays() {
    for set in [0, 140, 141, 147, 148, 149, 152] {
        for place in SECOND..TREES {
            let mut sheet = a_and_b();
            sheet[place] = set;
            let mut expected = sheet.clone();
            put(&mut expected, SECOND, &FILLED);
            expected[place] = set;
            fills(&sheet, &good(), &expected);
        }
        let mut sheet = a_and_b();
        sheet[SECOND..TREES].fill(set);
        fills(&sheet, &good(), &sheet);
    }
}

/// An undecided mark follows the types; a definite one stays.
#[test]
fn marks() -> Result<(), Refusal> {
    let other = [Type::INTEGER, Type::INT, Type::INT, Type::INT].map(Type::number);
    let (mut passing, mut failing) = (a_and_b(), a_and_b());
    assert_eq!(mark(&passing), Mark::Undecided);
    fill_types(&mut passing, &good())?;
    assert_eq!(mark(&passing), Mark::Passes);
    fill_types(&mut failing, &other)?;
    assert_eq!(mark(&failing).to_string(), "fails 148");
    for (sheet, types) in [(&mut passing, other), (&mut failing, good())] {
        let before = mark(sheet);
        fill_types(sheet, &types)?;
        assert_eq!(mark(sheet), before);
    }
    let mut sheet = undecided(&once(ELEMENT, 0, 0), &record(ELEMENT, 2, 0, 0, Some(0)));
    sheet[FIRST..SECOND].fill(0);
    assert_eq!(mark(&sheet), Mark::Fails(Reason::MAX_ABOVE));
    fill_types(&mut sheet, &good())?;
    assert_eq!(mark(&sheet), Mark::Fails(Reason::MAX_ABOVE));
    Ok(())
}

/// Sheets of these leaves that are refused, each with its refusal: all of them.
pub fn spoiled_sheets() -> Vec<(Vec<u8>, Refusal)> {
    let good = a_and_b();
    let lengths = [vec![], good[..good.len() - 1].to_vec(), [&good[..], &[0]].concat()];
    let mut sheets: Vec<_> = lengths.map(|sheet| (sheet, Refusal::CONTENTS)).into();
    let places = [
        (ZERO, Refusal::CONTENTS),
        (CONTENTS_SIZE, Refusal::LEAF),
        (FIRST, Refusal::VERDICT),
        (TREES - 1, Refusal::VERDICT),
    ];
    for (place, refusal) in places {
        let mut spoiled = good.clone();
        spoiled[place] = 2;
        sheets.push((spoiled, refusal));
    }
    let element = once(ELEMENT, 0, 0).to_vec();
    let trees = [
        (once(5, 0, 0).to_vec(), Refusal::BASE_FIELDS, Refusal::DERIVED_FIELDS),
        (record(ELEMENT, 0, 0, 2, Some(1)).to_vec(), Refusal::BASE_PAIR, Refusal::DERIVED_PAIR),
        (
            record(ALL, 0, 0, 0, Some(2)).to_vec(),
            Refusal::BASE_ALL_GROUP,
            Refusal::DERIVED_ALL_GROUP,
        ),
        (element_below(MOST_DEPTH), Refusal::BASE_DEPTH, Refusal::DERIVED_DEPTH),
        (once(SEQUENCE, 0, 1).to_vec(), Refusal::BASE_COUNTS, Refusal::DERIVED_COUNTS),
    ];
    for (tree, as_base, as_derived) in trees {
        sheets.push((undecided(&element, &tree), as_base));
        sheets.push((undecided(&tree, &element), as_derived));
    }
    sheets
}

/// The sheet is refused before its types are, right or wrong.
#[test]
fn refused_sheets() {
    for (sheet, refusal) in spoiled_sheets() {
        for types in [&good()[..], &[50; FOUR], &[]] {
            assert_eq!(filled(&sheet, types), Err(refusal));
        }
    }
}

/// Not a number for each leaf, or an element's that the list does not have, whether
/// or not a verdict is undecided.
#[test]
fn refused_types() {
    let mut decided = a_and_b();
    decided[SECOND..TREES].fill(0);
    for sheet in [a_and_b(), decided] {
        let longer = [&good()[..], &[0]].concat();
        for types in [&[][..], &good()[..FOUR - 1], &longer] {
            assert_eq!(filled(&sheet, types), Err(Refusal::TYPE_NUMBER));
        }
        for leaf in (0..FOUR).filter(|leaf| *leaf != W) {
            for unknown in 50..=255 {
                let mut types = good();
                types[leaf] = unknown;
                assert_eq!(filled(&sheet, &types), Err(Refusal::TYPE_NUMBER));
            }
        }
    }
    assert_eq!(filled(&PRINTED, &[0]).as_deref(), Ok(&PRINTED[..]));
    assert_eq!(filled(&PRINTED, &[]), Err(Refusal::TYPE_NUMBER));
    let words = "the examiner's mistake: a type number that the list or the table of types does \
                 not have, or not one for each leaf";
    assert_eq!(Refusal::TYPE_NUMBER.to_string(), words);
}

/// As many leaves and records as there may be; every seventh leaf is a wildcard.
#[test]
fn longest() {
    let (n, tree) = (usize::from(MOST_LEAVES), row(MOST_RECORDS));
    let mut sheet = sheet(MOST_LEAVES, &tree, &tree);
    assert_eq!(sheet.len(), MOST_SHEET);
    let second = sheet.len() - 2 * MOST_RECORDS * RECORD - n * n;
    sheet[second - n * n..second + n * n].fill(1);
    let wildcard = |leaf: usize| leaf % 7 == 3;
    for leaf in (0..n).filter(|leaf| wildcard(*leaf)) {
        sheet[CONTENTS_SIZE + leaf * LEAF_SIZE] = WILDCARD;
    }
    let types: Vec<Type> = (0..n).map(|leaf| Type::ALL[11 * leaf % Type::ALL.len()]).collect();
    let mut expected = sheet.clone();
    for place in (0..n * n).filter(|place| !wildcard(place / n) && !wildcard(place % n)) {
        let ok = by_chains(types[place / n], types[place % n]);
        expected[second + place] = if ok { 0 } else { 148 };
    }
    let mut numbers: Vec<u8> = types.iter().map(|known| known.number()).collect();
    fills(&sheet, &numbers, &expected);
    assert_eq!(filled(&sheet, &numbers[1..]), Err(Refusal::TYPE_NUMBER));
    numbers[n - 1] = 50;
    assert_eq!(filled(&sheet, &numbers), Err(Refusal::TYPE_NUMBER));
}
