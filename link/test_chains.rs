//! Tests of `effective_particle`: chains with and without content, each refusal,
//! every byte of a lent buffer.

use crate::marker::{effective_particle, Refusal};
use crate::marker::{MOST_CHAIN, MOST_LEVELS, MOST_TREE, RECORD};
use crate::{element_below, once, pattern, record, row, starting_with};
use crate::{ALL, ELEMENT, MOST_DEPTH, MOST_LEAVES, MOST_RECORDS, SEQUENCE, WILDCARD, ZEROS};

/// A chain of these levels; an empty one is absent.
fn chain(levels: &[Vec<u8>]) -> Vec<u8> {
    let mut bytes = vec![levels.len() as u8];
    for tree in levels {
        bytes.extend(((tree.len() / RECORD) as u16).to_le_bytes());
    }
    bytes.extend(levels.concat());
    bytes
}

/// A chain of so many elements, of the leaves 0, 1, ..
fn elements(count: usize) -> Vec<Vec<u8>> {
    (0..count).map(|leaf| once(ELEMENT, leaf as u8, 0).to_vec()).collect()
}

/// a + - + b + c becomes S[S[a,b],c].
#[test]
fn joining() {
    let mut levels = elements(3);
    let joined = [once(SEQUENCE, 0, 2).repeat(2), levels.concat()].concat();
    levels.insert(1, vec![]);
    let chain = chain(&levels);
    for length in [joined.len(), joined.len() + 1, MOST_TREE] {
        let mut out = pattern(length);
        assert_eq!(effective_particle(&chain, &mut out), Ok(Some(5)));
        assert_eq!(out, starting_with(&joined, length));
    }
    for length in [0, joined.len() - 1] {
        let mut out = pattern(length);
        assert_eq!(effective_particle(&chain, &mut out), Err(Refusal::BUFFER));
        assert_eq!(out, pattern(length));
    }
}

#[test]
fn one_level_or_none() {
    let tree = element_below(3);
    let lone = chain(&[vec![], tree.clone(), vec![]]);
    let mut out = pattern(tree.len() + 1);
    assert_eq!(effective_particle(&lone, &mut out), Ok(Some(4)));
    assert_eq!(out, starting_with(&tree, tree.len() + 1));
    for count in 1..=MOST_LEVELS {
        let absent = chain(&vec![vec![]; count]);
        let mut out = pattern(RECORD);
        assert_eq!(effective_particle(&absent, &mut out), Ok(None));
        assert_eq!(out, pattern(RECORD));
        assert_eq!(effective_particle(&absent, &mut []), Ok(None));
    }
}

/// The chain is refused so whatever the buffer; nothing is written.
fn refused_chain(chain: &[u8], refusal: Refusal) {
    let mut out = pattern(MOST_TREE + RECORD);
    assert_eq!(effective_particle(chain, &mut out), Err(refusal));
    assert_eq!(out, pattern(MOST_TREE + RECORD), "nothing is written");
    assert_eq!(effective_particle(chain, &mut []), Err(refusal));
}

#[test]
fn refused_chains() {
    let good = chain(&elements(2));
    refused_chain(&[], Refusal::CHAIN);
    refused_chain(&[0], Refusal::CHAIN);
    refused_chain(&[1, 0], Refusal::CHAIN);
    refused_chain(&good[..good.len() - 1], Refusal::CHAIN);
    refused_chain(&[&good[..], &[0]].concat(), Refusal::CHAIN);
    refused_chain(&chain(&elements(MOST_LEVELS + 1)), Refusal::CHAIN);
    refused_chain(&chain(&elements(MOST_DEPTH + 1)), Refusal::LIMIT);
    let mut zero_byte = once(ELEMENT, 0, 0).to_vec();
    zero_byte[ZEROS] = 1;
    let trees = [
        (once(ELEMENT, MOST_LEAVES, 0).to_vec(), Refusal::DERIVED_FIELDS),
        (zero_byte, Refusal::DERIVED_FIELDS),
        (record(ELEMENT, 0, 0, 2, Some(1)).to_vec(), Refusal::DERIVED_PAIR),
        (record(ALL, 0, 0, 0, Some(2)).to_vec(), Refusal::DERIVED_ALL_GROUP),
        (element_below(MOST_DEPTH), Refusal::DERIVED_DEPTH),
        (once(SEQUENCE, 0, 1).to_vec(), Refusal::DERIVED_COUNTS),
        (row(MOST_RECORDS + 1), Refusal::DERIVED_COUNTS),
    ];
    for (tree, refusal) in trees {
        let mut levels = elements(MOST_DEPTH);
        levels.push(tree);
        refused_chain(&chain(&levels), refusal);
        levels.push(once(WILDCARD, MOST_LEAVES, 0).to_vec());
        refused_chain(&chain(&levels), refusal);
    }
}

#[test]
fn chains_at_the_limits() {
    let mut out = vec![0; MOST_TREE];
    let mut longest = vec![vec![]; MOST_LEVELS];
    longest[MOST_LEVELS - 1] = row(MOST_RECORDS);
    let longest = chain(&longest);
    assert_eq!(longest.len(), MOST_CHAIN);
    assert_eq!(effective_particle(&longest, &mut out), Ok(Some(MOST_RECORDS)));
    assert_eq!(out, row(MOST_RECORDS));
    let (one, other) = (row(300), row(MOST_RECORDS - 1 - 300));
    let joined = effective_particle(&chain(&[one.clone(), other]), &mut out);
    assert_eq!(joined, Ok(Some(MOST_RECORDS)));
    refused_chain(&chain(&[one, row(MOST_RECORDS - 300)]), Refusal::LIMIT);
    let records = 2 * MOST_DEPTH - 1;
    assert_eq!(effective_particle(&chain(&elements(MOST_DEPTH)), &mut out), Ok(Some(records)));
}
