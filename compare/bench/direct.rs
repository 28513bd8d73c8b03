//! From a sheet's bytes straight to the particles and tables of the original,
//! from a tree's to its particle, from a chain's to its types, with no step
//! between, as a user of the original would have to do it.

use std::collections::HashMap;
use std::slice::ChunksExact;
use std::sync::Arc;

use common::bytes::short;
use common::chain;
use common::sheet::{Counts, LEAF_BYTES, MOST_LEAVES, NAME, PROCESSING};
use common::tree::{KIND, Kind, LEAF, RECORD, count, pair};
use oracle::stubs::{
    CompiledSchema, ComplexType, DerivationMethod, ElementDef, Particle, ProcessContents, TypeDef,
    Types, WildcardConstraint,
};

/// The particles and the tables of an accepted sheet.
pub fn particles(bytes: &[u8]) -> (Particle, Particle, CompiledSchema) {
    let counts = Counts::read(bytes);
    let places = counts.places();
    let leaves = &bytes[places.leaves];
    let schema = CompiledSchema {
        leaves: counts.leaves,
        first: bytes[places.first].to_vec(),
        second: bytes[places.second].to_vec(),
    };
    let derived = particle(&mut bytes[places.derived].chunks_exact(RECORD), leaves);
    let base = particle(&mut bytes[places.base].chunks_exact(RECORD), leaves);
    (derived, base, schema)
}

/// A tree or a chain says nothing of its leaves but their numbers and kinds.
const NO_LEAVES: [u8; LEAF_BYTES * MOST_LEAVES] = [0; LEAF_BYTES * MOST_LEAVES];

/// The particle of an accepted tree.
pub fn tree(bytes: &[u8]) -> Particle {
    particle(&mut bytes.chunks_exact(RECORD), &NO_LEAVES)
}

/// The types of an accepted chain, each extending the one before it; and the
/// name of the last.
pub fn types(bytes: &[u8]) -> (String, Types) {
    let name = |level: usize| format!("level{level}");
    let levels = chain::levels(bytes);
    let mut types = HashMap::new();
    for (level, own) in (1..).zip(&levels) {
        let own = (!own.is_empty()).then(|| tree(own));
        let ct = ComplexType {
            base_type: (level > 1).then(|| name(level - 1)),
            derivation: (level > 1).then_some(DerivationMethod::Extension),
            particle: own.map(Arc::new),
        };
        types.insert(name(level), TypeDef::Complex(ct));
    }
    (name(levels.len()), Types(types))
}

fn particle(records: &mut ChunksExact<u8>, leaves: &[u8]) -> Particle {
    let record = records.next().expect("a record");
    let (min, max) = pair(record);
    let items = 0..count(record);
    match Kind::EVERY[usize::from(record[KIND])] {
        Kind::Element => Particle::Element(element(record, leaves)),
        Kind::Wildcard => Particle::Wildcard(wildcard(record, leaves)),
        Kind::Sequence => {
            let items = items.map(|_| particle(records, leaves)).collect();
            Particle::Sequence { min, max, items }
        }
        Kind::Choice => {
            let items = items.map(|_| particle(records, leaves)).collect();
            Particle::Choice { min, max, items }
        }
        Kind::All => {
            let element = |_| element(records.next().expect("an element"), leaves);
            Particle::All { min, elements: items.map(element).collect() }
        }
    }
}

fn leaf<'a>(record: &[u8], leaves: &'a [u8]) -> &'a [u8] {
    let at = LEAF_BYTES * usize::from(record[LEAF]);
    &leaves[at..at + LEAF_BYTES]
}

fn element(record: &[u8], leaves: &[u8]) -> ElementDef {
    let leaf = leaf(record, leaves);
    let (min_occurs, max_occurs) = pair(record);
    let name = short(leaf, NAME).to_string();
    ElementDef { name, min_occurs, max_occurs, leaf: record[LEAF] }
}

fn wildcard(record: &[u8], leaves: &[u8]) -> WildcardConstraint {
    let process_contents = match leaf(record, leaves)[PROCESSING] {
        0 => ProcessContents::Skip,
        1 => ProcessContents::Lax,
        _ => ProcessContents::Strict,
    };
    let (min_occurs, max_occurs) = pair(record);
    WildcardConstraint { process_contents, min_occurs, max_occurs, leaf: record[LEAF] }
}
