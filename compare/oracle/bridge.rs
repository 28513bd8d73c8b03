//! From a tree to the oracle's particle, and back; from a sheet to its mark;
//! from a chain to its joined tree; from two types' names to their verdict.

use std::collections::HashMap;
use std::sync::Arc;

use common::sheet::Sheet;
use common::tree::{Kind, Tree};

use crate::doors;
use crate::reasons::Mark;
use crate::stubs::{
    CompiledSchema, ComplexType, DerivationMethod, ElementDef, Particle, ProcessContents, TypeDef,
    TypedElement, Types, WildcardConstraint,
};

/// What a sheet says of its leaves, by leaf number. A tree alone needs none of
/// it: see `Leaves::none`.
pub struct Leaves {
    /// Local name number of each, as text.
    pub names: Vec<String>,
    pub processing: Vec<ProcessContents>,
}

impl Leaves {
    pub fn none() -> Leaves {
        Leaves { names: Vec::new(), processing: Vec::new() }
    }

    pub fn of(sheet: &Sheet) -> Leaves {
        const PROCESSING: [ProcessContents; 3] =
            [ProcessContents::Skip, ProcessContents::Lax, ProcessContents::Strict];
        let processing = |number: u8| PROCESSING[usize::from(number)];
        Leaves {
            names: sheet.leaves.iter().map(|leaf| leaf.name.to_string()).collect(),
            processing: sheet.leaves.iter().map(|leaf| processing(leaf.processing)).collect(),
        }
    }

    pub fn particle(&self, tree: &Tree) -> Particle {
        let (min, max) = tree.pair;
        let items = || tree.items.iter().map(|item| self.particle(item)).collect();
        match tree.kind {
            Kind::Element => Particle::Element(self.element(tree)),
            Kind::Wildcard => Particle::Wildcard(self.wildcard(tree)),
            Kind::Sequence => Particle::Sequence { min, max, items: items() },
            Kind::Choice => Particle::Choice { min, max, items: items() },
            Kind::All => Particle::All {
                min,
                elements: tree.items.iter().map(|item| self.element(item)).collect(),
            },
        }
    }

    fn element(&self, tree: &Tree) -> ElementDef {
        assert!(tree.kind == Kind::Element);
        ElementDef {
            name: self.names.get(usize::from(tree.leaf)).cloned().unwrap_or_default(),
            min_occurs: tree.pair.0,
            max_occurs: tree.pair.1,
            leaf: tree.leaf,
        }
    }

    fn wildcard(&self, tree: &Tree) -> WildcardConstraint {
        let processing = self.processing.get(usize::from(tree.leaf));
        WildcardConstraint {
            process_contents: processing.copied().unwrap_or(ProcessContents::Skip),
            min_occurs: tree.pair.0,
            max_occurs: tree.pair.1,
            leaf: tree.leaf,
        }
    }
}

/// The oracle's mark of a sheet.
pub fn mark(sheet: &Sheet) -> Mark {
    let leaves = Leaves::of(sheet);
    let schema = CompiledSchema {
        leaves: sheet.leaves.len(),
        first: sheet.first.clone(),
        second: sheet.second.clone(),
    };
    doors::mark(&leaves.particle(&sheet.derived), &leaves.particle(&sheet.base), &schema)
}

/// The oracle's content of the last type of a chain; nothing is 'no content'.
pub fn effective_particle(chain: &[Option<Tree>]) -> Option<Tree> {
    let (last, types) = types(chain);
    let Some(TypeDef::Complex(last)) = types.get_type(&last) else { panic!("no level") };
    doors::effective_particle(last, &types).as_ref().map(tree)
}

/// The types of a chain, root type first, each extending the one before it;
/// and the name of the last.
pub fn types(chain: &[Option<Tree>]) -> (String, Types) {
    let name = |level: usize| format!("level{level}");
    let mut types = HashMap::new();
    for (level, own) in (1..).zip(chain) {
        let extends = level > 1;
        let ct = ComplexType {
            base_type: extends.then(|| name(level - 1)),
            derivation: extends.then_some(DerivationMethod::Extension),
            particle: own.as_ref().map(|own| Arc::new(Leaves::none().particle(own))),
        };
        types.insert(name(level), TypeDef::Complex(ct));
    }
    (name(chain.len()), Types(types))
}

/// The oracle's verdict on elements of these two types, in a schema that defines
/// no type itself.
pub fn type_derivation_ok(derived: &str, base: &str) -> Mark {
    type_derivation_ok_in(&Types(HashMap::new()), derived, base)
}

/// The same in a schema that has these types.
pub fn type_derivation_ok_in(types: &Types, derived: &str, base: &str) -> Mark {
    let element = |name: &str, of: &str| TypedElement {
        name: name.into(),
        type_ref: Some(of.into()),
        inline_type: None,
    };
    doors::type_derivation_ok(&element("0", derived), &element("1", base), types)
}

/// The tree of a particle.
pub fn tree(particle: &Particle) -> Tree {
    let element = |e: &ElementDef| Tree::leaf(Kind::Element, e.leaf, (e.min_occurs, e.max_occurs));
    let trees = |items: &[Particle]| items.iter().map(tree).collect();
    match particle {
        Particle::Element(e) => element(e),
        Particle::Wildcard(w) => Tree::leaf(Kind::Wildcard, w.leaf, (w.min_occurs, w.max_occurs)),
        Particle::Sequence { min, max, items } => {
            Tree::group(Kind::Sequence, (*min, *max), trees(items))
        }
        Particle::Choice { min, max, items } => {
            Tree::group(Kind::Choice, (*min, *max), trees(items))
        }
        Particle::All { min, elements } => {
            Tree::group(Kind::All, (*min, Some(1)), elements.iter().map(element).collect())
        }
    }
}
