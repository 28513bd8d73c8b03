//! Stand-ins for the types that the original functions work on. The fields are
//! those that the used functions need, and what ties a particle to a sheet: a
//! leaf number on each leaf, and the two verdict tables in the schema.

use std::collections::HashMap;
use std::sync::Arc;

/// An element declaration: its name is the local name number, written out.
#[derive(Debug, Clone)]
pub struct ElementDef {
    pub name: String,
    pub min_occurs: u32,
    /// `None` is unbounded, as everywhere below.
    pub max_occurs: Option<u32>,
    pub leaf: u8,
}

#[derive(Debug, Clone)]
pub struct WildcardConstraint {
    pub process_contents: ProcessContents,
    pub min_occurs: u32,
    pub max_occurs: Option<u32>,
    pub leaf: u8,
}

#[derive(Debug, Clone, Copy, PartialEq, Eq)]
pub enum ProcessContents {
    Strict,
    Lax,
    Skip,
}

#[derive(Debug, Clone)]
pub enum Particle {
    Element(ElementDef),
    Wildcard(WildcardConstraint),
    Sequence { min: u32, max: Option<u32>, items: Vec<Particle> },
    Choice { min: u32, max: Option<u32>, items: Vec<Particle> },
    All { min: u32, elements: Vec<ElementDef> },
}

/// The sheet's verdicts, row derived, column base: 0 ok, 1 undecided,
/// 140..=152 a reason that the paper sets.
#[derive(Debug, Clone)]
pub struct CompiledSchema {
    pub leaves: usize,
    pub first: Vec<u8>,
    pub second: Vec<u8>,
}

/// The other part of a schema, its types by name. It stands apart, so that a
/// marking, which looks none up, does not carry it.
pub struct Types(pub HashMap<String, TypeDef>);

impl Types {
    pub fn get_type(&self, qname: &str) -> Option<&TypeDef> {
        self.0.get(qname)
    }
}

/// No chain has a simple type, but the original asks; tables of types have them.
pub enum TypeDef {
    Simple(SimpleType),
    Complex(ComplexType),
}

pub struct SimpleType {
    pub base_type: Option<String>,
    /// Those of a union.
    pub member_types: Vec<String>,
}

pub struct ComplexType {
    pub base_type: Option<String>,
    /// `None` for a type that is derived from none.
    pub derivation: Option<DerivationMethod>,
    /// The type's own content, without what it inherits.
    pub particle: Option<Arc<Particle>>,
}

#[derive(Debug, Clone, Copy, PartialEq, Eq)]
pub enum DerivationMethod {
    Extension,
}

/// An element declaration with what the comparison of two types reads. It stands
/// apart from `ElementDef`, so that a marking does not carry it.
pub struct TypedElement {
    pub name: String,
    pub type_ref: Option<String>,
    /// An anonymous type.
    pub inline_type: Option<TypeDef>,
}
