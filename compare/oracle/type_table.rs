//! A table of types (document 02 §7) as the types of a schema, and the oracle's
//! verdict on two of its rows.

use std::collections::HashMap;

use crate::bridge;
use crate::reasons::Mark;
use crate::stubs::{ComplexType, DerivationMethod, SimpleType, TypeDef, Types};

/// How a schema defines the types of the rows from 2 on. Rows 0 and 1 are
/// `anyType` and `anySimpleType`, which it does not define.
#[derive(Debug, Clone, Copy)]
pub enum Form {
    /// Simple types, each of which names its parent.
    Simple,
    /// Complex types, those below `anyType` without a derivation; those below
    /// `anySimpleType` are lists.
    Complex,
}

impl Form {
    pub const EVERY: [Form; 2] = [Form::Simple, Form::Complex];

    fn define(self, parent: usize) -> TypeDef {
        let named = Some(name(parent));
        let simple =
            |base_type| TypeDef::Simple(SimpleType { base_type, member_types: Vec::new() });
        let complex = |base_type, derivation| {
            TypeDef::Complex(ComplexType { base_type, derivation, particle: None })
        };
        match (self, parent) {
            (Form::Simple, _) => simple(named),
            (Form::Complex, 0) => complex(None, None),
            (Form::Complex, 1) => simple(Some("list(string)".into())),
            (Form::Complex, _) => complex(named, Some(DerivationMethod::Extension)),
        }
    }
}

/// The name of a row's type; from 2 on no built-in one's.
fn name(row: usize) -> String {
    match row {
        0 => "anyType".into(),
        1 => "anySimpleType".into(),
        _ => format!("row{row}"),
    }
}

pub struct Rows {
    names: Vec<String>,
    types: Types,
}

impl Rows {
    /// The rows of a table of types that is not refused.
    pub fn new(parents: &[u8], form: Form) -> Rows {
        let names: Vec<String> = (0..parents.len()).map(name).collect();
        let defined = names.iter().zip(parents).skip(2);
        let types = defined.map(|(name, parent)| (name.clone(), form.define((*parent).into())));
        Rows { types: Types(types.collect::<HashMap<_, _>>()), names }
    }

    /// The oracle's verdict on two rows.
    pub fn derivation_ok(&self, derived: usize, base: usize) -> Mark {
        bridge::type_derivation_ok_in(&self.types, &self.names[derived], &self.names[base])
    }
}
