//! Inputs that are not drawn: trees, sheets, chains, types and tables of types
//! with their answers written down by hand, and every small one; trees with what
//! they allow.

pub mod known_chains;
pub mod known_sheets;
pub mod known_totals;
pub mod known_trees;
pub mod known_type_tables;
pub mod known_types;
pub mod known_words;
pub mod limits;
mod record_counts;
pub mod small_chains;
pub mod small_trees;
pub mod small_type_tables;
pub mod small_types;
pub mod stated;
pub mod tiny_sheets;
