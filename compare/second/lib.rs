//! Documents 01 and 02 read a second time, for what the original Rust does not
//! have: the refusals, total ranges that do not fit, what a tidy tree looks like,
//! what a tree allows, tables of types, and sheets filled from types. It takes
//! nothing from the oracle or from the proved library, and from `common` the
//! layouts, the notation and the numbers of answers only.

mod big;
pub mod chain;
pub mod sheet;
pub mod tidy;
pub mod total;
pub mod tree;
pub mod type_table;
pub mod types;
pub mod words;
