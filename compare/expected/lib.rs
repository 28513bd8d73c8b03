//! What the library must answer, in its numbers (common/answers.rs): a refusal
//! where the second reading finds one, and otherwise what the oracle says or
//! document 02 has in its place. The comparisons, the stored answers and the
//! benchmark take it from here.

pub mod chain;
pub mod sheet;
pub mod tree;
pub mod type_table;
pub mod types;
