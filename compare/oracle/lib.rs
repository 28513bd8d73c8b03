//! The oracle: the original Rust, patched by build-oracle, over our stub types.
//! `doors` hands out its functions, `bridge` makes its particles from trees and
//! sheets, its types from chains, and its elements from two types' names;
//! `type_table` makes its types from a table of types.

pub mod bridge;
pub mod reasons;
pub mod stubs;
pub mod type_table;

#[path = "../../target/compare/restriction/mod.rs"]
mod restriction;

pub use restriction::doors;
