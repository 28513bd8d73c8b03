//! Random inputs: accepted trees and sheets, chains of accepted trees, tables of
//! types, damaged ones, and the types of a sheet. Each is drawn from a generator
//! of its own, so that seed and number name it.

pub mod chains;
pub mod change;
mod cost;
pub mod damaged_chains;
pub mod damaged_sheets;
pub mod damaged_trees;
pub mod disguise;
pub mod leaves;
pub mod may_not_occur;
mod narrow;
pub mod sheets;
mod spoil;
pub mod trees;
pub mod type_tables;
pub mod types;
