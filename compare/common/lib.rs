//! What every folder of the comparison uses: trees, sheets and chains with their
//! bytes, document 01's notation, the numbers of the library's answers, random
//! numbers, and the command line.

pub mod answers;
pub mod bytes;
pub mod chain;
pub mod notation;
pub mod options;
pub mod random;
pub mod schema;
pub mod sheet;
pub mod tree;
