//! The proved library, as its archive exports it.

mod exports;

pub use exports::*;
