//! Document 01's reason numbers for the messages of the Rust. A part of each
//! message that no other has stands beside its number. Names in messages are
//! digits here, or names of built-in types or of rows, so they match no part.

use std::fmt;

#[derive(Debug, Clone, Copy, PartialEq, Eq)]
pub enum Mark {
    Passes,
    Undecided,
    Fails(u32),
}

impl fmt::Display for Mark {
    fn fmt(&self, f: &mut fmt::Formatter<'_>) -> fmt::Result {
        match self {
            Mark::Passes => write!(f, "passes"),
            Mark::Undecided => write!(f, "undecided"),
            Mark::Fails(reason) => write!(f, "fails {reason}"),
        }
    }
}

/// The messages of mod.rs (101 to 121) and of elements.rs (122 to 124, and of two
/// types 148).
const PARTS: [(u32, &str); 25] = [
    (101, "' occurrence range"),
    (102, "cannot restrict element"),
    (103, "wildcard occurrence range"),
    (104, "processContents is weaker"),
    (105, "sequence occurrence range exceeds the base's"),
    (106, "choice occurrence range"),
    (107, "all-group occurrence range"),
    (108, "is not in the base all-group"),
    (109, "required base element"),
    (110, "base group is required"),
    (111, "alternative admits"),
    (112, "base choice is required"),
    (113, "total occurrence range"),
    (114, "restrict a model group"),
    (115, "kind of model group"),
    (116, "total range"),
    (117, "restricts no base"),
    (118, "exceeds the base all-group's"),
    (119, "only elements can"),
    (120, "content the base does not"),
    (121, "required base particle"),
    (122, "minOccurs"),
    (123, "is unbounded but"),
    (124, "maxOccurs"),
    (148, "is not derived from"),
];

/// What a message of our own says of a reason that the paper sets.
const SET: &str = "set by the paper: ";

pub fn set_by_paper(reason: u8) -> String {
    format!("{SET}{reason}")
}

/// The reason number of a message; panics unless exactly one fits.
pub fn number(message: &str) -> u32 {
    if let Some(reason) = message.strip_prefix(SET) {
        return reason.parse().expect("a number");
    }
    let mut fitting = PARTS.iter().filter(|(_, part)| message.contains(part));
    match (fitting.next(), fitting.next()) {
        (Some((reason, _)), None) => *reason,
        (None, _) => panic!("no reason number for the message: {message}"),
        _ => panic!("several reason numbers for the message: {message}"),
    }
}
