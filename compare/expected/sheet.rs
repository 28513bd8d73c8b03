//! What `mark` must answer on a sheet: the second reading's refusal, or the mark
//! as document 02 has it. That is the Rust's mark but for a base that may not
//! occur (§5). The Rust's own mark is here beside it.

use common::answers::REFUSED;
use common::sheet::Sheet;
use oracle::bridge::{self, Leaves};
use oracle::doors;
use oracle::reasons::Mark;
use oracle::stubs::Particle;

pub struct Answer {
    /// What the library must answer.
    pub mark: u32,
    /// What the Rust answers; nothing where the sheet is refused.
    pub rust_mark: Option<u32>,
    /// The reason where the base may not occur: only there the two can differ.
    pub ruled: Option<u32>,
}

impl Answer {
    /// The Rust's mark, where it is another.
    pub fn unlike(&self) -> Option<u32> {
        self.rust_mark.filter(|rust| *rust != self.mark)
    }
}

pub fn mark(bytes: &[u8]) -> Answer {
    match second::sheet::first_refusal(bytes) {
        Some(refusal) => Answer { mark: REFUSED + refusal.number, rust_mark: None, ruled: None },
        None => accepted(bytes),
    }
}

fn accepted(bytes: &[u8]) -> Answer {
    let sheet = Sheet::decode(bytes);
    assert!(sheet.encode() == bytes, "reading and writing a sheet is not the identity");
    let rust = number(bridge::mark(&sheet));
    let ruled = may_not_occur(&sheet);
    // The Rust's first reading fails there too, so it cannot fail otherwise.
    let understood = ruled.is_none_or(|reason| [0, 1, reason].contains(&rust));
    assert!(understood, "a base that may not occur, and the Rust answers {rust}");
    Answer { mark: ruled.unwrap_or(rust), rust_mark: Some(rust), ruled }
}

/// Document 02 §5: an element against a sequence or choice of maximum 0 fails,
/// by the first reading's reason. Both roots are read once tidied, and a derived
/// one of maximum 0 passes before any rule.
fn may_not_occur(sheet: &Sheet) -> Option<u32> {
    let tidied = |tree| doors::normalize(&Leaves::none().particle(tree));
    match (tidied(&sheet.derived), tidied(&sheet.base)) {
        (Particle::Element(element), _) if element.max_occurs == Some(0) => None,
        (Particle::Element(_), Particle::Sequence { max: Some(0), .. }) => Some(105),
        (Particle::Element(_), Particle::Choice { max: Some(0), .. }) => Some(106),
        _ => None,
    }
}

/// The answer that stands for a mark.
pub fn number(mark: Mark) -> u32 {
    match mark {
        Mark::Passes => 0,
        Mark::Undecided => 1,
        Mark::Fails(reason) => reason,
    }
}
