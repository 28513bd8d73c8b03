//! One sheet through the library's `mark`: whether the expected answer comes
//! (expected/sheet.rs). The benchmark checks its sheets by this too.

use common::answers::text;

pub struct Difference {
    pub expected: String,
    pub got: String,
}

/// Asks the library and compares its answer. The sheet must come back
/// unchanged.
pub fn compare(bytes: &[u8], expected: u32) -> Result<(), Difference> {
    let lent = bytes.to_vec();
    let got = library::mark(&lent);
    if got != expected {
        return Err(Difference { expected: text(expected), got: text(got) });
    }
    if lent != bytes {
        return Err(Difference {
            expected: "the sheet handed in is unchanged".into(),
            got: "the call changed it".into(),
        });
    }
    Ok(())
}
