//! Sheets whose base may not occur (expected/sheet.rs), counted: the Rust's mark
//! is expected to differ there, or is the same.

use std::fmt;

use expected::sheet::Answer;

#[derive(Debug, Clone, Copy)]
pub enum Run {
    /// With the sheets at the limits.
    Known,
    Tiny,
    Random,
    Damaged,
}

const RUNS: [(Run, &str); 4] = [
    (Run::Known, "known"),
    (Run::Tiny, "tiny"),
    (Run::Random, "random"),
    (Run::Damaged, "damaged"),
];

/// By run and by the base's kind, sequence and choice: how often the Rust
/// passes, is undecided, and fails alike.
#[derive(Default)]
pub struct Ruled([[[u64; 3]; 2]; RUNS.len()]);

impl Ruled {
    pub fn count(&mut self, run: Run, answer: &Answer) {
        if let (Some(reason), Some(rust)) = (answer.ruled, answer.rust_mark) {
            let kind = usize::from(reason == 106);
            self.0[run as usize][kind][rust.min(2) as usize] += 1;
        }
    }

    /// Ends the run by a panic where a difference never came up.
    pub fn assert_each(&self, run: Run) {
        let each = self.0[run as usize].iter().all(|of_kind| !of_kind[..2].contains(&0));
        assert!(each, "{run:?}: a difference that never came up; {self}");
    }
}

impl fmt::Display for Ruled {
    fn fmt(&self, f: &mut fmt::Formatter<'_>) -> fmt::Result {
        let [passes, undecided, alike] =
            [0, 1, 2].map(|rust| self.0.iter().flatten().map(|of_kind| of_kind[rust]).sum::<u64>());
        write!(
            f,
            "a base that may not occur: {} sheets, where the Rust passes {passes}, is undecided \
             {undecided} and fails alike {alike}",
            passes + undecided + alike
        )?;
        for (at, (run, name)) in RUNS.iter().enumerate() {
            let [sequence, choice] =
                self.0[*run as usize].map(|[p, u, a]| format!("{p}, {u}, {a}"));
            let before = if at == 0 { " (" } else { "; " };
            write!(f, "{before}{name}: sequence {sequence}, choice {choice}")?;
        }
        write!(f, ")")
    }
}
