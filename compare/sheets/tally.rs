//! What was compared on sheets, counted, and the closing line that tells it.

use std::fmt;

use common::answers::{REFUSALS, REFUSED, marks, reasons};

use crate::ruled::Ruled;

/// How often each answer was expected, by its number.
pub struct Answers(Vec<u64>);

impl Default for Answers {
    fn default() -> Answers {
        Answers(vec![0; REFUSED as usize + 15])
    }
}

impl Answers {
    pub fn count(&mut self, answer: u32) {
        self.0[answer as usize] += 1;
    }

    /// The marks that can come up and did not.
    pub fn missing_marks(&self) -> Vec<u32> {
        marks().filter(|mark| self.of(*mark) == 0).collect()
    }

    /// The refusals that did not come up.
    pub fn missing_refusals(&self) -> Vec<u32> {
        REFUSALS.into_iter().filter(|number| self.of(REFUSED + number) == 0).collect()
    }

    fn of(&self, answer: u32) -> u64 {
        self.0[answer as usize]
    }

    fn marks(&self) -> String {
        let reasons = reasons().map(|reason| {
            let count = self.of(reason);
            format!("{reason}: {count}")
        });
        let reasons: Vec<String> = reasons.collect();
        format!("passes {}, undecided {}, fails {}", self.of(0), self.of(1), reasons.join(", "))
    }

    fn refusals(&self) -> String {
        let counts = REFUSALS.map(|number| format!("{number}: {}", self.of(REFUSED + number)));
        format!("refused {}", counts.join(", "))
    }

    fn accepted(&self) -> u64 {
        self.0[..REFUSED as usize].iter().sum()
    }
}

#[derive(Default)]
pub struct Tally {
    pub known: u64,
    pub limits: u64,
    pub tiny: u64,
    pub random: u64,
    /// Derived and base trees of random sheets with a group of more items than
    /// a byte can count.
    pub wide: [u64; 2],
    pub damaged: u64,
    /// Of the random sheets.
    pub random_answers: Answers,
    /// Of the damaged sheets.
    pub damaged_answers: Answers,
    pub ruled: Ruled,
}

impl fmt::Display for Tally {
    fn fmt(&self, f: &mut fmt::Formatter<'_>) -> fmt::Result {
        let [derived, base] = self.wide;
        write!(
            f,
            "all equal: {} known sheets, {} sheets at the limits, {} tiny sheets, \
             {} random sheets ({}; wide derived trees {derived}, base trees {base}), \
             {} damaged sheets ({} accepted; {}); {}",
            self.known,
            self.limits,
            self.tiny,
            self.random,
            self.random_answers.marks(),
            self.damaged,
            self.damaged_answers.accepted(),
            self.damaged_answers.refusals(),
            self.ruled,
        )
    }
}
