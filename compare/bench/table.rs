//! The tables that are printed: a row for each group and mark, one for the
//! chains, and one for each group of trees.

use std::fmt;

use crate::time::{Time, Times};

pub struct Row<'a> {
    pub group: &'a str,
    pub mark: &'a str,
    /// How many sheets, chains or trees, and their bytes in all.
    pub count: usize,
    pub bytes: usize,
    pub times: Times,
}

/// `inputs` are sheets, chains or trees, `ready` what the Rust may find ready.
pub fn print_head(inputs: &str, ready: &str) {
    print!("| group | mark | {inputs} | bytes ");
    print!("| Rust, ns | Rust, {ready} ready, ns | Rattle, ns ");
    println!("| ratio | ratio of medians | ratio to {ready} ready |");
    println!("|---|---|---|---|---|---|---|---|---|---|");
}

impl fmt::Display for Row<'_> {
    fn fmt(&self, f: &mut fmt::Formatter<'_>) -> fmt::Result {
        let Times { ready, bytes, library } = &self.times;
        let least = |time: &Option<Time>| time.map(|time| time.least);
        let to = |time: Option<f64>| time.map(|time| library.least / time);
        let medians = bytes.map(|bytes| library.median / bytes.median);
        write!(f, "| {} | {} | {} ", self.group, self.mark, self.count)?;
        write!(f, "| {} ", self.bytes / self.count)?;
        write!(f, "| {} | {} ", cell(least(bytes), 0), cell(least(ready), 0))?;
        write!(f, "| {:.0} ", library.least)?;
        write!(f, "| {} | {} ", cell(self.times.ratio(), 2), cell(medians, 2))?;
        write!(f, "| {} |", cell(to(least(ready)), 2))
    }
}

/// A number, or a stroke where it was not measured.
fn cell(number: Option<f64>, digits: usize) -> String {
    number.map_or("-".into(), |number| format!("{number:.digits$}"))
}
