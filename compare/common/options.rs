//! What the comparisons are told on the command line.

use crate::tree::MOST_RECORDS;

pub struct Options {
    pub seed: u64,
    /// Random trees, sheets, chains or tables of types.
    pub count: u64,
    /// Damaged strings.
    pub damaged: u64,
    /// Records that a random tree may have.
    pub records: u64,
}

/// The runs whose chains and sheets are drawn without such a bound.
const ANY_RECORDS: [&str; 2] = ["chains", "types"];

/// The arguments of `compare/run WHAT`, from these numbers on. Bad ones end
/// the program with status 2.
pub fn read(what: &str, count: u64, damaged: u64) -> Options {
    let bounded = !ANY_RECORDS.contains(&what);
    let records = if bounded { " [--records R]" } else { "" };
    let usage = |message: &str| -> ! {
        eprintln!(
            "{message}\nusage: compare/run {what} [--seed S] [--count N] [--damaged N]{records}"
        );
        std::process::exit(2);
    };
    let mut options = Options { seed: 1, count, damaged, records: MOST_RECORDS as u64 };
    let mut words = std::env::args().skip(1);
    while let Some(word) = words.next() {
        let field = match word.as_str() {
            "--seed" => &mut options.seed,
            "--count" => &mut options.count,
            "--damaged" => &mut options.damaged,
            "--records" if bounded => &mut options.records,
            _ => usage(&format!("unknown argument {word}")),
        };
        match words.next().map(|value| value.parse()) {
            Some(Ok(value)) => *field = value,
            _ => usage(&format!("{word} wants a number")),
        }
    }
    if options.records == 0 {
        usage("a tree has at least one record");
    }
    options
}
