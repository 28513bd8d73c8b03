//! What the search is told on the command line.

use common::tree::MOST_RECORDS;
use shapes::{Shape, words};

pub struct Options {
    pub seed: u64,
    /// Shapes to measure.
    pub count: u64,
    /// The records of each tree.
    pub records: usize,
    /// How many are listed.
    pub list: usize,
    /// The one shape to measure, and where its sheet goes.
    pub shape: Option<Shape>,
    pub out: Option<String>,
}

const USAGE: &str = "usage: compare/run search [--seed S] [--count N] [--records R] [--list L], or \
                     compare/run search [--records R] --shape WORDS [--out FILE]";

fn usage(message: &str) -> ! {
    eprintln!("{message}\n{USAGE}");
    std::process::exit(2);
}

pub fn read() -> Options {
    let mut options =
        Options { seed: 1, count: 50_000, records: 255, list: 10, shape: None, out: None };
    let mut words = std::env::args().skip(1);
    while let Some(word) = words.next() {
        let Some(value) = words.next() else { usage(&format!("{word} wants a value")) };
        let number = || match value.parse() {
            Ok(number) => number,
            _ => usage(&format!("{word} wants a number")),
        };
        match word.as_str() {
            "--seed" => options.seed = number(),
            "--count" => options.count = number(),
            "--records" => options.records = number() as usize,
            "--list" => options.list = number() as usize,
            "--shape" => match words::read(&value) {
                Ok(shape) => options.shape = Some(shape),
                Err(what) => usage(&what),
            },
            "--out" => options.out = Some(value),
            _ => usage(&format!("unknown argument {word}")),
        }
    }
    if !(32..=MOST_RECORDS).contains(&options.records) {
        usage(&format!("--records is from 32 to {MOST_RECORDS}"));
    }
    if options.out.is_some() && options.shape.is_none() {
        usage("--out wants a --shape");
    }
    options
}
