//! A sheet made ready for each of those who are measured.

use common::sheet::Sheet;
use oracle::doors;
use oracle::stubs::{CompiledSchema, Particle};

use crate::time::Without;
use crate::{check, direct};

pub struct Subject {
    pub bytes: Vec<u8>,
    pub derived: Particle,
    pub base: Particle,
    pub schema: CompiledSchema,
    /// The expected mark, in the library's numbers.
    pub mark: u32,
    pub without: Without,
}

/// The Rust takes about 70 ns for an entry of its rule, so for so many some
/// seconds, and for so many about a minute.
const LONG: u128 = 50_000_000;
const LONGEST: u128 = 800_000_000;

/// Who is not asked for a marking of so many entries.
fn without(entries: u128) -> Without {
    match entries {
        ..=LONG => Without::Nobody,
        ..=LONGEST => Without::Ready,
        _ => Without::Rust,
    }
}

impl Subject {
    fn new(sheet: &Sheet) -> Subject {
        let bytes = sheet.encode();
        let (derived, base, schema) = direct::particles(&bytes);
        let counted = entries::count(sheet).marked;
        let (mark, without) = (counted.mark, without(counted.entries));
        // The Rust is asked for the mark of those that it marks in short.
        if without == Without::Nobody {
            let answer = expected::sheet::mark(&bytes);
            let direct = expected::sheet::number(doors::mark(&derived, &base, &schema));
            let same = answer.rust_mark == Some(direct);
            assert!(same, "the particles made for the benchmark are not the sheet's");
            assert!(answer.mark == mark, "the rules read once more give another mark");
        }
        Subject { bytes, derived, base, schema, mark, without }
    }
}

/// The sheets, made ready. The library must answer as expected: otherwise there
/// is nothing to measure.
pub fn ready(group: &str, sheets: &[Sheet]) -> Vec<Subject> {
    let subjects: Vec<Subject> = sheets.iter().map(Subject::new).collect();
    for Subject { bytes, mark, .. } in &subjects {
        if let Err(difference) = check::compare(bytes, *mark) {
            eprintln!("difference in group {group}");
            eprintln!("  expected: {}\n  got:      {}", difference.expected, difference.got);
            std::process::exit(1);
        }
    }
    subjects
}
