//! Writes the stored answers: a sample of what must be answered (expected/),
//! that the program of crates/replay compares with the proved library's answers.
//! Run it by compare/run. The library takes no part in it. Exit status 0:
//! written; 2: bad usage, or a file that cannot be written; a panic says that an
//! answer did not come up, or that the harness itself is at fault.

mod case;
mod chains;
mod kind;
mod shares;
mod sheets;
mod tidied;
mod trees;
mod type_tables;
mod types;

use case::Operation;
use shares::Stored;

/// Relative to the repository's root.
const ANSWERS: &str = "crates/replay/stdin";
const PRINTED: &str = "crates/replay/stdout";

fn main() {
    let seed = seed();
    let mut stored = Stored::default();
    sheets::store(&mut stored, seed);
    trees::store(&mut stored, seed);
    chains::store(&mut stored, seed);
    types::store(&mut stored, seed);
    type_tables::store(&mut stored, seed);
    tidied::store(&mut stored, seed);
    let mut bytes = Vec::new();
    for case in &stored.cases {
        case.write(&mut bytes);
    }
    let count = stored.cases.len();
    write(ANSWERS, &bytes);
    write(PRINTED, format!("{count} agreed, 0 differ\n").as_bytes());
    report(&stored);
    let (calls, trees) = stored.of_trees();
    println!(
        "{} sheets to mark, {calls} calls of the entries for one tree over {trees} trees, \
         {} chains to join, {} pairs of types, {} sheets to fill; with a table of types \
         {} pairs, {} sheets",
        stored.asked(Operation::Mark),
        stored.asked(Operation::EffectiveParticle),
        stored.asked(Operation::TypeDerivationOk),
        stored.asked(Operation::FillTypes),
        stored.asked(Operation::TypeDerivationOkBy),
        stored.asked(Operation::FillTypesBy),
    );
    println!("wrote {count} answers, {} bytes, to {ANSWERS}", bytes.len());
}

fn seed() -> u64 {
    let words: Vec<String> = std::env::args().skip(1).collect();
    match &words[..] {
        [] => 1,
        [word, value] if word == "--seed" => match value.parse() {
            Ok(seed) => seed,
            Err(_) => stop("--seed wants a number\nusage: compare/run store [--seed S]"),
        },
        _ => stop("usage: compare/run store [--seed S]"),
    }
}

fn stop(message: &str) -> ! {
    eprintln!("{message}");
    std::process::exit(2);
}

fn write(path: &str, bytes: &[u8]) {
    if let Err(error) = std::fs::write(path, bytes) {
        stop(&format!("{path}: {error}"));
    }
}

/// How often each kind of answer was stored, a line for each operation.
fn report(stored: &Stored) {
    let counts = stored.counts();
    for operation in Operation::EVERY {
        let mut own: Vec<_> = counts.iter().filter(|((of, _), _)| *of == operation).collect();
        own.sort_by_key(|((_, kind), _)| by_number(kind));
        let own = own.iter().map(|((_, kind), count)| format!("{kind}: {count}"));
        println!("{}: {}", operation.name(), own.collect::<Vec<_>>().join(", "));
    }
}

/// The words of a kind of answer, and the number after them.
fn by_number(kind: &str) -> (&str, u32) {
    match kind.rsplit_once(' ').map(|(words, number)| (words, number.parse())) {
        Some((words, Ok(number))) => (words, number),
        _ => (kind, 0),
    }
}
