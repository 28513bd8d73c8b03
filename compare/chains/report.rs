//! A difference on a chain: its levels in document 01's notation, and the bytes.

use common::chain::{self, COUNT_BYTES, COUNTS, LEVELS};
use common::tree::RECORD;
use second::chain::joined;

use crate::check::Difference;

pub fn print(case: &str, bytes: &[u8], difference: &Difference) {
    let levels = match joined(bytes) {
        Err(refusal) if refusal.number < 16 => {
            format!("none, refused {} at {}", refusal.number, refusal.place)
        }
        _ => chain::text(&chain::decode(bytes)),
    };
    println!("difference: {}", difference.what);
    println!("  case:     {case}");
    println!("  chain:    {levels}");
    println!("  hex:      {}", hex(bytes));
    println!("  expected: {}", difference.expected);
    println!("  got:      {}", difference.got);
}

/// The number of levels, each count and each record by itself, as far as there
/// are bytes.
fn hex(bytes: &[u8]) -> String {
    let digits = |part: &[u8]| part.iter().map(|byte| format!("{byte:02x}")).collect::<String>();
    let levels = bytes.get(LEVELS).copied().unwrap_or(0);
    let (head, rest) = bytes.split_at(COUNTS.min(bytes.len()));
    let (counts, records) = rest.split_at(rest.len().min(COUNT_BYTES * usize::from(levels)));
    let parts = [(head, 1), (counts, COUNT_BYTES), (records, RECORD)];
    let told = parts.iter().flat_map(|(part, length)| part.chunks(*length).map(digits));
    told.collect::<Vec<_>>().join(" ")
}
