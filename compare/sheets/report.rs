//! A difference on a sheet, told in document 01's notation: the trees, what
//! the sheet says of the leaves in them, and the bytes.

use common::answers::text;
use common::sheet::{Leaf, Sheet, hex};
use common::tree::{Kind, Tree};
use second::sheet::first_refusal;

use crate::check::Difference;

pub fn print(case: &str, bytes: &[u8], difference: &Difference) {
    println!("difference: mark");
    println!("  case:     {case}");
    match first_refusal(bytes) {
        None => {
            let sheet = Sheet::decode(bytes);
            println!("  sheet:    {} | {}", sheet.derived, sheet.base);
            println!("  leaves:   {}", leaves(&sheet));
            println!("  verdicts: {}", verdicts(&sheet));
        }
        Some(refusal) => {
            println!("  sheet:    none, refused {} at {}", refusal.number, refusal.place);
        }
    }
    println!("  hex:      {}", hex(bytes));
    println!("  expected: {}", difference.expected);
    if let Some(rust) = expected::sheet::mark(bytes).unlike() {
        println!("  the Rust: {}", text(rust));
    }
    println!("  got:      {}", difference.got);
}

/// The leaf numbers that a tree has, each once, rising.
fn numbers(tree: &Tree) -> Vec<u8> {
    fn collect(tree: &Tree, found: &mut Vec<u8>) {
        if tree.kind.is_leaf() {
            found.push(tree.leaf);
        }
        tree.items.iter().for_each(|item| collect(item, found));
    }
    let mut found = Vec::new();
    collect(tree, &mut found);
    found.sort();
    found.dedup();
    found
}

/// A leaf as the notation has it.
fn letter(sheet: &Sheet, number: u8) -> String {
    Tree::leaf(sheet.leaves[usize::from(number)].kind, number, (1, Some(1))).to_string()
}

fn leaves(sheet: &Sheet) -> String {
    let told = |number: u8| {
        let letter = letter(sheet, number);
        match sheet.leaves[usize::from(number)] {
            Leaf { kind: Kind::Element, name, .. } => format!("{letter} name {name}"),
            Leaf { processing, .. } => {
                let word = ["skip", "lax", "strict"][usize::from(processing)];
                format!("{letter} {word}")
            }
        }
    };
    let mut used = numbers(&sheet.derived);
    used.extend(numbers(&sheet.base));
    used.sort();
    used.dedup();
    let told: Vec<String> = used.into_iter().map(told).collect();
    told.join(", ")
}

/// The verdicts that apply to a derived and a base leaf of the trees: both
/// tables' for two elements, the second's for a base wildcard.
fn verdicts(sheet: &Sheet) -> String {
    let mut told = Vec::new();
    for derived in numbers(&sheet.derived) {
        for base in numbers(&sheet.base) {
            let at = sheet.at(derived, base);
            let kinds = [derived, base].map(|number| sheet.leaves[usize::from(number)].kind);
            let verdicts = match kinds {
                [Kind::Wildcard, Kind::Element] => continue,
                [Kind::Element, Kind::Element] => {
                    format!("first {} second {}", sheet.first[at], sheet.second[at])
                }
                _ => format!("second {}", sheet.second[at]),
            };
            told.push(format!("{}|{} {verdicts}", letter(sheet, derived), letter(sheet, base)));
        }
    }
    told.join(", ")
}
