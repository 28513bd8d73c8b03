//! A difference on two types, of the list or of a table of types, or on the
//! filling of a sheet.

use common::sheet::{Counts, LEAF_BYTES, LEAF_KIND, hex};
use second::sheet::first_refusal;

use crate::check::{Difference, Given};

/// The number with its name, if it has one.
fn named(number: usize) -> String {
    match expected::types::names().get(number) {
        Some(name) => format!("{number} {name}"),
        None => number.to_string(),
    }
}

pub fn number(case: &str, number: usize, difference: &Difference) -> String {
    told(case, &[("number", number.to_string())], difference)
}

pub fn pair(case: &str, derived: u32, base: u32, difference: &Difference) -> String {
    let types = [derived, base].map(|number| named(number as usize));
    told(case, &[("derived", types[0].clone()), ("base", types[1].clone())], difference)
}

/// On two numbers by a table of types, or on the table of types itself.
pub fn by_table(
    case: &str,
    parents: &[u8],
    pair: Option<(u32, u32)>,
    difference: &Difference,
) -> String {
    let mut input = vec![("parents", rows(parents))];
    if let Some((derived, base)) = pair {
        input.extend([("derived", derived.to_string()), ("base", base.to_string())]);
    }
    told(case, &input, difference)
}

/// The parents of a table of types, by row.
fn rows(parents: &[u8]) -> String {
    let parents: Vec<String> = parents.iter().map(u8::to_string).collect();
    if parents.is_empty() { "none".into() } else { parents.join(" ") }
}

pub fn filling(case: &str, bytes: &[u8], given: Given, difference: &Difference) -> String {
    let refusal = first_refusal(bytes);
    let kinds = || {
        let leaves = Counts::read(bytes).places().leaves;
        leaves.step_by(LEAF_BYTES).map(|leaf| ['e', 'w'][usize::from(bytes[leaf + LEAF_KIND])])
    };
    let leaves = match refusal {
        None => kinds().collect(),
        Some(refusal) => format!("none, refused {} at {}", refusal.number, refusal.place),
    };
    let name = |number: &u8| match given.parents {
        None => named((*number).into()),
        Some(_) => number.to_string(),
    };
    let types: Vec<String> = given.types.iter().map(name).collect();
    let types = if types.is_empty() { "none".into() } else { types.join(", ") };
    let mut input = vec![("leaves", leaves), ("types", types)];
    input.extend(given.parents.map(|parents| ("parents", rows(parents))));
    input.push(("hex", hex(bytes)));
    told(case, &input, difference)
}

fn told(case: &str, input: &[(&str, String)], difference: &Difference) -> String {
    let Difference { what, expected, got } = difference;
    let mut lines = vec![("case", case.to_string())];
    lines.extend(input.iter().cloned());
    lines.extend([("expected", expected.clone()), ("got", got.clone())]);
    let line = |(name, text): (&str, String)| format!("  {:<9} {text}", format!("{name}:"));
    let lines: Vec<String> = lines.into_iter().map(line).collect();
    format!("difference: {what}\n{}", lines.join("\n"))
}
