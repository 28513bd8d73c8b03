//! The names and parents of the library's list (crates/types), which no entry
//! tells: held to the source's, as document 02 §6 numbers them.

use crate::check::Difference;

/// Relative to the repository's root. A type is `named "NAME" PARENT` there, from
/// number 0 on.
pub const LIST: &str = "crates/types/specs/Builtin.antt";

/// How many names there are; the first that is not the expected one.
pub fn compare(text: &str) -> Result<usize, (usize, Difference)> {
    let told = told(text);
    let parents = expected::types::parents();
    let expected: Vec<String> = expected::types::names()
        .iter()
        .zip(parents)
        .map(|(name, parent)| format!("{name}, parent {parent}"))
        .collect();
    let row = |rows: &[String], at| rows.get(at).map_or("none".into(), String::clone);
    let longest = told.len().max(expected.len());
    match (0..longest).find(|at| told.get(*at) != expected.get(*at)) {
        None => Ok(expected.len()),
        Some(at) => {
            let (expected, got) = (row(&expected, at), row(&told, at));
            Err((at, Difference { what: "the name of a number".into(), expected, got }))
        }
    }
}

/// Name and parent of each type of the list, comments left out.
fn told(text: &str) -> Vec<String> {
    let row = |line: &str| {
        let (_, after) = line.split_once("named \"")?;
        let (name, parent) = after.split_once('"')?;
        Some(format!("{name}, parent {}", parent.trim()))
    };
    text.lines().filter(|line| !line.trim_start().starts_with("--")).filter_map(row).collect()
}
