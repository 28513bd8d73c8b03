//! Holds docs/DIFFERENCES.md to what the Rust, the library, our reading of the
//! W3C text and Java's validator answer, and searches all pairs of small trees
//! for differences. Run it by compare/run. Exit status 0: all as stated; 1:
//! something is not, or the document cannot be read; 2: bad usage, or a file
//! that is missing.

mod case;
mod document;
mod java;
mod lots;
mod marks;
mod search;

use case::Paper;
use document::{BY_RULES, Document};
use search::{Found, OWN};

const DOCUMENT: &str = "docs/DIFFERENCES.md";

fn main() {
    if std::env::args().len() > 1 {
        stop("usage: compare/run differences");
    }
    let text = std::fs::read_to_string(DOCUMENT).unwrap_or_else(|error| stop(&error.to_string()));
    let held = document::read(&text).and_then(|document| hold(&document));
    let (wrong, skipped) = held.unwrap_or_else(|message| (vec![message], None));
    for line in &wrong {
        println!("difference: {line}");
    }
    if !wrong.is_empty() {
        std::process::exit(1);
    }
    let skipped = skipped.map(|why| format!("; skipped Java's validator: {why}"));
    println!("everything is as {DOCUMENT} states{}", skipped.unwrap_or_default());
}

fn stop(message: &str) -> ! {
    eprintln!("{message}");
    std::process::exit(2);
}

/// What is not as stated, and why Java was skipped, if it was.
fn hold(document: &Document) -> Result<(Vec<String>, Option<String>), String> {
    let mut wrong = Vec::new();
    for case in &document.cases {
        let row = case.number.map_or("elsewhere".into(), |number| format!("number {number}"));
        wrong.extend(marks::wrong(case).into_iter().map(|line| format!("{row}: {line}")));
    }
    let read = document.cases.iter().filter(|case| case.w3c.is_some()).count();
    let cases = document.cases.len();
    println!("{} rows, {cases} cases, {read} of them with a W3C answer", document.rows);
    let skipped = java::not_asked(document);
    if skipped.is_none() {
        let said = java::ask(&document.cases).map_err(|error| error.to_string())?;
        java::print(&said);
        wrong.extend(java::wrong(&said, document));
    }
    match search::run() {
        Err(line) => wrong.push(line),
        Ok(found) => {
            print(&found);
            wrong.extend(hold_search(document, &found));
        }
    }
    Ok((wrong, skipped))
}

fn print(found: &Found) {
    println!("{} pairs of small trees, the reading by the Rust's ways as the Rust", found.pairs);
    println!("  by the library's as the library, which differs from the Rust on {}", found.own);
    println!("  {} hang on the order of ignoring pointless groups", found.by_order);
    println!("  {} others differ, {} by a number alone:", found.different, found.by_one);
    for (number, smallest) in &found.smallest {
        let (pairs, records, text) = (smallest.pairs, smallest.records, &smallest.text);
        println!("  number {number}: {pairs} pairs, from {records} records on: {text}");
    }
}

/// What the document states of the search: the counts, that the library differs
/// from the Rust only where it answers as the W3C text, and by number how many
/// records the smallest case with a difference has.
fn hold_search(document: &Document, found: &Found) -> Vec<String> {
    let mut wrong = Vec::new();
    let counts = [
        (found.pairs, "pairs of trees"),
        (found.own, "pairs the library differs"),
        (found.by_order, "hang on the order"),
        (found.different, "others differ"),
        (found.by_one, "by a number alone"),
    ];
    for (count, words) in counts {
        let words = format!("{} {words}", grouped(count));
        if !document.says(&words) {
            wrong.push(format!("the document does not say '{words}'"));
        }
    }
    let alone = found.smallest.get(&OWN).map_or(0, |smallest| smallest.pairs);
    if alone != found.own {
        wrong.push(format!("{} own answers, {alone} of them the W3C text's", found.own));
    }
    for number in BY_RULES {
        let of_number = document.cases.iter().filter(|case| case.number == Some(number));
        let stated = of_number.filter_map(marks::different).map(Paper::records).min();
        let got = found.smallest.get(&number).map(|smallest| smallest.records);
        if stated != got {
            wrong.push(format!("number {number}: smallest {stated:?} records, found {got:?}"));
        }
    }
    wrong
}

/// 486032 as 486,032.
fn grouped(count: u64) -> String {
    let digits = count.to_string();
    let comma = |at: usize| at > 0 && (digits.len() - at) % 3 == 0;
    let group = |(at, digit)| if comma(at) { format!(",{digit}") } else { format!("{digit}") };
    digits.char_indices().map(group).collect()
}
