//! docs/DIFFERENCES.md read: its rows and its cases. What stands in backquotes
//! and has a stroke is a case, or a statement beside one, wherever it stands;
//! in the column 'smallest case' everything in backquotes is a case, a
//! statement, a tree, or a theorem's name. Anything else is an error, so that
//! no case can be added that nothing runs.

use common::tree::{Kind, Tree};

use crate::case::{self, Case, Paper, Subject};

/// The rows whose cases must say what the W3C text's answer is.
pub const BY_RULES: std::ops::RangeInclusive<u32> = 6..=25;
const COLUMN: &str = "smallest case";
/// How the cell of a row begins that has no case.
const NO_CASE: [&str; 2] = ["none: ", "never reached "];
const EMPTY: &str = "the empty byte string ";
const LONG: (&str, &str) = ("a tree of ", " records ");
const CHAIN: (&str, &str) = ("a chain of ", " levels with content in the first alone ");
const RUST: &str = "; the Rust: ";
const W3C: &str = "W3C";

pub struct Document {
    pub rows: u32,
    pub cases: Vec<Case>,
    text: String,
}

impl Document {
    /// The second cell of the table row whose first cell this is.
    pub fn second_cell(&self, first: &str) -> Option<&str> {
        let row = self.text.lines().find_map(|line| line.strip_prefix(&format!("| {first} | ")))?;
        row.strip_suffix(" |")
    }

    /// Whether the document has these words.
    pub fn says(&self, words: &str) -> bool {
        self.text.contains(words)
    }
}

pub fn read(text: &str) -> Result<Document, String> {
    let mut document = Document { rows: 0, cases: Vec::new(), text: text.into() };
    let mut has_cases = false;
    for (at, line) in text.lines().enumerate() {
        let wrong = |message: String| format!("line {}: {message}", at + 1);
        let mut cells = if line.starts_with('|') { cells(line) } else { vec![line.into()] };
        if let Ok(number) = cells[0].parse() {
            document.rows += 1;
            if number != document.rows {
                return Err(wrong(format!("number {number} in place of {}", document.rows)));
            }
            if has_cases {
                let cell = cells.pop().unwrap_or_default();
                document.cases.extend(row(number, &cell).map_err(wrong)?);
            }
        } else if line.starts_with("| ") {
            has_cases = cells[cells.len() - 1] == COLUMN;
        }
        for cell in cells {
            document.cases.extend(cases(None, &cell).map_err(wrong)?);
        }
    }
    Ok(document)
}

/// The cells of a row; a stroke inside a cell has a backslash before it.
fn cells(line: &str) -> Vec<String> {
    let line = line.trim().trim_matches('|').replace("\\|", "\n");
    line.split('|').map(|cell| cell.trim().replace('\n', "|")).collect()
}

/// The cases of a row's last cell.
fn row(number: u32, cell: &str) -> Result<Vec<Case>, String> {
    let mut found = cases(Some(number), cell)?;
    found.extend(in_words(number, cell).or_else(|| of_chain(number, cell)));
    if found.is_empty() && !NO_CASE.iter().any(|start| cell.starts_with(start)) {
        return Err(format!("no case: {cell}"));
    }
    let answered = found.iter().filter(|case| case.w3c.is_some()).count();
    if answered != cell.matches(W3C).count() {
        return Err(format!("a W3C answer that stands beside no case: {cell}"));
    }
    if BY_RULES.contains(&number) && answered < found.len() {
        return Err(format!("a case without a W3C answer: {cell}"));
    }
    Ok(found)
}

/// A tree that the notation does not have.
fn in_words(number: u32, cell: &str) -> Option<Case> {
    let (bytes, rest) = if let Some(rest) = cell.strip_prefix(EMPTY) {
        (Vec::new(), rest)
    } else {
        let (records, rest) = cell.strip_prefix(LONG.0)?.split_once(LONG.1)?;
        let leaf = Tree::leaf(Kind::Element, 0, (1, Some(1)));
        let items = vec![leaf; records.parse::<usize>().ok()?.checked_sub(1)?];
        (Tree::group(Kind::Sequence, (1, Some(1)), items).encode(), rest)
    };
    let (stated, _) = mark(rest)?;
    let subject = Subject::Bytes(bytes);
    Some(Case { number: Some(number), subject, stated, rust: None, w3c: None })
}

/// A chain whose first level is the element a and the others absent, with the
/// answer, and after it the Rust's.
fn of_chain(number: u32, cell: &str) -> Option<Case> {
    let (levels, rest) = cell.strip_prefix(CHAIN.0)?.split_once(CHAIN.1)?;
    let (stated, rest) = mark(rest)?;
    let rust = Some(rest.strip_prefix(RUST)?.to_string());
    let mut chain = vec![None; levels.parse().ok()?];
    *chain.first_mut()? = Some(Tree::leaf(Kind::Element, 0, (1, Some(1))));
    Some(Case { number: Some(number), subject: Subject::Chain(chain), stated, rust, w3c: None })
}

/// The cases of a text: a row's last cell, or another text without a number.
fn cases(number: Option<u32>, text: &str) -> Result<Vec<Case>, String> {
    let parts: Vec<&str> = text.split('`').collect();
    let mut cases = Vec::new();
    let mut at = 1;
    while at < parts.len() {
        let code = parts[at];
        let mut statements = Vec::new();
        while is_case(code) && parts.get(at + 1) == Some(&", ") && is_statement(parts[at + 2]) {
            statements.push(parts[at + 2].to_string());
            at += 2;
        }
        let after = *parts.get(at + 1).ok_or(format!("an open backquote: {text}"))?;
        at += 2;
        let subject = if is_case(code) {
            Subject::Marked(Paper::new(code, statements)?)
        } else if number.is_none() || is_theorem(code) {
            continue;
        } else {
            Subject::Tree(case::tree(code)?)
        };
        let claim = match subject {
            Subject::Tree(_) => total(after).or_else(|| mark(after)),
            _ => mark(after),
        };
        let (stated, rest) = claim.ok_or(format!("nothing is stated of {subject}"))?;
        let rust = rusts(rest, &subject)?;
        let w3c = w3c(rest, &subject)?;
        cases.push(Case { number, subject, stated, rust, w3c });
    }
    Ok(cases)
}

fn is_statement(code: &str) -> bool {
    code.contains(" : ")
}

fn is_case(code: &str) -> bool {
    code.contains('|') && !is_statement(code)
}

/// No tree has an underscore.
fn is_theorem(code: &str) -> bool {
    code.contains('_') && code.bytes().all(|byte| byte == b'_' || byte.is_ascii_lowercase())
}

/// The mark or refusal that a text begins with, and what follows it.
fn mark(text: &str) -> Option<(String, &str)> {
    let text = text.trim_start_matches(':').trim_start();
    let text = text.strip_prefix("is ").unwrap_or(text);
    let plain = ["passes", "undecided"];
    if let Some(word) = plain.iter().find(|word| text.starts_with(**word)) {
        return Some((word.to_string(), &text[word.len()..]));
    }
    let word = ["fails ", "refused "].into_iter().find(|word| text.starts_with(word))?;
    let digits = text[word.len()..].bytes().take_while(u8::is_ascii_digit).count();
    (digits > 0).then(|| (text[..word.len() + digits].to_string(), &text[word.len() + digits..]))
}

/// The total range that stands after a colon, and what follows it.
fn total(text: &str) -> Option<(String, &str)> {
    range(text.strip_prefix(':')?.trim_start())
}

/// The total range that a text begins with, and what follows it.
fn range(text: &str) -> Option<(String, &str)> {
    let end = text.find(&[';', '(', '.'][..]).unwrap_or(text.len());
    let (min, max) = text[..end].trim_end().split_once(", ")?;
    let known = |text: &str| text == "too large" || text.parse::<u64>().is_ok();
    (known(min) && (max == "unbounded" || known(max)))
        .then(|| (format!("{min}, {max}"), &text[end..]))
}

/// The Rust's own answer that stands after a mark or a total range.
fn rusts(text: &str, subject: &Subject) -> Result<Option<String>, String> {
    let Some(said) = text.strip_prefix(RUST) else {
        return Ok(None);
    };
    let answer = match subject {
        Subject::Tree(_) => range(said),
        _ => mark(said),
    };
    let answer = answer.ok_or(format!("no answer of the Rust on {subject}: {said}"))?;
    Ok(Some(answer.0))
}

/// The W3C text's answer that stands after a mark or a total range.
fn w3c(text: &str, subject: &Subject) -> Result<Option<String>, String> {
    let Some((_, said)) = text.split_once(W3C) else {
        return Ok(None);
    };
    let said = said.strip_prefix(", as we read it").unwrap_or(said);
    let answer = match subject {
        Subject::Tree(_) => total(said).map(|(total, _)| total),
        _ => {
            let word = |word: &&str| said.starts_with(&format!(": {word}"));
            ["valid", "fails"].iter().find(|w| word(w)).map(|word| word.to_string())
        }
    };
    answer.map(Some).ok_or(format!("no W3C answer of {subject}: {said}"))
}
