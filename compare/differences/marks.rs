//! What the document states of a case, held to the Rust, to the library and to
//! our reading of the W3C text.

use common::answers::{self, BEYOND, range_text};
use common::chain;
use common::tree::{MOST_RECORDS, RECORD, Tree};
use oracle::bridge;
use w3c::{Answer, Ways};

use crate::case::{Case, Paper, Subject};
use crate::document::BY_RULES;
use crate::search;

const NO_CONTENT: &str = "no content";

/// What is not as stated of a case.
pub fn wrong(case: &Case) -> Vec<String> {
    let mut wrong = Vec::new();
    let mut hold = |who: &str, got: &str, stated: &str| {
        if got != stated {
            wrong.push(format!("{}: stated {stated}, {who} {got}", case.subject));
        }
    };
    let answers = answers(&case.subject);
    hold("expected is", &answers.expected, &case.stated);
    hold("the library", &answers.library, &case.stated);
    if let Some(rust) = &answers.rust {
        hold("the Rust", rust, case.rust.as_ref().unwrap_or(&case.stated));
    }
    if let Some(stated) = &case.w3c {
        hold("our reading of the W3C text", &answers.w3c, stated);
    }
    if let Subject::Chain(chain) = &case.subject {
        wrong.extend(smaller(&chain[..chain.len() - 1]));
    }
    let number = case.number.filter(|number| BY_RULES.contains(number));
    if let (Some(number), Some(paper)) = (number, different(case)) {
        if !search::explains(number, &paper.sheet) {
            wrong.push(format!("{}: differs, but not by this number alone", case.subject));
        }
    }
    wrong
}

/// The paper of a case on which the Rust and our reading differ.
pub fn different(case: &Case) -> Option<&Paper> {
    let Subject::Marked(paper) = &case.subject else {
        return None;
    };
    let w3c = search::reading(&paper.sheet, Ways::W3C)?;
    (w3c != search::rust(&paper.sheet)).then_some(paper)
}

struct Answers {
    /// What the library must answer (compare/expected).
    expected: String,
    library: String,
    /// The Rust's own answer, where it has one.
    rust: Option<String>,
    w3c: String,
}

fn answers(subject: &Subject) -> Answers {
    match subject {
        Subject::Marked(paper) => of_paper(paper),
        Subject::Tree(tree) => {
            let (min, max) = w3c::total::total(tree);
            let max = max.map_or("unbounded".into(), |max| max.to_string());
            Answers { w3c: format!("{min}, {max}"), ..of_bytes(&tree.encode()) }
        }
        Subject::Bytes(bytes) => of_bytes(bytes),
        Subject::Chain(chain) => of_chain(chain),
    }
}

fn of_paper(paper: &Paper) -> Answers {
    let bytes = paper.sheet.encode();
    let w3c = match search::reading(&paper.sheet, Ways::W3C) {
        Some(Answer::Valid) => "valid",
        Some(Answer::Fails) => "fails",
        Some(Answer::Undecided) => "is undecided",
        None => "hangs on the order",
    };
    let expected = expected::sheet::mark(&bytes);
    Answers {
        expected: answers::text(expected.mark),
        library: answers::text(library::mark(&bytes)),
        rust: expected.rust_mark.map(answers::text),
        w3c: w3c.into(),
    }
}

/// The total range of a tree alone, or its refusal.
fn of_bytes(bytes: &[u8]) -> Answers {
    let expected = expected::tree::answers(bytes);
    Answers {
        expected: range_text(expected.total),
        library: range_text((library::total_min(bytes), library::total_max(bytes))),
        rust: expected.rust_total.map(range_text),
        w3c: "has no answer".into(),
    }
}

/// The answers on a chain.
fn of_chain(chain: &[Option<Tree>]) -> Answers {
    let bytes = chain::encode(chain);
    let text = |answer: u64, written: &[u8]| match answer.checked_sub(BEYOND) {
        Some(number) => format!("refused {number}"),
        None if answer == 0 => NO_CONTENT.into(),
        None => Tree::decode(written).to_string(),
    };
    let mut out = vec![0; RECORD * MOST_RECORDS];
    let expected = expected::chain::effective_particle(&bytes);
    let (answer, written) = expected.joined_into(out.len());
    let got = library::effective_particle(&bytes, &mut out);
    Answers {
        expected: text(answer, written),
        library: text(got, &out[..RECORD * (got as usize).min(MOST_RECORDS)]),
        rust: Some(joined(chain)),
        w3c: "has no answer".into(),
    }
}

/// The Rust's own answer on a chain.
fn joined(chain: &[Option<Tree>]) -> String {
    bridge::effective_particle(chain).map_or(NO_CONTENT.into(), |tree| tree.to_string())
}

/// A chain that is one level shorter than a case: the Rust and the library must
/// answer alike, and not that there is no content.
fn smaller(chain: &[Option<Tree>]) -> Option<String> {
    let (rust, library) = (joined(chain), of_chain(chain).library);
    let wrong = rust != library || rust == NO_CONTENT;
    let levels = chain.len();
    wrong.then(|| format!("a chain of {levels} levels: the Rust {rust}, the library {library}"))
}
