//! The cases as schemas, given to Java's own validator with full schema
//! checking, and its answers held to the document's table of them.

use std::collections::{BTreeMap, BTreeSet};
use std::fs;
use std::io;
use std::path::Path;
use std::process::{Command, Stdio};

use common::schema;
use common::tree::Tree;

use crate::case::{Case, Subject};
use crate::document::Document;

const FOLDER: &str = "target/compare/differences-schemas";
const DRIVER: &str = "compare/differences/Answers.java";
const ACCEPTED: &str = "accepted";

/// How the rows of the document's table begin.
const AS_W3C: &str = "as the W3C column";
const REJECTS: &str = "rejects, where the W3C column has valid";
const ACCEPTS: &str = "accepts, where the W3C column has fails";
const NO_SCHEMA: &str = "rejects the two types also where neither restricts the other";
const NOT_ASKED: &str = "not asked";
/// The numbers that the table has.
const ASKED: std::ops::RangeInclusive<u32> = 6..=28;

/// What Java says of a case.
pub struct Said<'a> {
    case: &'a Case,
    number: u32,
    /// 'accepted', or the code of the first error.
    restricting: String,
    /// The same where neither type restricts the other.
    apart: String,
}

impl Said<'_> {
    /// The table's row that it belongs to.
    fn class(&self) -> Option<&'static str> {
        if self.apart != ACCEPTED {
            return Some(NO_SCHEMA);
        }
        match (self.case.w3c.as_deref()?, self.restricting == ACCEPTED) {
            ("valid", true) | ("fails", false) => Some(AS_W3C),
            ("valid", false) => Some(REJECTS),
            _ => Some(ACCEPTS),
        }
    }
}

/// Why Java is not asked: it takes a Java that runs a source file, which needs
/// its compiler, and of the version whose answers the document states.
pub fn not_asked(document: &Document) -> Option<String> {
    let version = |name| Command::new(name).arg("-version").output();
    let (Ok(java), Ok(_)) = (version("java"), version("javac")) else {
        return Some("java or javac is missing".into());
    };
    let text = String::from_utf8_lossy(&java.stderr);
    let major = text.split('"').nth(1).and_then(|version| version.split('.').next());
    let major = major.unwrap_or("of an unknown version");
    let stated = document.says(&format!("(Java {major},"));
    (!stated).then(|| format!("this is Java {major}, and the table is of another"))
}

pub fn ask(cases: &[Case]) -> io::Result<Vec<Said<'_>>> {
    fs::create_dir_all(FOLDER)?;
    let mut written = Vec::new();
    for case in cases {
        let number = case.number.filter(|number| ASKED.contains(number));
        if let (Some(number), Some((derived, base))) = (number, schema_of(&case.subject)) {
            let name = format!("case{}", written.len());
            let file = |part| Path::new(FOLDER).join(format!("{name}.{part}.xsd"));
            fs::write(file("restricting"), schema::restricting(derived, base))?;
            fs::write(file("apart"), schema::apart(derived, base))?;
            written.push((name, number, case));
        }
    }
    let names = written.iter().map(|(name, ..)| name);
    let mut command = Command::new("java");
    command.arg(DRIVER).arg(FOLDER).args(names).stderr(Stdio::inherit());
    let output = command.output()?;
    let text = String::from_utf8_lossy(&output.stdout);
    let lines: Vec<&str> = text.lines().collect();
    assert!(lines.len() == written.len(), "the driver wrote {} lines", lines.len());
    let said = |((name, number, case), line): ((String, _, _), &&str)| {
        let words: Vec<&str> = line.split('\t').collect();
        assert!(words.len() == 3 && words[0] == name, "the driver's line for {name}: {line}");
        Said { case, number, restricting: words[1].into(), apart: words[2].into() }
    };
    Ok(written.into_iter().zip(&lines).map(said).collect())
}

/// The two trees where a schema can state the case: equal names are ok, others
/// not, and every name is ok for a wildcard.
fn schema_of(subject: &Subject) -> Option<(&Tree, &Tree)> {
    let Subject::Marked(paper) = subject else {
        return None;
    };
    let for_wildcard = |statement: &String| statement.ends_with(" | w : ok");
    paper.statements.iter().all(for_wildcard).then_some((&paper.derived, &paper.base))
}

/// What was asked, and the answers that are not as our reading's.
pub fn print(said: &[Said<'_>]) {
    println!("{} of them were put to Java's validator:", said.len());
    for said in said.iter().filter(|said| said.class() != Some(AS_W3C)) {
        println!("  number {}: {} is {}", said.number, said.case.subject, said.restricting);
    }
}

/// What is not as the document's table states.
pub fn wrong(said: &[Said<'_>], document: &Document) -> Vec<String> {
    let mut found: BTreeMap<&str, BTreeSet<u32>> = BTreeMap::new();
    for said in said {
        found.entry(said.class().unwrap_or(NOT_ASKED)).or_default().insert(said.number);
    }
    let asked: BTreeSet<u32> = said.iter().map(|said| said.number).collect();
    let rest = ASKED.filter(|number| !asked.contains(number));
    found.entry(NOT_ASKED).or_default().extend(rest);
    let mut wrong = Vec::new();
    for row in [AS_W3C, REJECTS, ACCEPTS, NO_SCHEMA, NOT_ASKED] {
        let got = found.remove(row).unwrap_or_default();
        let stated = document.second_cell(row);
        if stated.and_then(numbers).as_ref() != Some(&got) {
            wrong.push(format!("Java, {row}: stated {stated:?}, found {got:?}"));
        }
    }
    wrong
}

/// `6 to 8, 10`.
fn numbers(text: &str) -> Option<BTreeSet<u32>> {
    let mut numbers = BTreeSet::new();
    for part in text.split(", ") {
        let (first, last) = part.split_once(" to ").unwrap_or((part, part));
        numbers.extend(first.parse::<u32>().ok()?..=last.parse::<u32>().ok()?);
    }
    Some(numbers)
}
