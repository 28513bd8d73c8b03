//! A case of docs/DIFFERENCES.md: two trees with what the sheet says of their
//! leaves, or one tree, or a chain; and what the document states of it.

use std::{fmt, panic};

use cases::stated;
use common::chain::Chain;
use common::notation::parse;
use common::sheet::{Leaf, Sheet};
use common::tree::{Kind, Tree};

pub struct Case {
    /// The row's number; nothing for a case that stands elsewhere.
    pub number: Option<u32>,
    pub subject: Subject,
    /// The mark, the total range or the refusal, as `fails 122`.
    pub stated: String,
    /// What the document states of the Rust, where that differs.
    pub rust: Option<String>,
    /// The W3C text's answer, `valid` or `fails`, or its total range.
    pub w3c: Option<String>,
}

pub enum Subject {
    Marked(Paper),
    Tree(Tree),
    /// A tree alone that the notation does not have.
    Bytes(Vec<u8>),
    Chain(Chain),
}

/// Two trees as they are written, with the statements beside them.
pub struct Paper {
    pub derived: Tree,
    pub base: Tree,
    pub statements: Vec<String>,
    pub sheet: Sheet,
}

pub fn tree(text: &str) -> Result<Tree, String> {
    panic::catch_unwind(|| parse(text)).map_err(|_| format!("no tree: {text}"))
}

impl Paper {
    /// `DERIVED | BASE`: equal letters ok, others 140, names by place, and then
    /// the statements, as tools/README.md describes a paper.
    pub fn new(text: &str, statements: Vec<String>) -> Result<Paper, String> {
        let (derived, base) = text.split_once(" | ").ok_or(format!("no two trees: {text}"))?;
        let (derived, base) = (tree(derived)?, tree(base)?);
        let mut found = Vec::new();
        let mut numbered = [derived.clone(), base.clone()];
        for tree in &mut numbered {
            stated::number(tree, &mut found);
        }
        if found.is_empty() {
            found.push((Kind::Element, 0));
        }
        let mut sheet = plain(&found, numbered);
        for statement in &statements {
            state(&mut sheet, &found, statement).ok_or(format!("no statement: {statement}"))?;
        }
        Ok(Paper { derived, base, statements, sheet })
    }

    /// Both trees together.
    pub fn records(&self) -> usize {
        self.derived.records() + self.base.records()
    }
}

/// The sheet without statements.
fn plain(found: &[(Kind, u8)], [derived, base]: [Tree; 2]) -> Sheet {
    let n = found.len();
    let leaf = |(place, (kind, _)): (usize, &(Kind, u8))| match kind {
        Kind::Wildcard => Leaf::wildcard(0),
        _ => Leaf::element(place as u16),
    };
    let leaves = found.iter().enumerate().map(leaf).collect();
    let equal: Vec<u8> = (0..n * n).map(|at| if at / n == at % n { 0 } else { 140 }).collect();
    Sheet { leaves, first: equal.clone(), second: equal, derived, base }
}

/// `LEAVES : name N` or `LEAF | LEAF : VERDICT`; nothing where it is neither.
fn state(sheet: &mut Sheet, found: &[(Kind, u8)], statement: &str) -> Option<()> {
    let (leaves, said) = statement.split_once(" : ")?;
    let place = |text: &str| {
        let leaf = tree(text).ok()?;
        found.iter().position(|l| *l == (leaf.kind, leaf.leaf))
    };
    if let Some(name) = said.strip_prefix("name ") {
        for leaf in leaves.split(", ") {
            sheet.leaves[place(leaf)?].name = name.parse().ok()?;
        }
        return Some(());
    }
    let verdict = match said {
        "ok" => 0,
        "undecided" => 1,
        reason => reason.parse().ok().filter(|reason| (140..=152).contains(reason))?,
    };
    let (derived, base) = leaves.split_once(" | ")?;
    let at = sheet.at(place(derived)? as u8, place(base)? as u8);
    (sheet.first[at], sheet.second[at]) = (verdict, verdict);
    Some(())
}

impl fmt::Display for Subject {
    fn fmt(&self, f: &mut fmt::Formatter<'_>) -> fmt::Result {
        match self {
            Subject::Marked(paper) => {
                write!(f, "{} | {}", paper.derived, paper.base)?;
                paper.statements.iter().try_for_each(|statement| write!(f, ", {statement}"))
            }
            Subject::Tree(tree) => write!(f, "{tree}"),
            Subject::Bytes(bytes) => write!(f, "a tree of {} bytes", bytes.len()),
            Subject::Chain(chain) => write!(f, "a chain of {} levels", chain.len()),
        }
    }
}
