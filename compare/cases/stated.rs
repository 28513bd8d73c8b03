//! Document 01's examples with the marks stated there and in document 02, the
//! cases by which doubtful places were settled, those about a base that may not
//! occur, and the sheets that they describe.

use std::fmt;

use common::notation::parse;
use common::sheet::{Leaf, Sheet};
use common::tree::{Kind, Tree};

/// What a sheet adds to 'equal letters ok, others 140'.
pub enum Also {
    Nothing,
    /// The first table's verdict on a derived and a base leaf.
    First(&'static str, &'static str, u8),
    /// The second table's.
    Second(&'static str, &'static str, u8),
    /// One local name number for every element.
    OneName,
}

use Also::{First, Nothing, OneName, Second};

impl fmt::Display for Also {
    fn fmt(&self, f: &mut fmt::Formatter<'_>) -> fmt::Result {
        match self {
            Nothing => Ok(()),
            First(d, b, v) => write!(f, ", first verdict {d} against {b} is {v}"),
            Second(d, b, v) => write!(f, ", second verdict {d} against {b} is {v}"),
            OneName => write!(f, ", one name number for all"),
        }
    }
}

/// The mark of a sheet: this project's and the Rust's, or each of them, this
/// project's first (document 02 §5).
pub enum Stated {
    Both(&'static str),
    Each(&'static str, &'static str),
}

use Stated::{Both, Each};

impl Stated {
    pub fn mark(&self) -> &'static str {
        match self {
            Both(mark) | Each(mark, _) => mark,
        }
    }

    pub fn rust_mark(&self) -> &'static str {
        match self {
            Both(mark) | Each(_, mark) => mark,
        }
    }
}

/// Derived, base, what the sheet adds, the mark.
pub type Marked = (&'static str, &'static str, Also, Stated);

/// All that is stated here.
pub fn every() -> impl Iterator<Item = &'static Marked> {
    EXAMPLES.iter().chain(&SETTLED).chain(&MAY_NOT_OCCUR).chain(&NEARLY)
}

/// Document 01, 'Examples', as document 02 has them.
pub static EXAMPLES: [Marked; 12] = [
    ("a", "a(0,1)", Nothing, Both("passes")),
    ("a(0,1)", "a", Nothing, Both("fails 122")),
    ("S[a,b]", "S[a,c(0,1),b]", Nothing, Both("passes")),
    ("S[a,b]", "S[a,c,b]", Nothing, Both("fails 140")),
    ("a", "S(0,0)[a]", Nothing, Each("fails 105", "passes")),
    ("C[]", "C[a,b]", Nothing, Both("passes")),
    ("S(2,2)[a,b]", "C(4,4)[a,b]", Nothing, Both("passes")),
    ("S(2,2)[a,b]", "C(1,3)[a,b]", Nothing, Both("fails 116")),
    ("S[a,b]", "w(0,1)", Nothing, Both("fails 113")),
    ("a", "A[a]", Nothing, Both("undecided")),
    ("S(0,0)[a]", "a", Nothing, Both("fails 105")),
    ("S[a,b]", "S[e,c]", First("a", "e", 1), Both("undecided")),
];

/// Places where document 01 could be read in two ways.
pub static SETTLED: [Marked; 8] = [
    ("S(0,1)[w]", "A(0,1)[]", Nothing, Both("fails 119")),
    ("a(0,0)", "C(2,2)[w(0,0),w(2,2)]", Nothing, Both("fails 106")),
    ("a(0,1)", "S(0,0)[a]", Nothing, Both("fails 105")),
    ("a", "S(0,1)[w(2,2),b(0,*)]", Second("a", "w", 0), Both("fails 101")),
    ("a", "a(0,0)", First("a", "a", 1), Both("undecided")),
    ("S(0,*)[]", "C(0,1)[]", Nothing, Both("fails 116")),
    ("A(0,1)[a(0,1),b(0,*)]", "A(0,1)[b(0,*),a(0,1)]", OneName, Both("fails 140")),
    ("C[a,C[]]", "a", Nothing, Both("passes")),
];

/// Document 02 §5: a base that may not occur lets no element through.
pub static MAY_NOT_OCCUR: [Marked; 26] = [
    ("a", "C(0,0)[a]", Nothing, Each("fails 106", "passes")),
    ("a", "S(0,0)[b]", First("a", "b", 1), Each("fails 105", "undecided")),
    ("a", "C(0,0)[b]", First("a", "b", 1), Each("fails 106", "undecided")),
    ("a", "S(0,0)[a]", Second("a", "a", 1), Each("fails 105", "undecided")),
    ("a", "S(0,0)[w]", Second("a", "w", 0), Each("fails 105", "passes")),
    ("a", "C(0,0)[w(0,*)]", Second("a", "w", 1), Each("fails 106", "undecided")),
    ("a", "S(0,0)[A[a]]", Nothing, Each("fails 105", "undecided")),
    ("a", "C(0,0)[b,A(0,1)[]]", Nothing, Each("fails 106", "undecided")),
    ("a", "S(0,0)[b(0,1),a]", Nothing, Each("fails 105", "passes")),
    ("a", "S(0,0)[C(0,2)[a],b(0,1)]", Nothing, Each("fails 105", "passes")),
    ("a", "C(0,0)[S[b,c],S[a,b(0,1)]]", Nothing, Each("fails 106", "passes")),
    ("a(0,*)", "S(0,0)[a(0,*)]", Nothing, Each("fails 105", "passes")),
    ("a(0,1)", "C(0,0)[b,a(0,1)]", Nothing, Each("fails 106", "passes")),
    // As tidying leaves the roots.
    ("S[a]", "S(0,0)[a]", Nothing, Each("fails 105", "passes")),
    ("C[S[a]]", "C(0,0)[a]", Nothing, Each("fails 106", "passes")),
    ("S[b(0,0),a]", "C(0,0)[a]", Nothing, Each("fails 106", "passes")),
    ("a", "S(0,0)[S[a]]", Nothing, Each("fails 105", "passes")),
    ("a", "C(0,0)[S[a]]", Nothing, Each("fails 106", "passes")),
    ("a", "S(0,0)[C[b,a]]", Nothing, Each("fails 106", "passes")),
    ("a", "S(0,0)[C(0,0)[b],a]", Nothing, Each("fails 105", "passes")),
    // Where the second reading of the Rust fails too.
    ("a", "S(0,0)[b]", Nothing, Both("fails 105")),
    ("a", "C(0,0)[b]", Nothing, Both("fails 106")),
    ("a(0,1)", "C(0,0)[a]", Nothing, Both("fails 106")),
    ("a", "S(0,0)[]", Nothing, Both("fails 105")),
    ("a", "C(0,0)[]", Nothing, Both("fails 106")),
    ("a", "S(0,0)[a,b]", Nothing, Both("fails 105")),
];

/// Sheets that are nearly so.
pub static NEARLY: [Marked; 22] = [
    // The base may occur.
    ("a", "S(0,1)[a]", Nothing, Both("passes")),
    ("a", "C(0,1)[a]", Nothing, Both("passes")),
    ("a", "S(0,*)[b]", First("a", "b", 1), Both("undecided")),
    // Once tidied it may occur, or is an element.
    ("a", "S[S(0,0)[a],a]", Nothing, Both("passes")),
    ("a", "C[b,C(0,0)[a]]", Nothing, Both("fails 140")),
    ("a", "S[S(0,0)[a]]", Nothing, Both("fails 120")),
    ("a", "C[S(0,0)[a],C(0,0)[a]]", Nothing, Both("fails 120")),
    ("a", "S(0,1)[S(0,0)[a]]", Nothing, Both("fails 120")),
    // It is no sequence or choice.
    ("a", "a(0,0)", Nothing, Both("fails 124")),
    ("a", "w(0,0)", Second("a", "w", 0), Both("fails 101")),
    ("a", "A(0,1)[a(0,0)]", Nothing, Both("undecided")),
    // The derived root may not occur either, or is no element.
    ("a(0,0)", "S(0,0)[b]", Nothing, Both("passes")),
    ("a(0,0)", "C(0,0)[]", Nothing, Both("passes")),
    ("S[a(0,0)]", "S(0,0)[a]", Nothing, Both("fails 105")),
    ("S(0,0)[a]", "S(0,0)[b]", Nothing, Both("passes")),
    ("S(0,1)[a]", "S(0,0)[a]", Nothing, Both("fails 105")),
    ("C(0,1)[a]", "C(0,0)[a]", Nothing, Both("fails 106")),
    ("S[a,b]", "C(0,0)[a,b]", Nothing, Both("fails 116")),
    ("S[]", "C(0,0)[a]", Nothing, Both("passes")),
    ("C[a,b]", "S(0,0)[C[a,b],a]", Nothing, Both("fails 115")),
    ("w", "S(0,0)[w]", Nothing, Both("fails 114")),
    ("A[a]", "S(0,0)[a]", Nothing, Both("fails 115")),
];

/// The sheet that an example describes: its leaves are those of the two trees,
/// in the order in which they turn up, and one element where there are none.
pub fn sheet(derived: &str, base: &str, also: &Also) -> Sheet {
    let (mut derived, mut base) = (parse(derived), parse(base));
    let mut found = Vec::new();
    if let First(d, b, _) | Second(d, b, _) = also {
        number(&mut parse(d), &mut found);
        number(&mut parse(b), &mut found);
    }
    number(&mut derived, &mut found);
    number(&mut base, &mut found);
    if found.is_empty() {
        found.push((Kind::Element, 0));
    }
    let n = found.len();
    let leaf = |(place, (kind, _)): (usize, &(Kind, u8))| match kind {
        Kind::Wildcard => Leaf::wildcard(0),
        _ if matches!(also, OneName) => Leaf::element(0),
        _ => Leaf::element(place as u16),
    };
    let equal: Vec<u8> = (0..n * n).map(|at| if at / n == at % n { 0 } else { 140 }).collect();
    let leaves = found.iter().enumerate().map(leaf).collect();
    let mut sheet = Sheet { leaves, first: equal.clone(), second: equal, derived, base };
    if let First(d, b, v) | Second(d, b, v) = also {
        let row = number(&mut parse(d), &mut found);
        let column = number(&mut parse(b), &mut found);
        let at = sheet.at(row, column);
        match also {
            First(..) => sheet.first[at] = *v,
            _ => sheet.second[at] = *v,
        }
    }
    sheet
}

/// Gives each leaf below `tree` its place in `found`, adding it where it is
/// new; the root's place.
pub fn number(tree: &mut Tree, found: &mut Vec<(Kind, u8)>) -> u8 {
    if tree.kind.is_leaf() {
        let leaf = (tree.kind, tree.leaf);
        let place = found.iter().position(|l| *l == leaf).unwrap_or(found.len());
        if place == found.len() {
            found.push(leaf);
        }
        tree.leaf = place as u8;
    }
    for item in &mut tree.items {
        number(item, found);
    }
    tree.leaf
}
