//! The content models on which the peers are measured, each a derived and a
//! base tree in document 01's notation. XML Schema allows them: each name
//! points to one particle at every place.

use cases::stated::{self, Also};
use common::notation::parse;
use common::sheet::Sheet;
use common::tree::{Kind, Tree};

pub struct Model {
    pub name: &'static str,
    derived: String,
    base: String,
}

/// A base of 29 records, and a derived tree of 24 for it.
const BASE: &str = "S[a,b(0,1),C(0,*)[c,d,S[e,f(0,1)]],S(0,3)[g,h(0,1),i(0,*)],\
                    C[j,k,S[l,m]],n(0,1),o(0,*),S(0,1)[p,C(0,5)[q,r,s],t(0,1)],u]";
const DERIVED: &str = "S[a,b,C(0,5)[c,S[e,f]],S(1,2)[g,i(0,3)],\
                       C[j,S[l,m]],n,o(0,2),S(0,1)[p,C(1,3)[q,s]],u]";
/// The blocks of the large model, 12 and 10 records each.
const BLOCKS: usize = 21;

pub fn every() -> Vec<Model> {
    let model = |name, derived: &str, base: &str| Model {
        name,
        derived: derived.into(),
        base: base.into(),
    };
    vec![
        model("small", "S[a,b]", "S[a,c(0,1),b]"),
        model("middle", DERIVED, BASE),
        model("middle-failing", &DERIVED.replace(",u]", ",u(0,1)]"), BASE),
        model("middle-wildcard", DERIVED, "w(0,*)"),
        Model { name: "large", derived: blocks(false), base: blocks(true) },
    ]
}

/// A row of blocks over eight names each; the names come back every eighth
/// block.
fn blocks(base: bool) -> String {
    let block = |k: usize| {
        let name = |i: usize| Tree::leaf(Kind::Element, (8 * (k % 8) + i) as u8, (1, Some(1)));
        let [a, b, c, d, e, f, g, h] = std::array::from_fn(|i| name(i).to_string());
        if base {
            format!("S(1,*)[{a},C(0,*)[{b},{c},{d}],{e}(0,1),C[{f},S[{g},{h}]]]")
        } else {
            format!("S(1,*)[{a},C(0,*)[{b},{d}],C[{f},S[{g},{h}]]]")
        }
    };
    let rows: Vec<String> = (0..BLOCKS).map(block).collect();
    format!("S[{}]", rows.join(","))
}

impl Model {
    pub fn derived(&self) -> Tree {
        parse(&self.derived)
    }

    pub fn base(&self) -> Tree {
        parse(&self.base)
    }

    /// Equal names ok, others 140; every name is ok for a wildcard.
    pub fn sheet(&self) -> Sheet {
        let mut sheet = stated::sheet(&self.derived, &self.base, &Also::Nothing);
        let n = sheet.leaves.len();
        for at in 0..n * n {
            if sheet.leaves[at % n].kind == Kind::Wildcard {
                sheet.second[at] = 0;
            }
        }
        sheet
    }
}
