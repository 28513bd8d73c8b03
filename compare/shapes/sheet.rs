//! The sheet that a shape stands for.

use std::collections::HashMap;

use common::sheet::{Leaf, MOST_LEAVES, Sheet};
use common::tree::{Kind, Tree};

use crate::{Place, Shape, Verdict};

/// Both tables' verdicts.
const OK: (u8, u8) = (0, 0);
const FAILS: (u8, u8) = (140, 140);

/// A leaf's name, and its places as derived and as base.
#[derive(Clone, Copy)]
struct Role {
    name: u16,
    derived: Option<Place>,
    base: Option<Place>,
}

/// The leaves as they come up in the trees.
#[derive(Default)]
struct Paper {
    leaves: Vec<Leaf>,
    roles: Vec<Role>,
    numbers: HashMap<(Kind8, u16, Option<(bool, Place)>), u8>,
}

/// A kind as a key.
type Kind8 = u8;

impl Paper {
    /// The number of a leaf. The items' elements of one name are one leaf in
    /// both trees.
    fn number(&mut self, kind: Kind, name: u16, derived: bool, place: Place) -> u8 {
        let shared = kind == Kind::Element && place == Place::Item;
        let key = (kind as u8, name, (!shared).then_some((derived, place)));
        let next = self.leaves.len();
        let number = *self.numbers.entry(key).or_insert(next as u8);
        if usize::from(number) == next {
            let leaf = if kind == Kind::Element { Leaf::element(name) } else { Leaf::wildcard(0) };
            self.leaves.push(leaf);
            self.roles.push(Role { name, derived: None, base: None });
        }
        let role = &mut self.roles[usize::from(number)];
        *(if derived { &mut role.derived } else { &mut role.base }) = Some(place);
        number
    }
}

impl Shape {
    /// The sheet with at most so many records in each tree.
    pub fn sheet(&self, records: usize) -> Sheet {
        let mut paper = Paper::default();
        let derived = self.tree(true, records, &mut paper);
        let base = self.tree(false, records, &mut paper);
        while paper.leaves.len() < self.leaves.min(MOST_LEAVES) {
            paper.leaves.push(Leaf::element(0));
            paper.roles.push(Role { name: 0, derived: None, base: None });
        }
        let pairs = paper.roles.iter().flat_map(|d| paper.roles.iter().map(move |b| (d, b)));
        let verdicts: Vec<(u8, u8)> = pairs.map(|(d, b)| self.verdicts(d, b)).collect();
        let (first, second) = verdicts.into_iter().unzip();
        Sheet { leaves: paper.leaves, first, second, derived, base }
    }

    fn tree(&self, derived: bool, records: usize, paper: &mut Paper) -> Tree {
        let side = if derived { &self.derived } else { &self.base };
        let most = self.derived.names.max(self.base.names);
        side.tree(side.times(records), &mut |kind, place, before| {
            // The derived items' names go down, so that all-groups are in
            // another order.
            let turn = before % side.names;
            let name = match place {
                Place::Item if kind == Kind::Wildcard => 0,
                Place::Item if derived => most - 1 - turn,
                Place::Item => turn,
                _ => 0,
            };
            let place = if derived && place != Place::Item { Place::End } else { place };
            paper.number(kind, name as u16, derived, place)
        })
    }

    fn verdicts(&self, d: &Role, b: &Role) -> (u8, u8) {
        let (Some(derived), Some(base)) = (d.derived, b.base) else { return FAILS };
        let row = if derived == Place::Item { &self.main } else { &self.other };
        match row[base.number()] {
            Verdict::Ok => OK,
            Verdict::Undecided => (1, 1),
            Verdict::Second => (0, 1),
            Verdict::Fails => FAILS,
            Verdict::Late => (0, 140),
            Verdict::Equal if d.name == b.name => OK,
            Verdict::Equal => FAILS,
        }
    }
}
