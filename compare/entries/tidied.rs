//! Document 01's tidying, read once more; and the tidied trees with equal ones
//! taken for one, so that what is known of a tree is known of all its equals.

use std::collections::HashMap;

use common::tree::{Kind, Pair, Tree};

const ONCE: Pair = (1, Some(1));

pub fn tidied(tree: &Tree) -> Tree {
    if !matches!(tree.kind, Kind::Sequence | Kind::Choice) {
        return tree.clone();
    }
    let mut items = Vec::new();
    for item in tree.items.iter().map(tidied) {
        if item.kind == tree.kind && item.pair == ONCE {
            items.extend(item.items);
        } else if item.pair.1 != Some(0) {
            items.push(item);
        }
    }
    if items.len() == 1 {
        let lone = &items[0];
        if tree.pair == ONCE {
            return items.remove(0);
        }
        if tree.kind == Kind::Sequence && lone.kind == Kind::Choice && lone.pair == ONCE {
            return Tree { pair: tree.pair, ..items.remove(0) };
        }
    }
    Tree { items, ..tree.clone() }
}

/// Exact, and cut where it is beyond any record's pair.
pub type Total = (u128, Option<u128>);

/// A tree by its record, the numbers of its items, and what is asked of it.
pub struct Node {
    pub kind: Kind,
    pub leaf: u8,
    pub pair: Pair,
    pub items: Vec<usize>,
    pub emptiable: bool,
    pub total: Total,
}

#[derive(Default)]
pub struct Nodes {
    pub every: Vec<Node>,
    numbers: HashMap<(u8, u8, Pair, Vec<usize>), usize>,
}

impl Nodes {
    /// The number of a tree; equal trees have the same.
    pub fn number(&mut self, tree: &Tree) -> usize {
        let items: Vec<usize> = tree.items.iter().map(|item| self.number(item)).collect();
        let key = (tree.kind as u8, tree.leaf, tree.pair, items.clone());
        if let Some(number) = self.numbers.get(&key) {
            return *number;
        }
        let emptiable = self.emptiable(tree, &items);
        let total = self.total(tree, &items);
        let (kind, leaf, pair) = (tree.kind, tree.leaf, tree.pair);
        self.every.push(Node { kind, leaf, pair, items, emptiable, total });
        self.numbers.insert(key, self.every.len() - 1);
        self.every.len() - 1
    }

    fn emptiable(&self, tree: &Tree, items: &[usize]) -> bool {
        let mut each = items.iter().map(|item| self.every[*item].emptiable);
        tree.pair.0 == 0
            || match tree.kind {
                Kind::Element | Kind::Wildcard => false,
                Kind::Choice => items.is_empty() || each.any(|emptiable| emptiable),
                Kind::Sequence | Kind::All => each.all(|emptiable| emptiable),
            }
    }

    fn total(&self, tree: &Tree, items: &[usize]) -> Total {
        let (min, max) = (u128::from(tree.pair.0), tree.pair.1.map(u128::from));
        let totals = || items.iter().map(|item| self.every[*item].total);
        let (least, most) = match tree.kind {
            Kind::Element | Kind::Wildcard => return (min, max),
            Kind::Choice => {
                let most = totals().try_fold(0, |most: u128, item| Some(most.max(item.1?)));
                (totals().map(|item| item.0).min().unwrap_or(0), most)
            }
            Kind::Sequence | Kind::All => {
                let sum = |sum: u128, more| sum.saturating_add(more);
                let most = totals().try_fold(0, |most, item| Some(sum(most, item.1?)));
                (totals().map(|item| item.0).fold(0, sum), most)
            }
        };
        let max = match (max, most) {
            (Some(0), _) | (_, Some(0)) => Some(0),
            (Some(max), Some(most)) => Some(max.saturating_mul(most)),
            _ => None,
        };
        (min.saturating_mul(least), max)
    }
}
