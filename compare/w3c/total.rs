//! Total ranges and emptiness as 3.8.6 and 3.9.6 of the W3C text have them:
//! exact, and unbounded wherever an item is.

use common::tree::{Kind, Tree};

/// A maximum of `None` is unbounded.
pub type Total = (u128, Option<u128>);

pub fn total(tree: &Tree) -> Total {
    let (min, max) = (u128::from(tree.pair.0), tree.pair.1.map(u128::from));
    if tree.kind.is_leaf() {
        return (min, max);
    }
    let items: Vec<Total> = tree.items.iter().map(total).collect();
    let (least, greatest) = if tree.kind == Kind::Choice {
        let greatest = items.iter().try_fold(0, |most, item| Some(item.1?.max(most)));
        (items.iter().map(|item| item.0).min().unwrap_or(0), greatest)
    } else {
        let sum = items.iter().try_fold(0, |sum: u128, item| Some(sum.saturating_add(item.1?)));
        (items.iter().fold(0, |sum: u128, item| sum.saturating_add(item.0)), sum)
    };
    let max = match (greatest, max) {
        (None, _) => None,
        (Some(0), _) => Some(0),
        (Some(_), None) => None,
        (Some(greatest), Some(max)) => Some(greatest.saturating_mul(max)),
    };
    (min.saturating_mul(least), max)
}

pub fn emptiable(tree: &Tree) -> bool {
    tree.pair.0 == 0 || total(tree).0 == 0
}
