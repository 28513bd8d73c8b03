//! Total ranges as document 02 §2 has them: the exact total, over numbers
//! without limit and with zero times unbounded 0, and then one cut.

use common::answers::{BEYOND, TOO_LARGE};
use common::tree::{Kind, Tree};

use crate::big::Big;

/// The exact minimum and maximum; a maximum of `None` is unbounded.
type Exact = (Big, Option<Big>);

/// The minimum and the maximum in the library's numbers.
pub fn total(tree: &Tree) -> (u64, u64) {
    let cut = |number: Big| number.small().map_or(TOO_LARGE, u64::from);
    let (min, max) = exact(tree);
    (cut(min), max.map_or(BEYOND, cut))
}

fn exact(tree: &Tree) -> Exact {
    let (min, max) = tree.pair;
    let items: Vec<Exact> = tree.items.iter().map(exact).collect();
    let (least, most) = match tree.kind {
        Kind::Element | Kind::Wildcard => return (Big::of(min), max.map(Big::of)),
        Kind::Sequence | Kind::All => {
            let sum = |sum: Big, number: &Big| sum.plus(number);
            let least = items.iter().fold(Big::of(0), |all, item| sum(all, &item.0));
            (least, maxima(&items).map(|all| all.fold(Big::of(0), sum)))
        }
        Kind::Choice => {
            let least = items.iter().map(|item| item.0.clone()).min();
            let most = maxima(&items).map(|all| all.max().cloned().unwrap_or(Big::of(0)));
            (least.unwrap_or(Big::of(0)), most)
        }
    };
    (least.times(min), product(most, max))
}

/// The items' maxima; nothing where one is unbounded.
fn maxima(items: &[Exact]) -> Option<impl Iterator<Item = &Big>> {
    let bounded = items.iter().all(|item| item.1.is_some());
    bounded.then(|| items.iter().flat_map(|item| &item.1))
}

fn product(most: Option<Big>, max: Option<u32>) -> Option<Big> {
    match (most, max) {
        (Some(most), Some(max)) => Some(most.times(max)),
        (None, Some(0)) => Some(Big::of(0)),
        (Some(most), None) if most.is_zero() => Some(most),
        (None, _) | (_, None) => None,
    }
}
