//! Sheets at the limits, with their marks written down by hand: 1000 records,
//! depth 12, 64 leaves, the numbers at which products turn, and the longest
//! marking.

use common::sheet::{Leaf, MOST_LEAVES, Sheet};
use common::tree::{Kind, MOST_DEPTH, MOST_RECORDS, Pair, Tree};

/// What it shows, the sheet, and its mark.
pub type Stated = (&'static str, Sheet, &'static str);

const ONCE: Pair = (1, Some(1));
/// The most items that a group can have.
const MOST: usize = MOST_RECORDS - 1;

pub fn stated() -> Vec<Stated> {
    let mut out = rows();
    out.extend(alternatives());
    out.extend(beyond_a_byte());
    out.extend(unordered());
    out.extend(depths());
    out.extend(leaves());
    out.extend(products());
    out.extend(totals());
    out.extend(may_not_occur());
    out.push(("the longest marking", longest(MOST), "undecided"));
    out
}

/// Leaves 0 to 2 are elements of their own names, 3 and 4 wildcards; equal
/// leaves ok, others 140, and everything ok below a wildcard.
fn sheet(derived: Tree, base: Tree) -> Sheet {
    let leaves = vec![
        Leaf::element(0),
        Leaf::element(1),
        Leaf::element(2),
        Leaf::wildcard(0),
        Leaf::wildcard(2),
    ];
    over(leaves, derived, base)
}

fn over(leaves: Vec<Leaf>, derived: Tree, base: Tree) -> Sheet {
    let n = leaves.len();
    let ok = |at: usize| at / n == at % n || leaves[at % n].kind == Kind::Wildcard;
    let table: Vec<u8> = (0..n * n).map(|at| if ok(at) { 0 } else { 140 }).collect();
    Sheet { leaves, first: table.clone(), second: table, derived, base }
}

fn element(leaf: usize, pair: Pair) -> Tree {
    Tree::leaf(Kind::Element, leaf as u8, pair)
}

fn wildcard(pair: Pair) -> Tree {
    Tree::leaf(Kind::Wildcard, 3, pair)
}

fn group(kind: Kind, pair: Pair, items: Vec<Tree>) -> Tree {
    Tree::group(kind, pair, items)
}

/// So many times element 0.
fn same(count: usize, pair: Pair) -> Vec<Tree> {
    vec![element(0, pair); count]
}

/// As many items as there may be: all but the last of one leaf.
fn but_last(leaf: usize) -> Vec<Tree> {
    let mut items = same(MOST - 1, ONCE);
    items.push(element(leaf, ONCE));
    items
}

/// As many items as there may be, of which the last alone is element 0.
fn last_only() -> Vec<Tree> {
    let mut items = vec![element(1, ONCE); MOST - 1];
    items.push(element(0, ONCE));
    items
}

/// Item rows of the greatest length, judged from end to end.
fn rows() -> Vec<Stated> {
    let sequence = |items| group(Kind::Sequence, ONCE, items);
    let full = || sequence(same(MOST, ONCE));
    let less = || sequence(same(MOST - 1, ONCE));
    let optional = || sequence(same(MOST, (0, Some(1))));
    vec![
        ("1000 records twice", sheet(full(), full()), "passes"),
        ("the last of 999 items", sheet(sequence(but_last(1)), full()), "fails 140"),
        ("999 items against 998", sheet(full(), less()), "fails 120"),
        ("998 items against 999", sheet(less(), full()), "fails 121"),
        ("none against 999 optional items", sheet(sequence(Vec::new()), optional()), "passes"),
        ("999 members of a wildcard", sheet(full(), wildcard((999, Some(999)))), "passes"),
        ("999 members, wildcard to 998", sheet(full(), wildcard((0, Some(998)))), "fails 113"),
        ("1000 records against one", sheet(full(), element(0, ONCE)), "fails 120"),
    ]
}

/// The same against choices.
fn alternatives() -> Vec<Stated> {
    let members = |items| group(Kind::Sequence, ONCE, items);
    let full = || members(same(MOST, ONCE));
    let choice = |pair, items| group(Kind::Choice, pair, items);
    let other = |leaf| choice(ONCE, but_last(leaf));
    let last = |pair| choice(pair, last_only());
    vec![
        ("the last of 999 alternatives", sheet(other(1), other(1)), "passes"),
        ("an alternative after the last", sheet(other(1), other(2)), "fails 120"),
        (
            "999 members, the last of 999 alternatives",
            sheet(full(), last((999, Some(999)))),
            "passes",
        ),
        ("999 members, at most 998", sheet(full(), last((0, Some(998)))), "fails 116"),
        ("the last of 999 members", sheet(members(but_last(2)), last((0, None))), "fails 117"),
        ("one record against 1000", sheet(element(0, ONCE), last(ONCE)), "passes"),
    ]
}

/// Item rows whose length needs the second byte of a count.
fn beyond_a_byte() -> Vec<Stated> {
    let sequence = |count| group(Kind::Sequence, ONCE, same(count, ONCE));
    let members = |count, base| sheet(sequence(count), group(Kind::Choice, base, same(1, ONCE)));
    let choice = |leaf, count: usize| {
        let mut items = same(count - 1, ONCE);
        items.push(element(leaf, ONCE));
        group(Kind::Choice, ONCE, items)
    };
    vec![
        ("256 items twice", sheet(sequence(256), sequence(256)), "passes"),
        ("256 items against none", sheet(sequence(256), sequence(0)), "fails 120"),
        ("256 items against 255", sheet(sequence(256), sequence(255)), "fails 120"),
        ("256 items against 257", sheet(sequence(256), sequence(257)), "fails 121"),
        ("no items against 256", sheet(sequence(0), sequence(256)), "fails 121"),
        ("257 items against 1", sheet(sequence(257), element(0, ONCE)), "fails 120"),
        ("256 members", members(256, exact(256)), "passes"),
        ("256 members, none asked", members(256, (0, Some(0))), "fails 116"),
        ("700 members", members(700, exact(700)), "passes"),
        ("700 members, 188 asked", members(700, (0, Some(188))), "fails 116"),
        ("a member of 256 alternatives", sheet(element(1, ONCE), choice(1, 256)), "passes"),
        ("a member of none of these", sheet(element(2, ONCE), choice(1, 256)), "fails 120"),
        ("700 of a wildcard", sheet(sequence(700), wildcard(exact(700))), "passes"),
        ("700 of a wildcard to 699", sheet(sequence(700), wildcard((0, Some(699)))), "fails 113"),
    ]
}

/// Elements whose leaves are in turn all 64.
fn in_turn(count: usize) -> Vec<Tree> {
    (0..count).map(|k| element(k % MOST_LEAVES, ONCE)).collect()
}

/// A sheet over 64 elements of their own names.
fn on_elements(derived: Tree, base: Tree) -> Sheet {
    over((0..MOST_LEAVES).map(|leaf| Leaf::element(255 * leaf as u16)).collect(), derived, base)
}

/// A group of so many elements against an all-group of these in the other
/// order.
pub fn other_order(kind: Kind, count: usize) -> Sheet {
    on_elements(group(kind, ONCE, back(count)), group(Kind::All, ONCE, in_turn(count)))
}

fn back(count: usize) -> Vec<Tree> {
    in_turn(count).into_iter().rev().collect()
}

/// All-groups of 999 elements.
fn unordered() -> Vec<Stated> {
    let all = |items| group(Kind::All, ONCE, items);
    let forth = |count| all(in_turn(count));
    vec![
        ("999 elements in the other order", other_order(Kind::All, MOST), "passes"),
        ("a sequence of these", other_order(Kind::Sequence, MOST), "passes"),
        ("the 999th missing", on_elements(forth(MOST - 1), forth(MOST)), "fails 109"),
        ("the 999th not there", on_elements(all(back(MOST)), forth(MOST - 1)), "fails 108"),
    ]
}

fn depths() -> Vec<Stated> {
    let nest = |kinds: [Kind; 2], pair, bottom: Tree| {
        (1..MOST_DEPTH).fold(bottom, |inner, level| group(kinds[level % 2], pair, vec![inner]))
    };
    let rows = |leaf| nest([Kind::Sequence; 2], (1, Some(2)), element(leaf, ONCE));
    let both = [Kind::Sequence, Kind::Choice];
    let mixed = |leaf| nest(both, (2, None), element(leaf, ONCE));
    let open = (0, None);
    vec![
        ("depth 12 twice", sheet(rows(0), rows(0)), "passes"),
        ("the bottom at depth 12", sheet(rows(1), rows(0)), "fails 140"),
        ("sequences and choices", sheet(mixed(0), mixed(0)), "passes"),
        ("an element at depth 12", sheet(element(0, ONCE), rows(0)), "passes"),
        ("another element at depth 12", sheet(element(1, ONCE), rows(0)), "fails 140"),
        ("depth 12 against a wildcard", sheet(mixed(0), wildcard(open)), "passes"),
        ("2 to the power 11, unbounded", sheet(mixed(0), wildcard((2048, None))), "passes"),
        ("less than that", sheet(mixed(0), wildcard((2049, None))), "fails 113"),
        (
            "a weaker wildcard at depth 12",
            sheet(nest(both, open, wildcard(open)), Tree::leaf(Kind::Wildcard, 4, open)),
            "fails 104",
        ),
        (
            "all tidied away",
            sheet(nest(both, ONCE, element(0, ONCE)), nest(both, ONCE, element(0, ONCE))),
            "passes",
        ),
    ]
}

/// 64 leaves: the tables' corners, each with a reason of its own.
fn leaves() -> Vec<Stated> {
    let elements: Vec<Leaf> = (0..MOST_LEAVES).map(|leaf| Leaf::element(leaf as u16)).collect();
    let corner = |derived, base, first: u8, second: u8| {
        let mut sheet = over(elements.clone(), element(derived, ONCE), element(base, ONCE));
        sheet.first.fill(0);
        sheet.second.fill(0);
        let at = sheet.at(derived as u8, base as u8);
        sheet.first[at] = first;
        sheet.second[at] = second;
        sheet
    };
    let row = || {
        let items = (0..MOST).map(|k| element(k % MOST_LEAVES, ONCE)).collect();
        group(Kind::Sequence, ONCE, items)
    };
    let mut spoiled = over(elements.clone(), row(), row());
    let last = spoiled.at(63, 63);
    spoiled.second[last] = 151;
    vec![
        ("the first table's last verdict", corner(63, 63, 152, 0), "fails 152"),
        ("the second table's last verdict", corner(63, 63, 0, 152), "fails 152"),
        ("the first table's last row", corner(63, 0, 145, 0), "fails 145"),
        ("the second table's last column", corner(0, 63, 0, 146), "fails 146"),
        ("undecided in the last place", corner(63, 63, 0, 1), "undecided"),
        ("the largest sheet", over(elements.clone(), row(), row()), "passes"),
        ("the largest sheet, the last verdict", spoiled, "fails 151"),
    ]
}

const TOP: u32 = 4294967295;

fn exact(number: u32) -> Pair {
    (number, Some(number))
}

/// Products of a pair with an item count about 4294967295.
fn products() -> Vec<Stated> {
    let times = |pair, count, base| {
        let members = group(Kind::Sequence, pair, same(count, ONCE));
        sheet(members, group(Kind::Choice, base, same(1, ONCE)))
    };
    let half = 1 << 31;
    vec![
        ("twice 2147483647", times(exact(half - 1), 2, exact(TOP - 1)), "passes"),
        ("twice 2147483648, too large", times(exact(half), 2, (TOP, None)), "passes"),
        ("the same, a bounded base", times(exact(half), 2, (0, Some(TOP))), "fails 116"),
        ("999 times 4299266", times(exact(4299266), 999, exact(4294966734)), "passes"),
        ("999 times 4299267", times(exact(4299267), 999, (TOP, None)), "passes"),
        ("999 times 4299267, bounded", times(exact(4299267), 999, (0, Some(TOP))), "fails 116"),
        ("256 times 16777215", times(exact(16777215), 256, exact(4294967040)), "passes"),
        ("256 times 16777216", times(exact(16777216), 256, (TOP, None)), "passes"),
        ("256 times 16777216, bounded", times(exact(16777216), 256, (0, Some(TOP))), "fails 116"),
        ("4294967295 times no items", times(exact(TOP), 0, exact(0)), "passes"),
        ("unbounded times no items", times((0, None), 0, (0, Some(TOP))), "fails 116"),
    ]
}

/// Totals about 4294967295, against a wildcard.
fn totals() -> Vec<Stated> {
    let total =
        |pair, inner, base| sheet(group(Kind::Sequence, pair, same(1, inner)), wildcard(base));
    let square = |base| total(exact(65536), exact(65536), base);
    let some = |kind, base| {
        let large = group(Kind::Sequence, exact(65536), same(1, exact(65536)));
        sheet(group(kind, (0, Some(1)), vec![large, element(1, exact(5))]), wildcard(base))
    };
    let sum = |last, base| {
        let items = vec![element(0, exact(TOP)), element(1, exact(last))];
        sheet(group(Kind::Sequence, ONCE, items), wildcard(base))
    };
    let open = || sheet(element(0, (0, None)), element(0, (0, Some(TOP))));
    vec![
        ("65535 times 65537", total(exact(65535), exact(65537), exact(TOP)), "passes"),
        ("65536 times 65536, too large", square((TOP, None)), "passes"),
        ("the same, a bounded wildcard", square((0, Some(TOP))), "fails 113"),
        ("a sum of 4294967295", sum(0, exact(TOP)), "passes"),
        ("a sum too large", sum(1, (TOP, None)), "passes"),
        ("a sum too large, bounded", sum(1, (TOP, Some(TOP))), "fails 113"),
        ("a maximum too large", some(Kind::Choice, (0, None)), "passes"),
        ("a maximum too large, bounded", some(Kind::Choice, (0, Some(TOP))), "fails 113"),
        ("zero times too large", some(Kind::Sequence, (0, None)), "passes"),
        ("zero times too large, a minimum", some(Kind::Sequence, (1, None)), "fails 113"),
        ("unbounded times 0", total((0, None), (0, Some(0)), (0, Some(0))), "passes"),
        ("the largest pair", sheet(element(0, exact(TOP)), element(0, exact(TOP))), "passes"),
        ("one more than that", open(), "fails 123"),
    ]
}

/// Bases that may not occur, as wide and as deep as they can be; the element is
/// found at their end.
fn may_not_occur() -> Vec<Stated> {
    let never = |kind, items| sheet(element(0, ONCE), group(kind, exact(0), items));
    let mut optional = vec![element(1, (0, Some(1))); MOST - 1];
    optional.push(element(0, ONCE));
    let nested = |kinds: [Kind; 2]| {
        let chain = (2..MOST_DEPTH).fold(element(0, ONCE), |inner, level| {
            group(kinds[level % 2], (0, Some(2)), vec![inner])
        });
        never(kinds[MOST_DEPTH % 2], vec![chain])
    };
    vec![
        ("the widest sequence of maximum 0", never(Kind::Sequence, optional), "fails 105"),
        ("the widest choice of maximum 0", never(Kind::Choice, last_only()), "fails 106"),
        ("the deepest sequence of maximum 0", nested([Kind::Sequence, Kind::Choice]), "fails 105"),
        ("the deepest choice of maximum 0", nested([Kind::Choice, Kind::Sequence]), "fails 106"),
    ]
}

/// Every member is undecided at the bottom of a chain of choices, and each
/// level asks for both readings: the number of judgements doubles each time.
pub fn longest(members: usize) -> Sheet {
    let members = group(Kind::Sequence, ONCE, same(members, ONCE));
    let chain = (2..MOST_DEPTH).fold(element(1, ONCE), |inner, _| {
        group(Kind::Choice, (0, Some(2)), vec![element(2, ONCE), inner])
    });
    let base = group(Kind::Choice, (0, None), vec![chain]);
    let mut sheet = sheet(members, base);
    let at = sheet.at(0, 1);
    sheet.first[at] = 1;
    sheet
}
