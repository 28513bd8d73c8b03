//! Document 01's 'What a tree allows', read as a set of words: every sequence of
//! up to so many names that a tree allows, where each leaf has one name, its own.
//! An element and a wildcard of the same number have two.

use std::fmt;

use common::tree::{Kind, Pair, Tree};

/// The names of the longest word.
pub const LONGEST: usize = 4;

/// The names of a word, a byte for each, the last one lowest. No name is 0, so the
/// empty word is 0, and the number tells how many names there are.
type Word = u64;

/// In order, the shorter ones first, and none twice.
#[derive(Debug, Clone, PartialEq, Eq)]
pub struct Words(Vec<Word>);

/// The words of a tree.
pub fn words(tree: &Tree) -> Words {
    let items = tree.items.iter().map(words);
    let round = match tree.kind {
        Kind::Element | Kind::Wildcard => Words(vec![name(tree)]),
        Kind::Sequence => items.fold(Words::empty_word(), |before, item| before.then(&item)),
        // Of no item: no round.
        Kind::Choice => items.fold(Words::none(), Words::and),
        Kind::All => in_any_order(&items.collect::<Vec<_>>()),
    };
    rounds(&round, tree.pair)
}

/// So many leaf numbers; a wildcard's names come after all elements'.
const NUMBERS: Word = 64;

fn name(leaf: &Tree) -> Word {
    let number = 1 + Word::from(leaf.leaf);
    if leaf.kind == Kind::Wildcard { number + NUMBERS } else { number }
}

fn length(word: Word) -> usize {
    (Word::BITS - word.leading_zeros()).div_ceil(8) as usize
}

/// What so many rounds give one after another, for every number within the
/// pair. Where one more round gives what is there already, so do all later ones.
fn rounds(round: &Words, (min, max): Pair) -> Words {
    let mut out = Words::none();
    let mut so_far = Words::empty_word();
    for count in 0.. {
        if count >= min {
            out = out.and(so_far.clone());
        }
        if max == Some(count) {
            break;
        }
        let next = so_far.then(round);
        if next == so_far {
            return out.and(so_far);
        }
        so_far = next;
    }
    out
}

/// Every item's words, each unbroken: by the items that have been, a bit each.
fn in_any_order(items: &[Words]) -> Words {
    let mut after = vec![Words::empty_word()];
    for been in 1..1usize << items.len() {
        let lasts = (0..items.len()).filter(|last| been >> last & 1 == 1);
        let words = lasts.map(|last| after[been ^ (1 << last)].then(&items[last]));
        let words = words.fold(Words::none(), Words::and);
        after.push(words);
    }
    after.pop().expect("that of all items")
}

impl Words {
    fn none() -> Words {
        Words(Vec::new())
    }

    fn empty_word() -> Words {
        Words(vec![0])
    }

    fn of(mut words: Vec<Word>) -> Words {
        words.sort_unstable();
        words.dedup();
        Words(words)
    }

    /// The words of either.
    fn and(self, other: Words) -> Words {
        if self.0.is_empty() {
            return other;
        }
        Words::of([self.0, other.0].concat())
    }

    /// A word of these and then one of those, up to the longest.
    fn then(&self, next: &Words) -> Words {
        let mut words = Vec::new();
        for last in &next.0 {
            let names = length(*last);
            let fits = self.0.iter().filter(|first| length(**first) + names <= LONGEST);
            words.extend(fits.map(|first| first << (8 * names) | last));
        }
        Words::of(words)
    }

    pub fn count(&self) -> usize {
        self.0.len()
    }

    /// How many names the shortest of them has.
    pub fn shortest(&self) -> Option<u64> {
        self.0.first().map(|word| length(*word) as u64)
    }

    /// How many names the longest of them has.
    pub fn longest(&self) -> Option<u64> {
        self.0.last().map(|word| length(*word) as u64)
    }

    /// The first of these that is not among the others.
    pub fn first_beyond(&self, others: &Words) -> Option<String> {
        let missing = |word: &&Word| others.0.binary_search(word).is_err();
        self.0.iter().find(missing).map(|word| text(*word))
    }
}

impl fmt::Display for Words {
    fn fmt(&self, f: &mut fmt::Formatter<'_>) -> fmt::Result {
        if self.0.is_empty() {
            return write!(f, "none");
        }
        let words: Vec<String> = self.0.iter().map(|word| text(*word)).collect();
        write!(f, "{}", words.join(", "))
    }
}

/// A word's names in document 01's notation.
fn text(word: Word) -> String {
    let names = word.to_be_bytes().into_iter().filter(|name| *name != 0).map(|name| {
        let number = Word::from(name) - 1;
        let kind = if number < NUMBERS { Kind::Element } else { Kind::Wildcard };
        Tree::leaf(kind, (number % NUMBERS) as u8, (1, Some(1))).to_string()
    });
    let names: Vec<String> = names.collect();
    if names.is_empty() { "the empty word".into() } else { names.join(" ") }
}
