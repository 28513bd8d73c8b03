//! What a tidied tree keeps of the tree handed in: of what the library answers
//! on it, and of what it allows.

use common::answers::total_refusal;
use common::tree::{Kind, Tree};
use second::tidy::{empty_choice_below, sentences};
use second::words::{LONGEST, Words, words};

use crate::check::{Difference, emptiable_text, same, total_text};
use crate::fact_tally::{Facts, Sought};

/// The most records of a tree whose words are compared.
const FEW: usize = 8;

/// A tree with its bytes, what the library answers on them, and what it has.
pub struct Asked<'a> {
    pub bytes: &'a [u8],
    pub tree: Tree,
    /// Which of the sentences on a tidy tree hold of it.
    pub sentences: [bool; 4],
    pub empty_choice_below: bool,
    min: u64,
    max: u64,
    emptiable: u32,
}

impl Asked<'_> {
    /// Of the bytes of an accepted tree.
    pub fn of(bytes: &[u8]) -> Asked<'_> {
        let tree = Tree::decode(bytes);
        Asked {
            bytes,
            sentences: sentences(&tree),
            empty_choice_below: empty_choice_below(&tree),
            tree,
            min: library::total_min(bytes),
            max: library::total_max(bytes),
            emptiable: library::emptiable(bytes),
        }
    }

    /// Below the root and outside all-groups.
    pub fn zero_below(&self) -> bool {
        !self.sentences[0]
    }
}

/// What is the same where no maximum below the root is 0 and no choice is empty.
const KEPT: [&str; 2] = [
    "the total minimum once tidied, with no maximum of 0 and no empty choice below the root",
    "emptiable once tidied, with no maximum of 0 and no empty choice below the root",
];

/// The total maximum is the same, the total minimum not less, the depth not
/// greater, and what is emptiable was so. With no maximum of 0 and no empty choice
/// below the root, the total range and emptiable are the same.
pub fn answers(before: &Asked, after: &Asked, facts: &mut Facts) -> Result<(), Difference> {
    same("the total maximum once tidied", before.max, after.max, total_text)?;
    if after.min < before.min || total_refusal(after.min).is_some() {
        let least = format!("at least {}", total_text(before.min));
        let what = "the total minimum once tidied";
        return Err(Difference::new(what, least, total_text(after.min)));
    }
    if after.emptiable > before.emptiable {
        let [least, got] = [before.emptiable, after.emptiable].map(emptiable_text);
        return Err(Difference::new("emptiable once tidied", least, got));
    }
    let (depth, left) = (before.tree.depth(), after.tree.depth());
    if left > depth {
        let most = format!("at most {depth}");
        return Err(Difference::new("the depth once tidied", most, left.to_string()));
    }
    if !before.zero_below() && !before.empty_choice_below {
        same(KEPT[0], before.min, after.min, total_text)?;
        same(KEPT[1], before.emptiable, after.emptiable, emptiable_text)?;
    }
    if after.min > before.min {
        facts.found(Sought::HigherMinimum, &before.tree);
    }
    if after.emptiable < before.emptiable {
        facts.emptiness_lost(before);
    }
    Ok(())
}

/// What the tidied tree allows, the tree allows; with no maximum of 0 below the
/// root it allows all of it. Compared by their words.
pub fn allowed(before: &Asked, after: &Asked, facts: &mut Facts) -> Result<(), Difference> {
    if before.bytes == after.bytes || before.tree.records() > FEW {
        return Ok(());
    }
    let [own, left] = [before, after].map(|asked| words(&asked.tree));
    for (asked, words) in [(before, &own), (after, &left)] {
        as_answered(asked, words).map_err(|difference| {
            let what = format!("{}, of {}", difference.what, asked.tree);
            Difference { what, ..difference }
        })?;
    }
    if let Some(word) = left.first_beyond(&own) {
        let expected = "none that the tree does not allow".into();
        return Err(Difference::new("the words once tidied", expected, word));
    }
    let lost = own.first_beyond(&left);
    if let (Some(word), false) = (&lost, before.zero_below()) {
        let what = "the words once tidied, with no maximum of 0 below the root";
        return Err(Difference::new(what, word.clone(), "not among them".into()));
    }
    facts.words(before, own.count(), left.count());
    Ok(())
}

/// Holds the words themselves to the library's answers: with no empty choice, the
/// total range is that of the words' lengths, as far as these are listed, and the
/// tree is emptiable where one has no name.
fn as_answered(asked: &Asked, words: &Words) -> Result<(), Difference> {
    let tree = &asked.tree;
    if asked.empty_choice_below || tree.kind == Kind::Choice && tree.items.is_empty() {
        return Ok(());
    }
    let text = |names: Option<u64>| match names {
        None => format!("none of up to {LONGEST} names"),
        Some(names) => format!("names: {names}"),
    };
    let listed = |total: u64| (total <= LONGEST as u64).then_some(total);
    let (shortest, longest) = (words.shortest(), words.longest());
    same("the shortest word, by the total minimum", listed(asked.min), shortest, text)?;
    let most = listed(asked.max).or(longest);
    same("the longest word, by the total maximum", most, longest, text)?;
    let empty = u32::from(shortest == Some(0));
    same("emptiable, by the shortest word", empty, asked.emptiable, emptiable_text)
}
