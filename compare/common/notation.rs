//! Document 01's notation for trees, written and read: S, C, A groups, letters
//! for elements, w for wildcards, (1,2) a pair, * unbounded, no pair (1,1).
//! Elements 0 to 24 are the letters without w, 25 is a1, 26 is b1; wildcards
//! are w, w1, w2.

use std::fmt;

use crate::tree::{Kind, Pair, Tree};

const LETTERS: &[u8; 25] = b"abcdefghijklmnopqrstuvxyz";

impl fmt::Display for Tree {
    fn fmt(&self, f: &mut fmt::Formatter<'_>) -> fmt::Result {
        match self.kind {
            Kind::Element => {
                let letter = LETTERS[usize::from(self.leaf) % 25] as char;
                write_name(f, letter, self.leaf / 25)?;
            }
            Kind::Wildcard => write_name(f, 'w', self.leaf)?,
            Kind::Sequence => write!(f, "S")?,
            Kind::Choice => write!(f, "C")?,
            Kind::All => write!(f, "A")?,
        }
        match self.pair {
            (1, Some(1)) => {}
            (min, Some(max)) => write!(f, "({min},{max})")?,
            (min, None) => write!(f, "({min},*)")?,
        }
        if self.kind.is_leaf() {
            return Ok(());
        }
        write!(f, "[")?;
        for (k, item) in self.items.iter().enumerate() {
            if k > 0 {
                write!(f, ",")?;
            }
            write!(f, "{item}")?;
        }
        write!(f, "]")
    }
}

fn write_name(f: &mut fmt::Formatter<'_>, letter: char, round: u8) -> fmt::Result {
    match round {
        0 => write!(f, "{letter}"),
        _ => write!(f, "{letter}{round}"),
    }
}

/// The tree that the notation stands for; panics where it is none.
pub fn parse(text: &str) -> Tree {
    let mut reader = Reader { text: text.as_bytes(), at: 0 };
    let tree = reader.tree();
    assert!(reader.at == text.len(), "no tree: {text}");
    tree
}

struct Reader<'a> {
    text: &'a [u8],
    at: usize,
}

impl Reader<'_> {
    fn tree(&mut self) -> Tree {
        let letter = self.next();
        let kind = match letter {
            b'S' => Kind::Sequence,
            b'C' => Kind::Choice,
            b'A' => Kind::All,
            b'w' => Kind::Wildcard,
            _ => Kind::Element,
        };
        let round = if self.digit() { self.number() as u8 } else { 0 };
        let pair = self.pair();
        match kind {
            Kind::Wildcard => Tree::leaf(kind, round, pair),
            Kind::Element => {
                let place = LETTERS.iter().position(|l| *l == letter);
                let place = place.expect("a letter") as u8;
                Tree::leaf(kind, 25 * round + place, pair)
            }
            _ => Tree::group(kind, pair, self.items()),
        }
    }

    fn items(&mut self) -> Vec<Tree> {
        self.expect(b'[');
        let mut items = Vec::new();
        while self.text[self.at] != b']' {
            if !items.is_empty() {
                self.expect(b',');
            }
            items.push(self.tree());
        }
        self.expect(b']');
        items
    }

    fn pair(&mut self) -> Pair {
        if self.text.get(self.at) != Some(&b'(') {
            return (1, Some(1));
        }
        self.expect(b'(');
        let min = self.number();
        self.expect(b',');
        let max = if self.text[self.at] == b'*' {
            self.expect(b'*');
            None
        } else {
            Some(self.number())
        };
        self.expect(b')');
        (min, max)
    }

    fn number(&mut self) -> u32 {
        let start = self.at;
        while self.digit() {
            self.at += 1;
        }
        let digits = std::str::from_utf8(&self.text[start..self.at]).expect("digits");
        digits.parse().expect("a number")
    }

    fn digit(&self) -> bool {
        self.text.get(self.at).is_some_and(u8::is_ascii_digit)
    }

    fn expect(&mut self, wanted: u8) {
        let found = self.next();
        assert!(found == wanted, "{} in place of {}", found as char, wanted as char);
    }

    fn next(&mut self) -> u8 {
        self.at += 1;
        self.text[self.at - 1]
    }
}
