//! A shape in words, written and read: the derived tree, the base tree and the
//! verdicts, with a stroke between them, as in
//!
//!     S item=e(1,2) | C(0,*) levels=3 of=S/C(0,2) last=S item=e(0,1) tail=e | item=late tail=ok
//!
//! What is left out has its default: no levels, one element, nothing before,
//! after or at an end; what is repeated are the items; a verdict fails. A group
//! as an item is `S(1,2)*3e(0,1)`, of three elements. A verdict on derived
//! leaves other than the last level's items stands after another: `tail=ok/fails`.

use std::fmt;

use common::tree::{Kind, Pair};

use crate::{Fill, Head, Item, ONCE, Place, Shape, Side, Verdict};

const KINDS: [(Kind, char); 5] = [
    (Kind::Element, 'e'),
    (Kind::Wildcard, 'w'),
    (Kind::Sequence, 'S'),
    (Kind::Choice, 'C'),
    (Kind::All, 'A'),
];

const FILLS: [(Fill, &str); 5] = [
    (Fill::Items, "items"),
    (Fill::Before, "before"),
    (Fill::After, "after"),
    (Fill::Tail, "tail"),
    (Fill::Chains, "chains"),
];

const VERDICTS: [(Verdict, &str); 6] = [
    (Verdict::Ok, "ok"),
    (Verdict::Undecided, "undecided"),
    (Verdict::Second, "second"),
    (Verdict::Fails, "fails"),
    (Verdict::Late, "late"),
    (Verdict::Equal, "equal"),
];

/// The places of base leaves, in the order of `Place::EVERY`.
const PLACES: [&str; Place::EVERY.len()] =
    ["item", "end", "before", "before2", "after", "after2", "tail"];

fn word<T: Copy + PartialEq, W: Copy>(list: &[(T, W)], thing: T) -> W {
    list.iter().find(|(each, _)| *each == thing).expect("listed").1
}

fn thing<T: Copy>(list: &[(T, &str)], word: &str) -> Result<T, String> {
    let found = list.iter().find(|(_, each)| *each == word);
    found.map(|(thing, _)| *thing).ok_or(format!("'{word}' is not known"))
}

fn pair_text(pair: Pair) -> String {
    match pair {
        ONCE => String::new(),
        (min, Some(max)) => format!("({min},{max})"),
        (min, None) => format!("({min},*)"),
    }
}

fn head_text((kind, pair): Head) -> String {
    format!("{}{}", word(&KINDS, kind), pair_text(pair))
}

impl fmt::Display for Item {
    fn fmt(&self, f: &mut fmt::Formatter<'_>) -> fmt::Result {
        if let Some((head, count)) = self.around {
            write!(f, "{}*{count}", head_text(head))?;
        }
        write!(f, "{}", head_text((self.leaf, self.pair)))
    }
}

impl fmt::Display for Side {
    fn fmt(&self, f: &mut fmt::Formatter<'_>) -> fmt::Result {
        write!(f, "{}", head_text(self.root))?;
        if self.levels > 0 {
            write!(f, " levels={}", self.levels)?;
            if self.levels > 1 {
                let [one, two] = self.heads.map(head_text);
                write!(f, " of={one}")?;
                if one != two {
                    write!(f, "/{two}")?;
                }
            }
            write!(f, " last={}", head_text(self.last))?;
        }
        let extras = [
            ("before", self.before),
            ("after", self.after),
            ("item", Some(self.item)),
            ("end", self.end),
            ("tail", self.tail),
        ];
        for (name, item) in extras {
            if let Some(item) = item {
                write!(f, " {name}={item}")?;
            }
        }
        if self.fill != Fill::Items {
            write!(f, " fill={} few={}", word(&FILLS, self.fill), self.few)?;
        }
        if self.names > 1 {
            write!(f, " names={}", self.names)?;
        }
        Ok(())
    }
}

impl fmt::Display for Shape {
    fn fmt(&self, f: &mut fmt::Formatter<'_>) -> fmt::Result {
        write!(f, "{} | {} |", self.derived, self.base)?;
        let others = self.derived.others();
        for (number, place) in PLACES.iter().enumerate() {
            if !self.base.has(Place::EVERY[number]) {
                continue;
            }
            let [main, other] = [self.main, self.other].map(|row| word(&VERDICTS, row[number]));
            write!(f, " {place}={main}")?;
            if others && other != main {
                write!(f, "/{other}")?;
            }
        }
        if self.leaves > 1 {
            write!(f, " leaves={}", self.leaves)?;
        }
        Ok(())
    }
}

impl Side {
    const PLAIN: Side = Side {
        root: (Kind::Sequence, ONCE),
        levels: 0,
        heads: [(Kind::Sequence, ONCE); 2],
        last: (Kind::Sequence, ONCE),
        before: None,
        after: None,
        item: Item::ELEMENT,
        end: None,
        tail: None,
        fill: Fill::Items,
        few: 1,
        names: 1,
    };

    /// Whether it has leaves other than the last level's items.
    fn others(&self) -> bool {
        Place::EVERY.iter().any(|place| *place != Place::Item && self.has(*place))
    }

    fn has(&self, place: Place) -> bool {
        // The levels below the first have what is before or after them; the
        // second one's turn is 0.
        match place {
            Place::Item => true,
            Place::End => self.end.is_some(),
            Place::Before(turn) => self.before.is_some() && self.levels >= 2 + turn,
            Place::After(turn) => self.after.is_some() && self.levels >= 2 + turn,
            Place::Tail => self.tail.is_some(),
        }
    }
}

/// The shape that the words stand for, or what is wrong with them.
pub fn read(text: &str) -> Result<Shape, String> {
    let parts: Vec<&str> = text.split('|').collect();
    let [derived, base, verdicts] = parts[..] else {
        return Err("a shape has three parts: derived | base | verdicts".into());
    };
    let mut shape = Shape {
        derived: side(derived)?,
        base: side(base)?,
        main: [Verdict::Fails; 7],
        other: [Verdict::Fails; 7],
        leaves: 1,
    };
    for (name, value) in verdicts.split_whitespace().map(split) {
        if name == "leaves" {
            shape.leaves = number(value)?;
            continue;
        }
        let place = PLACES.iter().position(|place| *place == name);
        let place = place.ok_or(format!("'{name}' is no place"))?;
        let (main, other) = value.split_once('/').unwrap_or((value, value));
        shape.main[place] = thing(&VERDICTS, main)?;
        shape.other[place] = thing(&VERDICTS, other)?;
    }
    let fitted = shape.clone().fitted();
    if fitted != shape {
        return Err(format!("the shape does not fit; one that does: {fitted}"));
    }
    Ok(shape)
}

fn split(word: &str) -> (&str, &str) {
    word.split_once('=').unwrap_or((word, ""))
}

fn number(text: &str) -> Result<usize, String> {
    text.parse().map_err(|_| format!("'{text}' is no number"))
}

fn side(text: &str) -> Result<Side, String> {
    let mut words = text.split_whitespace();
    let mut side = Side::PLAIN;
    side.root = head(words.next().ok_or("a tree has a root")?)?;
    for (name, value) in words.map(split) {
        match name {
            "levels" => side.levels = number(value)?,
            "of" => {
                let (one, two) = value.split_once('/').unwrap_or((value, value));
                side.heads = [head(one)?, head(two)?];
            }
            "last" => side.last = head(value)?,
            "before" => side.before = Some(item(value)?),
            "after" => side.after = Some(item(value)?),
            "item" => side.item = item(value)?,
            "end" => side.end = Some(item(value)?),
            "tail" => side.tail = Some(item(value)?),
            "fill" => side.fill = thing(&FILLS, value)?,
            "few" => side.few = number(value)?,
            "names" => side.names = number(value)?,
            _ => return Err(format!("'{name}' is nothing of a tree")),
        }
    }
    if side.levels == 0 {
        side.last = side.root;
    }
    Ok(side)
}

fn head(text: &str) -> Result<Head, String> {
    let kind = text.chars().next().and_then(|c| KINDS.iter().find(|(_, each)| *each == c));
    let kind = kind.ok_or(format!("'{text}' has no kind"))?.0;
    Ok((kind, pair(&text[1..])?))
}

fn pair(text: &str) -> Result<Pair, String> {
    if text.is_empty() {
        return Ok(ONCE);
    }
    let wrong = || format!("'{text}' is no pair");
    let inner = text.strip_prefix('(').and_then(|text| text.strip_suffix(')'));
    let (min, max) = inner.and_then(|inner| inner.split_once(',')).ok_or_else(wrong)?;
    let max = if max == "*" { None } else { Some(max.parse().map_err(|_| wrong())?) };
    Ok((min.parse().map_err(|_| wrong())?, max))
}

fn item(text: &str) -> Result<Item, String> {
    // The star of an unbounded maximum stands before a bracket.
    let star = text.match_indices('*').find(|(at, _)| !text[at + 1..].starts_with(')'));
    let Some((at, _)) = star else {
        let (leaf, pair) = head(text)?;
        return Ok(Item { around: None, leaf, pair });
    };
    let rest = &text[at + 1..];
    let digits = rest.chars().take_while(char::is_ascii_digit).count();
    let (leaf, pair) = head(&rest[digits..])?;
    Ok(Item { around: Some((head(&text[..at])?, number(&rest[..digits])?)), leaf, pair })
}
