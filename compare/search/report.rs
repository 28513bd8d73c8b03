//! What was found, in words: a shape's figures, its words, and its sheet in
//! document 01's notation with equal items written once.

use common::answers::text;
use common::tree::Tree;
use shapes::MOST_NAMES;

use crate::measure::Measured;

pub fn print(title: &str, list: &[Measured], records: usize) {
    println!("{title}\n");
    for (place, measured) in (1..).zip(list) {
        println!("{place:2}. {}", figures(measured));
        println!("    {}", measured.shape);
        let sheet = measured.shape.sheet(records);
        println!("    {} | {}\n", brief(&sheet.derived), brief(&sheet.base));
    }
}

pub fn figures(measured: &Measured) -> String {
    let Measured { time, entries, ceiling, mark, records, depth, .. } = measured;
    let share = *entries as f64 / *ceiling as f64;
    format!(
        "{:.3} ms, {entries} entries ({share:.3} of the ceiling), {}, D {} B {} H {depth}",
        time / 1e6,
        text(*mark),
        records.0,
        records.1
    )
}

/// The tree with what is repeated written once, as `254*a(1,2)` or `85*(a,b,c)`.
pub fn brief(tree: &Tree) -> String {
    let head = Tree { items: Vec::new(), ..tree.clone() }.to_string();
    let Some(head) = head.strip_suffix("[]") else { return head };
    let mut written = Vec::new();
    let mut items = &tree.items[..];
    while !items.is_empty() {
        let (length, times) = repeated(items);
        let part: Vec<String> = items[..length].iter().map(brief).collect();
        let part = part.join(",");
        written.push(match (times, length) {
            (1, _) => part,
            (_, 1) => format!("{times}*{part}"),
            _ => format!("{times}*({part})"),
        });
        items = &items[length * times..];
    }
    format!("{head}[{}]", written.join(","))
}

/// Of how many items the shortest start is that stands there again and again,
/// and how often it stands.
fn repeated(items: &[Tree]) -> (usize, usize) {
    let times = |length: usize| {
        let again = items.chunks(length).take_while(|part| *part == &items[..length]);
        (length, again.count())
    };
    let mut lengths = (1..=MOST_NAMES.min(items.len())).map(times);
    lengths.find(|(_, times)| *times > 2).unwrap_or((1, 1))
}
