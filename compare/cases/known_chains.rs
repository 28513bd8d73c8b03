//! Chains with their answers written down by hand from document 02 §1, to hold
//! the second reading and the oracle as well as the library to them.

use common::bytes::{exchange, put_short};
use common::chain::{LEVELS, MOST_LEVELS, count_place, write};
use common::notation::parse;
use common::tree::{COUNT, KIND, MOST_DEPTH, MOST_RECORDS, RECORD, ZEROS};

/// What it shows, the chain, the length of the buffer; and the joined tree,
/// `no content`, or `refused N`.
pub type Known = (&'static str, Vec<u8>, usize, String);

/// More than any joined tree needs.
const LONG: usize = RECORD * MOST_RECORDS + 1000;

pub fn known() -> Vec<Known> {
    let sizes = [counts(), large_counts(), records(), depths()].concat();
    [joins(), absences(), frames(), sizes, faults(), zeros(), buffers()].concat()
}

/// Every length that a chain can be cut or drawn out to. All but its own are
/// refused 15.
pub fn lengths() -> Vec<(Vec<u8>, String)> {
    let mut out = Vec::new();
    for (levels, joined) in [
        (&["a"][..], "a"),
        (&["", ""], "no content"),
        (&["S[a]", "", "C(0,*)[w,b]"], "S[S[a],C(0,*)[w,b]]"),
    ] {
        let whole = of(levels);
        for length in 0..=whole.len() + 2 * RECORD + 1 {
            let mut bytes = whole.clone();
            bytes.resize(length, 0);
            let stated = if length == whole.len() { joined } else { "refused 15" };
            out.push((bytes, stated.into()));
        }
    }
    out
}

/// The chain of these trees; no text for an absent level.
fn of(levels: &[&str]) -> Vec<u8> {
    write(&levels.iter().map(|text| tree(text)).collect::<Vec<_>>())
}

fn tree(text: &str) -> Vec<u8> {
    if text.is_empty() { Vec::new() } else { parse(text).encode() }
}

/// With a buffer that is long enough.
fn long(what: &'static str, bytes: Vec<u8>, stated: &str) -> Known {
    (what, bytes, LONG, stated.into())
}

/// A sequence of elements, so many records in all.
fn row(records: usize) -> String {
    format!("S[{}]", vec!["a"; records - 1].join(","))
}

/// A tree below so many sequences of one item.
fn below(groups: usize, text: &str) -> String {
    format!("{}{text}{}", "S[".repeat(groups), "]".repeat(groups))
}

/// The chain with another record count of a level.
fn counted(mut bytes: Vec<u8>, level: usize, count: usize) -> Vec<u8> {
    put_short(&mut bytes, count_place(level), count);
    bytes
}

/// The chain with the bytes of its first count exchanged.
fn exchanged(bytes: &[u8]) -> Vec<u8> {
    let mut bytes = bytes.to_vec();
    exchange(&mut bytes, count_place(0));
    bytes
}

fn joins() -> Vec<Known> {
    let counts = [3, 1, 0, 0, 0, 1, 0];
    let a = [0, 0, 0, 0, 0, 0, 0, 0, 1, 0, 0, 0, 1, 0, 0, 0];
    let b = [0, 1, 0, 0, 1, 0, 0, 0, 2, 0, 0, 0, 0, 0, 0, 0];
    let wide = [2, 0, 44, 1, 0, 0, 0, 0, 1, 0, 0, 0, 1, 0, 0, 0];
    let row_after_b = [&[2, 1, 0, 45, 1][..], &b, &wide, &a.repeat(300)].concat();
    vec![
        long("byte by byte", [&counts[..], &a, &b].concat(), "S[a,b(2,*)]"),
        long("300 items, byte by byte", row_after_b, &format!("S[b(2,*),{}]", row(301))),
        long("one level", of(&["a"]), "a"),
        long("two levels", of(&["a", "b"]), "S[a,b]"),
        long("equal levels", of(&["a", "a"]), "S[a,a]"),
        long("three levels nest to the left", of(&["a", "b", "c"]), "S[S[a,b],c]"),
        long("four levels", of(&["a", "b", "c", "d"]), "S[S[S[a,b],c],d]"),
        long("sequences stay as they are", of(&["S[a]", "S[b,c]"]), "S[S[a],S[b,c]]"),
        long("an empty group is content", of(&["S[]", "C[]"]), "S[S[],C[]]"),
        long("an empty group alone", of(&["", "S[]"]), "S[]"),
        long("maximum 0 is content", of(&["a(0,0)", "S(0,0)[b]"]), "S[a(0,0),S(0,0)[b]]"),
        long(
            "pairs",
            of(&["a(0,*)", "C(2,3)[w(1,4294967295)]"]),
            "S[a(0,*),C(2,3)[w(1,4294967295)]]",
        ),
        long("all-groups", of(&["A(0,1)[a,b(0,*)]", "A[c]"]), "S[A(0,1)[a,b(0,*)],A[c]]"),
        long("one number for element and wildcard", of(&["a", "w"]), "S[a,w]"),
        long(
            "a wildcard and a choice",
            of(&["w3(0,*)", "C(0,1)[a,S[b]]"]),
            "S[w3(0,*),C(0,1)[a,S[b]]]",
        ),
    ]
}

fn absences() -> Vec<Known> {
    let only = |level: usize| {
        let mut levels = [""; MOST_LEVELS];
        levels[level] = "C[a,b]";
        of(&levels)
    };
    let mut ends = [""; MOST_LEVELS];
    (ends[0], ends[MOST_LEVELS - 1]) = ("a", "b");
    vec![
        long("one level, absent", of(&[""]), "no content"),
        long("two levels, absent", of(&["", ""]), "no content"),
        long("the most levels, absent", of(&[""; MOST_LEVELS]), "no content"),
        long("the first absent", of(&["", "b"]), "b"),
        long("the second absent", of(&["a", ""]), "a"),
        long("one between absent", of(&["a", "", "c"]), "S[a,c]"),
        long("every second absent", of(&["", "a", "", "b", "", "c", ""]), "S[S[a,b],c]"),
        long("the most levels, the first alone", only(0), "C[a,b]"),
        long("the most levels, one between alone", only(8), "C[a,b]"),
        long("the most levels, the last alone", only(MOST_LEVELS - 1), "C[a,b]"),
        long("the most levels, first and last", of(&ends), "S[a,b]"),
    ]
}

fn frames() -> Vec<Known> {
    let with_levels = |mut bytes: Vec<u8>, levels| {
        bytes[LEVELS] = levels;
        bytes
    };
    let (a, none) = (of(&["a"]), [""; MOST_LEVELS]);
    let unfinished = vec![MOST_LEVELS as u8; count_place(MOST_LEVELS - 1)];
    vec![
        long("no byte", Vec::new(), "refused 15"),
        long("no level", vec![0], "refused 15"),
        long("no level, a count", vec![0, 0, 0], "refused 15"),
        long("no level, a tree", [&[0][..], &tree("a")].concat(), "refused 15"),
        long("a level too many, absent", of(&[""; MOST_LEVELS + 1]), "refused 15"),
        long("a level too many, the first", of(&[&["a"][..], &none].concat()), "refused 15"),
        long("a level too many, the last", of(&[&none[..], &["a"]].concat()), "refused 15"),
        long("255 absent levels", of(&[""; 255]), "refused 15"),
        long("a level without count", vec![1], "refused 15"),
        long("half a count", vec![1, 1], "refused 15"),
        long("a count without tree", vec![1, 1, 0], "refused 15"),
        long("the last level without count", unfinished, "refused 15"),
        long("a byte after absent levels", vec![1, 0, 0, 0], "refused 15"),
        long("one level more than counts", with_levels(a.clone(), 2), "refused 15"),
        long("one level less than counts", with_levels(of(&["", "a"]), 1), "refused 15"),
        long("half of the levels", with_levels(of(&["a"; 8]), 4), "refused 15"),
        long("a byte too few", a[..a.len() - 1].to_vec(), "refused 15"),
        long("a byte too many", [&a[..], &[0]].concat(), "refused 15"),
        long("a record too many", [&a[..], &tree("b")].concat(), "refused 15"),
    ]
}

fn counts() -> Vec<Known> {
    let a = |count| counted(of(&["a"]), 0, count);
    let two = |first, second| counted(counted(of(&["S[a]", "b"]), 0, first), 1, second);
    vec![
        long("a count of 0 for a tree", a(0), "refused 15"),
        long("a count of 2 for one record", a(2), "refused 15"),
        long("a count of 1 with its bytes exchanged", a(256), "refused 15"),
        long("a count of 1 with both bytes set", a(257), "refused 15"),
        long("the greatest count for one record", a(65535), "refused 15"),
        long("two records and one", two(2, 1), "S[S[a],b]"),
        long("a record of the other level", two(1, 2), "refused 14"),
        long("all records in the first", two(3, 0), "refused 14"),
        long("all records in the second", two(0, 3), "refused 14"),
        long("a record of no level", two(2, 0), "refused 15"),
        long("a record too few", two(3, 1), "refused 15"),
        long("counts that go around to two and one", two(65535, 4), "refused 15"),
    ]
}

/// Counts of more than a byte, and the limit of a tree's records.
fn large_counts() -> Vec<Known> {
    let [byte, whole, next] = [255, 256, 257].map(|records| of(&[&row(records)]));
    let [most, over] = [MOST_RECORDS, MOST_RECORDS + 1].map(|records| of(&[&row(records)]));
    let mut over_bad = over.clone();
    over_bad[count_place(1) + KIND] = 9;
    let split = of(&[&row(256), &row(300)]);
    let swapped = counted(counted(split.clone(), 0, 300), 1, 256);
    let greatest = write(&[tree("a").repeat(65535)]);
    vec![
        long("255 records", byte, &row(255)),
        long("256 records", whole.clone(), &row(256)),
        long("256 records, its bytes exchanged", exchanged(&whole), "refused 15"),
        long("256 records, its low byte alone", counted(whole, 0, 0), "refused 15"),
        long("257 records", next.clone(), &row(257)),
        long("257 records, its low byte alone", counted(next, 0, 1), "refused 15"),
        long("700 records", of(&[&row(700)]), &row(700)),
        long("256 and 300 records", split, &format!("S[{},{}]", row(256), row(300))),
        long("256 and 300 records, exchanged", swapped, "refused 14"),
        long("the most records", most.clone(), &row(MOST_RECORDS)),
        long("the most records, its bytes exchanged", exchanged(&most), "refused 15"),
        long("the most records, counted 0", counted(most.clone(), 0, 0), "refused 15"),
        long(
            "the most records, its low byte alone",
            counted(most, 0, MOST_RECORDS % 256),
            "refused 15",
        ),
        long("a record over", over.clone(), "refused 14"),
        long("a record over, its bytes exchanged", exchanged(&over), "refused 15"),
        long("a record over, counted one less", counted(over, 0, MOST_RECORDS), "refused 15"),
        long("a record over, the first record bad", over_bad, "refused 14"),
        long("the greatest count, all there", greatest, "refused 14"),
    ]
}

/// A tree that is refused with this number.
fn bad(number: u32) -> Vec<u8> {
    match number {
        10 => damaged("a", KIND, 9),
        11 => tree("a(2,1)"),
        12 => tree("A[w]"),
        13 => tree(&below(MOST_DEPTH, "a")),
        14 => tree("S[a]")[..RECORD].to_vec(),
        _ => panic!("no refusal of a tree"),
    }
}

/// A tree with one byte changed.
fn damaged(text: &str, at: usize, value: u8) -> Vec<u8> {
    let mut tree = tree(text);
    tree[at] = value;
    tree
}

/// Each zero byte of a record, and an item count of which one byte is read, in
/// either of two levels.
fn zeros() -> Vec<Known> {
    let mut out = Vec::new();
    for place in ZEROS {
        for value in [1, 128, 255] {
            let zero = damaged("S[a,b]", 2 * RECORD + place, value);
            out.push(long(
                "a zero byte in the first",
                write(&[zero.clone(), tree("a")]),
                "refused 10",
            ));
            out.push(long("a zero byte in the second", write(&[tree("a"), zero]), "refused 10"));
        }
    }
    let (zero, high) = (damaged("a", ZEROS.start, 1), damaged("S[a]", COUNT + 1, 1));
    let leaf = damaged("a", COUNT + 1, 1);
    let mut none = damaged("S[]", COUNT + 1, 1);
    out.extend([
        long("a pair, then a zero byte", write(&[bad(11), zero.clone()]), "refused 11"),
        long("a zero byte, then a pair", write(&[zero.clone(), bad(11)]), "refused 10"),
        long("a zero byte in a level too many", write(&vec![zero; MOST_LEVELS + 1]), "refused 15"),
        long("a leaf's count, its higher byte", write(&[tree("a"), leaf]), "refused 10"),
        long("257 items, one there", write(&[tree("a"), high]), "refused 14"),
        long("256 items, none there", write(&[none.clone(), tree("a")]), "refused 14"),
    ]);
    none.extend(tree("a").repeat(256));
    out.push(long(
        "256 items, all there",
        write(&[none, tree("b")]),
        &format!("S[{},b]", row(257)),
    ));
    out
}

fn faults() -> Vec<Known> {
    let stated = |(what, bytes, number)| long(what, bytes, &format!("refused {number}"));
    (10..=14).flat_map(of_fault).map(stated).collect()
}

fn of_fault(number: u32) -> Vec<(&'static str, Vec<u8>, u32)> {
    let (absent, good, over) = (Vec::new(), tree("S[a,b]"), tree(&row(MOST_RECORDS + 1)));
    let fault = bad(number);
    let after = |level: &Vec<u8>, times| [vec![level.clone(); times], vec![fault.clone()]].concat();
    let mut longer = write(&[good.clone(), fault.clone()]);
    longer.push(0);
    let mut out = vec![
        ("a fault alone", write(&[fault.clone()]), number),
        ("a fault in the first", write(&[fault.clone(), good.clone()]), number),
        ("a fault in the second", write(&after(&good, 1)), number),
        ("a fault after an absent level", write(&after(&absent, 1)), number),
        ("a fault in the last level", write(&after(&absent, MOST_LEVELS - 1)), number),
        ("a fault in a level too many", write(&after(&absent, MOST_LEVELS)), 15),
        ("a fault after too deep a chain", write(&after(&good, MOST_LEVELS - 1)), number),
        ("a fault after too long a tree", write(&after(&over, 1)), 14),
        ("a fault before too long a tree", write(&[fault.clone(), over]), number),
        ("a fault, and a byte too many", longer, 15),
    ];
    for other in 10..=14 {
        out.push(("two faults", write(&[fault.clone(), bad(other)]), number));
        let apart = [absent.clone(), fault.clone(), good.clone(), bad(other)];
        out.push(("two faults apart", write(&apart), number));
    }
    out
}

/// Of `MOST_RECORDS`, the joining takes one for each tree but the first.
fn records() -> Vec<Known> {
    let full = row(MOST_RECORDS);
    let mut longest = [""; MOST_LEVELS];
    longest[8] = &full;
    let longest = of(&longest);
    let (half, rest) = (MOST_RECORDS / 2, MOST_RECORDS - 1 - MOST_RECORDS / 2);
    let [three, two, one] = [4, 2, 1].map(|less| row(MOST_RECORDS - less));
    let halves = |more| of(&[&row(half), &row(rest + more)]);
    let joined = format!("S[{},{}]", row(half), row(rest));
    vec![
        long("the most records joined", halves(0), &joined),
        long("one over joined", halves(1), "refused 16"),
        long("two over joined", halves(2), "refused 16"),
        long("the most joined, the second long", of(&["a", &two]), &format!("S[a,{two}]")),
        long("the most joined, the first long", of(&[&two, "a"]), &format!("S[{two},a]")),
        long("one over joined, the second long", of(&["a", &one]), "refused 16"),
        long("one over joined, the first long", of(&[&one, "a"]), "refused 16"),
        long("the most alone", of(&["", &full, ""]), &full),
        long("the longest chain", longest.clone(), &full),
        long("the longest chain and a byte", [&longest[..], &[0]].concat(), "refused 15"),
        long("the most and one", of(&[&full, "a"]), "refused 16"),
        long("one and the most", of(&["a", &full]), "refused 16"),
        long("the most twice", of(&[&full, &full]), "refused 16"),
        long("the most in each level", of(&[&full[..]; MOST_LEVELS]), "refused 16"),
        long("the most joined of three", of(&["a", &three, "b"]), &format!("S[S[a,{three}],b]")),
        long("one over joined of three", of(&["a", "b", &row(MOST_RECORDS - 3)]), "refused 16"),
    ]
}

/// `full` is as deep as a tree may be, `one` one less, `two` two less.
fn depths() -> Vec<Known> {
    let [two, one, full] = [2, 1, 0].map(|less| below(MOST_DEPTH - 1 - less, "c"));
    let letters = ["a", "b", "c", "d", "e", "f", "g", "h", "i", "j", "k", "l", "m"];
    let deepest = "S[S[S[S[S[S[S[S[S[S[S[a,b],c],d],e],f],g],h],i],j],k],l]";
    let mut spread = [""; MOST_LEVELS];
    spread[MOST_LEVELS - MOST_DEPTH..].copy_from_slice(&letters[..MOST_DEPTH]);
    vec![
        long("elements, as deep as may be", of(&letters[..MOST_DEPTH]), deepest),
        long("elements, one deeper", of(&letters), "refused 16"),
        long("elements after absent levels", of(&spread), deepest),
        long("an element in each level", of(&["a"; MOST_LEVELS]), "refused 16"),
        long("full alone", of(&["", &full]), &full),
        long("one less first", of(&[&one, "a"]), &format!("S[{one},a]")),
        long("full first", of(&[&full, "a"]), "refused 16"),
        long("one less second", of(&["a", &one]), &format!("S[a,{one}]")),
        long("full second", of(&["a", &full]), "refused 16"),
        long("two less first of three", of(&[&two, "a", "b"]), &format!("S[S[{two},a],b]")),
        long("one less first of three", of(&[&one, "a", "b"]), "refused 16"),
        long("two less second of three", of(&["a", &two, "b"]), &format!("S[S[a,{two}],b]")),
        long("one less second of three", of(&["a", &one, "b"]), "refused 16"),
        long("one less third of three", of(&["a", "b", &one]), &format!("S[S[a,b],{one}]")),
        long("full third of three", of(&["a", "b", &full]), "refused 16"),
        long("too deep and too long", of(&[&full, &row(MOST_RECORDS)]), "refused 16"),
    ]
}

/// The buffer is measured by the joined tree, and comes last.
fn buffers() -> Vec<Known> {
    let (lone, two, three) = (of(&["", "a"]), of(&["a", "b"]), of(&["a", "b", "c"]));
    let into = |what, bytes: &Vec<u8>, room, stated: &str| -> Known {
        (what, bytes.clone(), room, stated.into())
    };
    let full = row(MOST_RECORDS);
    let (most, over) = (of(&[&full]), of(&[&full, "a"]));
    let fault = write(&[bad(10), tree("a")]);
    vec![
        into("one record into one", &lone, RECORD, "a"),
        into("one record into a byte less", &lone, RECORD - 1, "refused 2"),
        into("one record into none", &lone, 0, "refused 2"),
        into("three records into three", &two, 3 * RECORD, "S[a,b]"),
        into("three records into a byte less", &two, 3 * RECORD - 1, "refused 2"),
        into("three records into two", &two, 2 * RECORD, "refused 2"),
        into("a buffer as long as the chain", &two, two.len(), "refused 2"),
        into("five records into five", &three, 5 * RECORD, "S[S[a,b],c]"),
        into("five records into a byte less", &three, 5 * RECORD - 1, "refused 2"),
        into("the most records into as many", &most, MOST_RECORDS * RECORD, &full),
        into("the most records into a byte less", &most, MOST_RECORDS * RECORD - 1, "refused 2"),
        into("no content into no buffer", &of(&["", ""]), 0, "no content"),
        into("too many records and no buffer", &over, 0, "refused 16"),
        into("a fault and no buffer", &fault, 0, "refused 10"),
        into("no byte and no buffer", &Vec::new(), 0, "refused 15"),
        into("a level too many and no buffer", &of(&["a"; MOST_LEVELS + 1]), 0, "refused 15"),
    ]
}
