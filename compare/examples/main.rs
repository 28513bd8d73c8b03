//! Prints document 01's examples with what is expected of them, totals and a
//! mark as document 02 §2 and §5 have them, and with what the oracle says where
//! that is another; then the cases by which doubtful places of document 01 were
//! settled, and those about a base that may not occur. Exit status 1 where
//! something else is stated beside an example.

use cases::stated::{self, EXAMPLES, MAY_NOT_OCCUR, Marked, NEARLY, SETTLED};
use common::answers::{BEYOND, range_text, text};
use common::notation::parse;
use oracle::bridge::{self, Leaves};
use oracle::doors;

/// A tree, its total range, and the original's.
const TOTALS: [(&str, &str, &str); 2] = [
    ("S(65535,65535)[a(65537,65537)]", "4294967295, 4294967295", "4294967295, 4294967295"),
    ("S(65536,65536)[a(65536,65536)]", "too large, too large", "4294967295, unbounded"),
];

const TIDIED: [(&str, &str); 1] = [("S(2,3)[C[a,b]]", "C(2,3)[a,b]")];

const SETTLED_TIDIED: [(&str, &str); 4] = [
    ("S(0,1)[C[S[]]]", "S(0,1)[]"),
    ("C(0,1)[S[]]", "C(0,1)[S[]]"),
    ("A(0,1)[a(0,0)]", "A(0,1)[a(0,0)]"),
    ("C[a,C[]]", "a"),
];

fn main() {
    let mut wrong = 0;
    println!("Document 01's examples:");
    marks(&EXAMPLES, &mut wrong);
    totals(&TOTALS, &mut wrong);
    tidied(&TIDIED, &mut wrong);
    println!("Settled places:");
    marks(&SETTLED, &mut wrong);
    tidied(&SETTLED_TIDIED, &mut wrong);
    println!("A base that may not occur:");
    marks(&MAY_NOT_OCCUR, &mut wrong);
    println!("Nearly so:");
    marks(&NEARLY, &mut wrong);
    if wrong > 0 {
        println!("{wrong} examples differ from what is stated");
        std::process::exit(1);
    }
    println!("every example is as stated");
}

fn show(example: String, got: String, stated: &str, wrong: &mut u32) {
    if got == stated {
        println!("  {example}: {got}");
    } else {
        *wrong += 1;
        println!("  {example}: {got}, STATED {stated}");
    }
}

fn marks(examples: &[Marked], wrong: &mut u32) {
    for (derived, base, also, stated) in examples {
        let example = format!("{derived} | {base}{also}");
        let answer = expected::sheet::mark(&stated::sheet(derived, base, also).encode());
        show(example.clone(), text(answer.mark), stated.mark(), wrong);
        // Where neither of these is so, the line above holds the original too.
        if answer.unlike().is_some() || stated.rust_mark() != stated.mark() {
            let got = answer.rust_mark.map_or("none".into(), text);
            show(format!("{example}, the original's"), got, stated.rust_mark(), wrong);
        }
    }
}

fn totals(examples: &[(&str, &str, &str)], wrong: &mut u32) {
    for (text, stated, original) in examples {
        let tree = parse(text);
        let got = range_text(second::total::total(&tree));
        show(format!("total of {text}"), got, stated, wrong);
        let (min, max) = doors::effective_total_range(&Leaves::none().particle(&tree));
        let got = range_text((min.into(), max.map_or(BEYOND, u64::from)));
        show(format!("total of {text}, the original's"), got, original, wrong);
    }
}

fn tidied(examples: &[(&str, &str)], wrong: &mut u32) {
    for (text, stated) in examples {
        let tidy = doors::normalize(&Leaves::none().particle(&parse(text)));
        let got = bridge::tree(&tidy).to_string();
        show(format!("tidy {text}"), got, stated, wrong);
    }
}
