//! Document 02 §8 on one accepted tree: the tidied tree tidied again, what it
//! looks like, and what it keeps (kept.rs).

use common::answers::BEYOND;
use common::random::Rng;
use common::tree::{RECORD, Tree};
use expected::tree::Answers;
use second::tidy::{SENTENCES, sentences};
use second::tree::first_refusal;

use crate::check::{Difference, compare_tidied, count_text, unchanged};
use crate::fact_tally::Facts;
use crate::kept::{self, Asked};

/// Compares all of it on the bytes of an accepted tree.
pub fn compare(
    bytes: &[u8],
    expected: &Answers,
    rng: &mut Rng,
    facts: &mut Facts,
) -> Result<(), Difference> {
    let refused = |answer| Difference::new("tidied", "a tree".into(), count_text(answer));
    let tidied = tidy(bytes).map_err(refused)?;
    let about = |difference| Difference { tidied: Some(shown(&tidied)), ..difference };
    again(&tidied, expected, rng, facts).map_err(about)?;
    let (before, after) = (Asked::of(bytes), Asked::of(&tidied));
    shape(&before, &after, facts).map_err(about)?;
    kept::answers(&before, &after, facts).map_err(about)?;
    kept::allowed(&before, &after, facts).map_err(about)
}

/// What the library writes to a buffer as long as the tree; or its refusal.
fn tidy(tree: &[u8]) -> Result<Vec<u8>, u64> {
    let mut out = vec![0; tree.len()];
    let answer = library::tidy(tree, &mut out);
    match answer as usize * RECORD {
        length if answer < BEYOND && length <= out.len() => {
            out.truncate(length);
            Ok(out)
        }
        _ => Err(answer),
    }
}

/// A tree in document 01's notation, or why the bytes are none.
fn shown(bytes: &[u8]) -> String {
    match first_refusal(bytes) {
        None => Tree::decode(bytes).to_string(),
        Some(refusal) => format!("none, refused {}: {bytes:02x?}", refusal.number),
    }
}

/// Tidied again, by the library and by the Rust, the tidied tree is the same.
fn again(
    tidied: &[u8],
    expected: &Answers,
    rng: &mut Rng,
    facts: &mut Facts,
) -> Result<(), Difference> {
    if let Some(refusal) = first_refusal(tidied) {
        let read = format!("refused {} by the second reading", refusal.number);
        return Err(Difference::new("the tidied tree", "accepted".into(), read));
    }
    let lent = tidied.to_vec();
    let differ = |what, expected, got| Err(Difference::new(what, expected, got));
    match tidy(&lent) {
        Ok(bytes) if bytes == tidied => {}
        Ok(bytes) => return differ("tidied again", shown(tidied), shown(&bytes)),
        Err(answer) => return differ("tidied again", shown(tidied), count_text(answer)),
    }
    let rust = expected.tidied_again.as_deref().expect("an accepted tree");
    if rust != tidied {
        return differ("tidied twice, and by the Rust", shown(rust), shown(tidied));
    }
    let (length, records) = (tidied.len(), (tidied.len() / RECORD) as u64);
    for (room, answer) in [
        (length + rng.within(1, 40), (records, tidied)),
        (length, (records, tidied)),
        (length - 1, (BEYOND + 2, &[][..])),
    ] {
        compare_tidied("tidied again", &lent, answer, room, rng)?;
        facts.buffers += 1;
    }
    unchanged("the tidied tree handed in", tidied, &lent)
}

/// The sentences hold of the tidied tree. Where they hold of the tree handed in,
/// it is left alone; otherwise it gets fewer records.
fn shape(before: &Asked, after: &Asked, facts: &mut Facts) -> Result<(), Difference> {
    for (sentence, holds) in SENTENCES.iter().zip(sentences(&after.tree)) {
        if !holds {
            let got = "there is one".into();
            return Err(Difference::new("how the tidied tree looks", sentence.to_string(), got));
        }
    }
    let broken = SENTENCES.iter().zip(before.sentences).find(|(_, holds)| !holds);
    let records = before.bytes.len() / RECORD;
    match broken {
        None if after.bytes != before.bytes => Err(Difference::new(
            "a tree that is tidy as it is handed in",
            before.tree.to_string(),
            after.tree.to_string(),
        )),
        Some((sentence, _)) if after.bytes.len() >= before.bytes.len() => Err(Difference::new(
            &format!("a tree that is not tidy as it is handed in (it should have {sentence})"),
            format!("fewer than {records} records"),
            format!("{} records", after.bytes.len() / RECORD),
        )),
        _ => {
            facts.tree(before, after);
            Ok(())
        }
    }
}
