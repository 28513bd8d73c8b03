//! Tests of sheet.rs: the papers of samples/ and some at the limits have the bytes
//! that tools/paper writes and their mark; each error; drawn bytes and drawn trees,
//! of which the proved library is the judge.
//!
//! PAPERS names the directory with what tools/paper writes, as link/run makes it;
//! without it only the bytes of the samples that are bytes are compared.

use std::error::Error;
use std::path::PathBuf;

use crate::marker::{effective_particle, mark, total_range, Mark, Reason, Refusal};
use crate::marker::{MOST_CHAIN, MOST_DEPTH, MOST_LEVELS, MOST_RECORDS, MOST_SHEET, MOST_TREE};
use crate::sheet::{encode_chain, BuildError, Leaf, Particle, Process, Sheet, Term, Verdict};
use crate::{element_below, once, record, row, sheet as raw};
use crate::{BASE_COUNT, CHOICE, DERIVED_COUNT, MOST_LEAVES, RECORD};

type Outcome = Result<(), Box<dyn Error>>;

/// So many elements, each with its place as local name number.
fn elements<const N: usize>(sheet: &mut Sheet) -> Result<[Leaf; N], BuildError> {
    let mut leaves = [Leaf::Element(0); N];
    for (place, leaf) in leaves.iter_mut().enumerate() {
        *leaf = sheet.element(place as u16)?;
        assert_eq!(*leaf, Leaf::Element(place as u8));
    }
    Ok(leaves)
}

/// Each leaf once.
fn each<const N: usize>(leaves: [Leaf; N]) -> Vec<Particle> {
    leaves.map(Leaf::once).into()
}

/// The bytes are those of a sample, or of the paper of this name, and have this mark.
fn check(name: &str, bytes: &[u8], expected: Mark) {
    let sample = PathBuf::from("samples").join(name).with_extension("sheet");
    let papers = std::env::var_os("PAPERS").map(PathBuf::from);
    let file = if sample.exists() { Some(sample) } else { papers.map(|papers| papers.join(name)) };
    if let Some(file) = file.map(|file| file.with_extension("sheet")) {
        let read = std::fs::read(&file).expect("a paper's sheet");
        assert_eq!(bytes, read, "{}", file.display());
    }
    assert_eq!(mark(bytes), expected, "{name}");
}

/// a | a(0,1), and a | S(0,0)[a].
#[test]
fn smallest_and_never() -> Outcome {
    let mut sheet = Sheet::new();
    let [a] = elements(&mut sheet)?;
    check("smallest", &sheet.encode(&a.once(), &a.occurs(0, 1))?, Mark::Passes);
    let base = Particle::sequence([a.once()]).occurs(0, 0);
    let expected = Mark::Fails(Reason::SEQUENCE_RANGE);
    check("never", &sheet.encode(&a.once(), &base)?, expected);
    Ok(())
}

/// S[a,b(1,4),c] | S[a(0,1),C(1,*)[b,d],c(0,1),w(0,*)]
#[test]
fn entry() -> Outcome {
    let mut sheet = Sheet::new();
    let [a, b, c, d] = elements(&mut sheet)?;
    let w = sheet.wildcard(Process::Skip)?;
    let derived = Particle::sequence([a.once(), b.occurs(1, 4), c.once()]);
    let either = Particle::choice(each([b, d])).occurs(1, None);
    let base = Particle::sequence([a.occurs(0, 1), either, c.occurs(0, 1), w.occurs(0, None)]);
    check("entry", &sheet.encode(&derived, &base)?, Mark::Passes);
    Ok(())
}

/// S(1,9)[a,b(1,4)] | S(1,7)[a,b(1,*),w(0,1)]
#[test]
fn rounds() -> Outcome {
    let mut sheet = Sheet::new();
    let [a, b] = elements(&mut sheet)?;
    let w = sheet.wildcard(Process::Skip)?;
    let derived = Particle::sequence([a.once(), b.occurs(1, 4)]).occurs(1, 9);
    let base = [a.once(), b.occurs(1, None), w.occurs(0, 1)];
    let base = Particle::sequence(base).occurs(1, 7);
    let expected = Mark::Fails(Reason::SEQUENCE_RANGE);
    check("rounds", &sheet.encode(&derived, &base)?, expected);
    Ok(())
}

/// S[a,b,c] | A[a,b,d,e(0,1)], c and d of the name 2; c | d : first ok, second
/// undecided, then ok. The last verdict counts.
#[test]
fn results() -> Outcome {
    let mut sheet = Sheet::new();
    let [a, b, c] = elements(&mut sheet)?;
    let (d, e) = (sheet.element(2)?, sheet.element(4)?);
    let derived = Particle::sequence(each([a, b, c]));
    let base = Particle::all([a.once(), b.once(), d.once(), e.occurs(0, 1)]);
    sheet.first(c, d, Verdict::Ok)?;
    sheet.second(c, d, Verdict::Undecided)?;
    check("results", &sheet.encode(&derived, &base)?, Mark::Undecided);
    sheet.second(c, d, Verdict::Ok)?;
    assert_eq!(mark(&sheet.encode(&derived, &base)?), Mark::Passes);
    Ok(())
}

/// S[a,b,c,d,e,f(0,1)] | S[a,b,c] + - + S[d(0,1),e,f(0,*)]
#[test]
fn report() -> Outcome {
    let mut sheet = Sheet::new();
    let [a, b, c, d, e, f] = elements(&mut sheet)?;
    let own = Particle::sequence([d.occurs(0, 1), e.once(), f.occurs(0, None)]);
    let chain = encode_chain(&[Some(Particle::sequence(each([a, b, c]))), None, Some(own)])?;
    let mut out = [0; MOST_TREE];
    let records = effective_particle(&chain, &mut out)?.ok_or("no content")?;
    let base = Particle::decode(&out[..records * RECORD])?;
    let mut derived = each([a, b, c, d, e]);
    derived.push(f.occurs(0, 1));
    check("report", &sheet.encode(&Particle::sequence(derived), &base)?, Mark::Passes);
    Ok(())
}

/// Ten rounds of eight boards each, as samples/season.paper has them; what may be
/// left out in the base tree has the minimum 0 there.
fn season_tree(leaves: [Leaf; 10], wildcard: Option<Leaf>) -> Particle {
    let [a, b, c, d, e, f, g, h, i, j] = leaves;
    let least = u32::from(wildcard.is_none());
    let result = Particle::choice(each([f, g, h]));
    let board = Particle::sequence([d.once(), e.once(), result, i.occurs(least, 1)]);
    let mut round = vec![b.once(), c.occurs(least, 1)];
    round.extend(vec![board; 8]);
    round.push(j.once());
    round.extend(wildcard.map(|w| w.occurs(0, None)));
    let mut season = vec![a.once()];
    season.extend(vec![Particle::sequence(round); 10]);
    Particle::sequence(season)
}

#[test]
fn season() -> Outcome {
    let mut sheet = Sheet::new();
    let leaves = elements(&mut sheet)?;
    let w = sheet.wildcard(Process::Skip)?;
    let bytes = sheet.encode(&season_tree(leaves, None), &season_tree(leaves, Some(w)))?;
    check("season", &bytes, Mark::Passes);
    Ok(())
}

/// link/run has it as a paper: each kind, process contents, verdict and end of a
/// range, and a leaf that stands in no tree.
#[test]
fn every() -> Outcome {
    let mut sheet = Sheet::new();
    let [a, b] = elements(&mut sheet)?;
    let (c, _) = (sheet.element(65535)?, sheet.element(258)?);
    let (w, w1) = (sheet.wildcard(Process::Strict)?, sheet.wildcard(Process::Lax)?);
    let w2 = sheet.wildcard(Process::Skip)?;
    sheet.first(a, b, Verdict::Reason(140))?;
    sheet.first(b, a, Verdict::Reason(152))?;
    sheet.second(b, a, Verdict::Ok)?;
    sheet.second(w, w1, Verdict::Undecided)?;
    sheet.second(w2, a, Verdict::Reason(147))?;
    let many = Particle::sequence([a.occurs(u32::MAX, None), w.occurs(65536, 16777216)]);
    let all = Particle::all([c.occurs(0, 0)]).occurs(0, 1);
    let items = [many.occurs(0, u32::MAX), all, Particle::choice([])];
    let derived = Particle::choice(items).occurs(0, None);
    let bytes = sheet.encode(&derived, &w1.occurs(0, 256))?;
    check("every", &bytes, Mark::Fails(Reason::TOTAL_RANGE));
    Ok(())
}

/// The samples that are trees, and the trees of the longest marking.
#[test]
fn trees() -> Outcome {
    let [a, b, c] = [0, 1, 2].map(Leaf::Element);
    let rest = Particle::choice(each([b, c])).occurs(0, None);
    let entry = Particle::sequence([a.once(), rest]).encode()?;
    assert_eq!(entry, std::fs::read("samples/entry.tree")?);
    let large = Particle::sequence([a.occurs(65536, 65536)]).occurs(65536, 65536).encode()?;
    assert_eq!(large, std::fs::read("samples/total-too-large.tree")?);
    let longest = std::fs::read("samples/longest.sheet")?;
    let count = |at| RECORD * usize::from(u16::from_le_bytes([longest[at], longest[at + 1]]));
    let base = longest.len() - count(BASE_COUNT);
    let derived = base - count(DERIVED_COUNT);
    for tree in [&longest[derived..base], &longest[base..]] {
        assert_eq!(Particle::decode(tree)?.encode()?, tree);
    }
    Ok(())
}

/// What is at a limit is encoded, what is above it is not.
#[test]
fn limits() -> Outcome {
    let mut sheet = Sheet::new();
    let leaves: [Leaf; MOST_LEAVES as usize] = elements(&mut sheet)?;
    assert_eq!(sheet.element(0), Err(BuildError::TooManyLeaves));
    assert_eq!(sheet.wildcard(Process::Lax), Err(BuildError::TooManyLeaves));
    let items = vec![leaves[0].once(); MOST_RECORDS - 1];
    let longest = Particle::sequence(items.clone());
    let bytes = sheet.encode(&longest, &longest)?;
    assert_eq!((bytes.len(), mark(&bytes)), (MOST_SHEET, Mark::Passes));
    assert_eq!(longest.encode()?, row(MOST_RECORDS));
    let deeper = Particle::choice([Particle::sequence(items)]);
    assert_eq!(deeper.encode(), Err(BuildError::TooManyRecords));
    assert_eq!(sheet.encode(&longest, &deeper), Err(BuildError::TooManyRecords));
    // So many that their count in 16 bits would be within the limit.
    let more = Particle::sequence(vec![leaves[0].once(); 65536 + 2]);
    assert_eq!(more.encode(), Err(BuildError::TooManyRecords));
    let mut deep = leaves[0].once();
    for _ in 1..MOST_DEPTH {
        deep = Particle::choice([deep]);
    }
    assert_eq!(deep.encode()?, element_below(MOST_DEPTH - 1));
    assert_eq!(Particle::choice([deep]).encode(), Err(BuildError::TooDeep));
    // So deep that reading them all the way would not fit the stack.
    let bytes = once(CHOICE, 0, 1).repeat(100000);
    assert_eq!(Particle::decode(&bytes), Err(BuildError::TooDeep));
    let mut levels = vec![None; MOST_LEVELS];
    levels[MOST_LEVELS - 1] = Some(longest);
    assert_eq!(encode_chain(&levels)?.len(), MOST_CHAIN);
    levels.push(None);
    assert_eq!(encode_chain(&levels), Err(BuildError::Levels(MOST_LEVELS + 1)));
    assert_eq!(encode_chain(&[]), Err(BuildError::Levels(0)));
    Ok(())
}

#[test]
fn errors() -> Outcome {
    let mut sheet = Sheet::new();
    let (a, w) = (Leaf::Element(0), Leaf::Wildcard(1));
    assert_eq!(sheet.encode(&a.once(), &a.once()), Err(BuildError::NoLeaves));
    assert_eq!((sheet.element(0)?, sheet.wildcard(Process::Skip)?), (a, w));
    for other in [Leaf::Element(1), Leaf::Wildcard(0), Leaf::Element(2), Leaf::Wildcard(255)] {
        let unknown = BuildError::UnknownLeaf(other);
        assert_eq!(sheet.encode(&other.once(), &a.once()), Err(unknown));
        assert_eq!(sheet.encode(&a.once(), &other.once()), Err(unknown));
        assert_eq!(sheet.first(other, a, Verdict::Ok), Err(unknown));
        assert_eq!(sheet.second(a, other, Verdict::Ok), Err(unknown));
    }
    for reason in [0, 1, 2, 139, 153, 255] {
        let none = BuildError::NoVerdict(reason);
        assert_eq!(sheet.first(a, w, Verdict::Reason(reason)), Err(none));
    }
    let above = Leaf::Wildcard(MOST_LEAVES);
    let errors = [
        (above.once(), BuildError::UnknownLeaf(above)),
        (a.occurs(2, 1), BuildError::Pair(2, 1)),
        (Particle::all([]).occurs(0, None), BuildError::AllGroup),
        (Particle::all([]).occurs(0, 0), BuildError::AllGroup),
        (Particle::all([w.once()]), BuildError::AllGroup),
        (Particle::all([Particle::all([])]), BuildError::AllGroup),
    ];
    for (tree, error) in errors {
        assert_eq!(tree.encode(), Err(error));
        assert_eq!(encode_chain(&[None, Some(tree.clone())]), Err(error));
        assert_eq!(Particle::choice([a.once(), tree]).encode(), Err(error));
    }
    let error: Box<dyn Error> = BuildError::Pair(2, 1).into();
    assert_eq!(error.to_string(), "the minimum 2 is above the maximum 1");
    assert_eq!(BuildError::UnknownLeaf(a).to_string(), "no leaf is Element(0)");
    Ok(())
}

/// Numbers as they are drawn.
pub struct Draw(pub u32);

impl Draw {
    pub fn below(&mut self, limit: u32) -> u32 {
        self.0 = self.0.wrapping_mul(1664525).wrapping_add(1013904223);
        (self.0 >> 8) % limit
    }

    pub fn once_in(&mut self, times: u32) -> bool {
        self.below(times) == 0
    }

    /// A tree over two elements and two wildcards; now and then something is wrong.
    fn tree(&mut self, depth: u32) -> Particle {
        let kind = self.below(if depth < 3 { 5 } else { 2 });
        let (min, more) = (self.below(3), self.below(3));
        let wrong = self.once_in(100);
        let leaf = self.below(if wrong { 5 } else { 2 }) as u8;
        let items = if kind < 2 { 0 } else { self.below(3) };
        let mut items: Vec<Particle> = (0..items).map(|_| self.tree(depth + 1)).collect();
        if kind == 4 && !wrong {
            items.retain(|item| matches!(item.term, Term::Leaf(Leaf::Element(_))));
        }
        let tree = match kind {
            0 => Leaf::Element(leaf).once(),
            1 => Leaf::Wildcard(leaf + 2).once(),
            2 => Particle::sequence(items),
            3 => Particle::choice(items),
            _ => return Particle::all(items).occurs(min % 2, 1),
        };
        tree.occurs(min, if wrong { Some(1) } else { (more < 2).then_some(min + more) })
    }

    /// The bytes with some of them changed, or cut.
    fn damage(&mut self, bytes: &mut Vec<u8>) {
        for _ in 0..self.below(3) {
            let at = self.below(bytes.len() as u32) as usize;
            bytes[at] = self.below(if self.0 % 2 == 0 { 5 } else { 256 }) as u8;
        }
        if self.once_in(8) {
            bytes.truncate(self.below(bytes.len() as u32 + 1) as usize);
        }
    }
}

/// Bytes are a tree here exactly where the library accepts them, and come back.
#[test]
fn drawn_bytes() {
    let (mut draw, mut counts) = (Draw(1), [0, 0]);
    for _ in 0..20000 {
        let Ok(mut bytes) = draw.tree(0).encode() else { continue };
        draw.damage(&mut bytes);
        let decoded = Particle::decode(&bytes);
        assert_eq!(decoded.is_ok(), total_range(&bytes).is_ok(), "{bytes:?}");
        counts[usize::from(decoded.is_ok())] += 1;
        if let Ok(tree) = decoded {
            assert_eq!(tree.encode(), Ok(bytes));
        }
    }
    assert!(counts.iter().all(|count| *count > 4000), "{counts:?}");
}

/// No sheet that is encoded is refused, and no chain but by 16.
#[test]
fn drawn_trees() -> Outcome {
    let (mut draw, mut counts) = (Draw(2), [0; 4]);
    let mut sheet = Sheet::new();
    let leaves: [Leaf; 2] = elements(&mut sheet)?;
    sheet.wildcard(Process::Lax)?;
    sheet.wildcard(Process::Strict)?;
    sheet.second(leaves[0], leaves[1], Verdict::Undecided)?;
    for _ in 0..20000 {
        let (derived, base) = (draw.tree(0), draw.tree(0));
        let kind = match sheet.encode(&derived, &base).map(|bytes| mark(&bytes)) {
            Ok(Mark::Refused(refusal)) => panic!("{refusal}: {derived:?} {base:?}"),
            Ok(Mark::Passes) => 0,
            Ok(_) => 1,
            Err(_) => 2,
        };
        counts[kind] += 1;
        let count = 1 + draw.below(MOST_LEVELS as u32);
        let levels: Vec<_> = (0..count).map(|_| Some(draw.tree(0))).collect();
        if let Ok(chain) = encode_chain(&levels) {
            let joined = effective_particle(&chain, &mut [0; MOST_TREE]);
            assert!(joined.is_ok() || joined == Err(Refusal::LIMIT), "{joined:?}");
            counts[3] += u32::from(joined.is_ok());
        }
    }
    assert!(counts.iter().all(|count| *count > 200), "{counts:?}");
    Ok(())
}

/// Bytes by hand: an element's sheet, and a chain.
#[test]
fn by_hand() -> Outcome {
    let mut sheet = Sheet::new();
    let a = sheet.element(0)?;
    let tree = once(0, 0, 0);
    assert_eq!(sheet.encode(&a.once(), &a.once())?, raw(1, &tree, &tree));
    let chain = encode_chain(&[None, Some(a.occurs(3, None))])?;
    assert_eq!(chain, [&[2, 0, 0, 1, 0][..], &record(0, 0, 0, 3, None)].concat());
    Ok(())
}
