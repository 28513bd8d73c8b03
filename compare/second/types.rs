//! Document 02 §6 read a second time: the built-in types by number, which of them
//! are derived from which, as an outline; and what a filling does to a sheet's
//! bytes, or refuses, in its order: the sheet's 1 to 14, then 17.

use std::sync::LazyLock;

use common::answers::{NOT_DERIVED, TYPE_NUMBER};
use common::sheet::{Counts, LEAF_BYTES, LEAF_KIND};

use crate::sheet;

/// The names from number 0 on.
const NUMBERED: &str = "
    anyType anySimpleType
    string boolean decimal float double duration dateTime time date gYearMonth gYear gMonthDay
    gDay gMonth hexBinary base64Binary anyURI QName NOTATION NMTOKENS IDREFS ENTITIES
    anyAtomicType
    normalizedString token language NMTOKEN Name NCName ID IDREF ENTITY
    integer nonPositiveInteger nonNegativeInteger long negativeInteger int short byte
    unsignedLong positiveInteger unsignedInt unsignedShort unsignedByte
    dateTimeStamp dayTimeDuration yearMonthDuration";

/// A type is derived from the nearest line above it that stands further to the
/// left. Types that share a line have none below them.
const OUTLINE: &str = "
anyType
 anySimpleType
  boolean float double time date gYearMonth gYear gMonthDay gDay gMonth hexBinary base64Binary
  anyURI QName NOTATION NMTOKENS IDREFS ENTITIES anyAtomicType
  string
   normalizedString
    token
     language NMTOKEN
     Name
      NCName
       ID IDREF ENTITY
  decimal
   integer
    nonPositiveInteger
     negativeInteger
    nonNegativeInteger
     positiveInteger
     unsignedLong
      unsignedInt
       unsignedShort
        unsignedByte
    long
     int
      short
       byte
  duration
   dayTimeDuration yearMonthDuration
  dateTime
   dateTimeStamp";

/// The names by number.
pub fn names() -> Vec<&'static str> {
    NUMBERED.split_whitespace().collect()
}

/// Each type with those that are it or derived from it, by number.
static WITHIN: LazyLock<Vec<Vec<usize>>> = LazyLock::new(|| {
    let names = names();
    let number = |name| names.iter().position(|known| *known == name).expect("a known name");
    let indent = |line: &str| line.len() - line.trim_start().len();
    let lines: Vec<&str> = OUTLINE.lines().filter(|line| !line.is_empty()).collect();
    let mut within = vec![Vec::new(); names.len()];
    for (at, line) in lines.iter().enumerate() {
        let deeper = lines[at + 1..].iter().take_while(|below| indent(below) > indent(line));
        let below: Vec<usize> =
            deeper.flat_map(|below| below.split_whitespace()).map(number).collect();
        let beside: Vec<usize> = line.split_whitespace().map(number).collect();
        assert!(beside.len() == 1 || below.is_empty(), "below several types: {line}");
        for own in beside {
            assert!(within[own].is_empty(), "twice in the outline: {line}");
            within[own] = [&[own][..], &below].concat();
        }
    }
    within
});

/// The verdict on two numbers, as a table has it; none where the list does not
/// have one of them.
pub fn verdict(derived: usize, base: usize) -> Option<u8> {
    let listed = WITHIN.len();
    if derived >= listed || base >= listed {
        return None;
    }
    // With anyType or anySimpleType as base every type is ok.
    let ok = base < 2 || WITHIN[base].contains(&derived);
    Some(if ok { 0 } else { NOT_DERIVED as u8 })
}

/// The number of the first refusal, and what shows it.
#[derive(Debug, Clone)]
pub struct Refusal {
    pub number: u32,
    pub place: String,
}

/// The bytes of the filled sheet, or the first refusal.
pub fn filled(bytes: &[u8], types: &[u8]) -> Result<Vec<u8>, Refusal> {
    filled_by(bytes, types, verdict)
}

/// The same by other verdicts on two numbers, which are none for a number that
/// is no type's.
pub fn filled_by(
    bytes: &[u8],
    types: &[u8],
    verdict: impl Fn(usize, usize) -> Option<u8>,
) -> Result<Vec<u8>, Refusal> {
    if let Some(sheet::Refusal { number, place }) = sheet::first_refusal(bytes) {
        return Err(Refusal { number, place });
    }
    let refuse = |place| Err(Refusal { number: TYPE_NUMBER, place });
    let places = Counts::read(bytes).places();
    let leaves: Vec<&[u8]> = bytes[places.leaves].chunks_exact(LEAF_BYTES).collect();
    if types.len() != leaves.len() {
        return refuse(format!("{} types for {} leaves", types.len(), leaves.len()));
    }
    let elements: Vec<usize> = (0..leaves.len()).filter(|at| leaves[*at][LEAF_KIND] == 0).collect();
    if let Some(at) = elements.iter().find(|at| verdict(types[**at].into(), 0).is_none()) {
        return refuse(format!("the type of leaf {at}"));
    }
    let mut out = bytes.to_vec();
    for row in &elements {
        for column in &elements {
            let cell = &mut out[places.second.start + row * leaves.len() + column];
            if *cell == 1 {
                let own = verdict(types[*row].into(), types[*column].into());
                *cell = own.expect("two types");
            }
        }
    }
    Ok(out)
}
