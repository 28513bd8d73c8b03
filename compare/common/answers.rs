//! The numbers by which the exported functions answer (crates/exports), and
//! the words for them.

/// What a maximum is where it is unbounded, and what is added to a refusal's
/// number in place of a total or a count.
pub const BEYOND: u64 = 1 << 32;

/// What a total's minimum or maximum is where it is too large.
pub const TOO_LARGE: u64 = 1 << 33;

/// What is added to the number of a sheet's refusal.
pub const REFUSED: u32 = 1000;

/// The refusals of a sheet.
pub const REFUSALS: [u32; 13] = [1, 3, 4, 5, 6, 7, 8, 9, 10, 11, 12, 13, 14];

/// The refusal of types, after those of the sheet (document 02 §6).
pub const TYPE_NUMBER: u32 = 17;

/// The refusal of a table of types, before all others (document 02 §7).
pub const TYPE_TABLE: u32 = 18;

/// The reason where a type is not derived from the base's.
pub const NOT_DERIVED: u32 = 148;

/// Every reason that a sheet's mark can show: 110, 111, 112 and 125 arise only
/// in the second of an element's two readings, whose reason is never the mark's.
const SHOWN: [std::ops::RangeInclusive<u32>; 3] = [101..=109, 113..=124, 140..=152];

/// The reasons that a sheet's mark can show.
pub fn reasons() -> impl Iterator<Item = u32> {
    SHOWN.into_iter().flatten()
}

/// Every mark that can show: passes, undecided, the reasons.
pub fn marks() -> impl Iterator<Item = u32> {
    [0, 1].into_iter().chain(reasons())
}

/// The words for a mark or for the refusal of a sheet.
pub fn text(answer: u32) -> String {
    match answer {
        0 => "passes".into(),
        1 => "undecided".into(),
        101..=152 => format!("fails {answer}"),
        1001..=1014 => format!("refused {}", answer - REFUSED),
        _ => format!("{answer}, which is no answer"),
    }
}

/// The words for the verdict on two types, or for its refusal.
pub fn type_text(answer: u32) -> String {
    match answer {
        0 => "ok".into(),
        NOT_DERIVED => "fails 148".into(),
        _ => types_refused(answer),
    }
}

/// The words for the answer of a filling.
pub fn fill_text(answer: u32) -> String {
    if answer == 0 { "filled".into() } else { types_refused(answer) }
}

fn types_refused(answer: u32) -> String {
    match answer.checked_sub(REFUSED) {
        Some(number @ (TYPE_NUMBER | TYPE_TABLE)) => format!("refused {number}"),
        Some(number) if REFUSALS.contains(&number) => format!("refused {number}"),
        _ => format!("{answer}, which is no answer"),
    }
}

/// The number of the refusal that stands in place of a total, if one does.
pub fn total_refusal(answer: u64) -> Option<u64> {
    let beyond = answer.checked_sub(BEYOND)?;
    (beyond > 0 && answer != TOO_LARGE).then_some(beyond)
}

/// The words for the minimum or the maximum of a total range, or for the
/// refusal in its place.
pub fn total_text(answer: u64) -> String {
    match (answer, total_refusal(answer)) {
        (_, Some(number)) => format!("refused {number}"),
        (BEYOND, None) => "unbounded".into(),
        (TOO_LARGE, None) => "too large".into(),
        (number, None) => number.to_string(),
    }
}

/// The words for a total range, as `4294967295, unbounded`.
pub fn range_text((min, max): (u64, u64)) -> String {
    match total_refusal(min) {
        Some(_) => total_text(min),
        None => format!("{}, {}", total_text(min), total_text(max)),
    }
}

/// The total range that the original answers in place of this one: it has no
/// 'too large', which stands for its minimum of 4294967295 and for a missing
/// maximum.
pub fn with_caps((min, max): (u64, u64)) -> (u64, u64) {
    (if min == TOO_LARGE { BEYOND - 1 } else { min }, if max == TOO_LARGE { BEYOND } else { max })
}
