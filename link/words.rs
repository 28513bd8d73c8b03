//! The numbers of reasons and refusals, their names and their words: `Reason` and
//! `Refusal` of marker.rs, which takes this file in from the place beside it. It
//! uses `core` alone.
//!
//! Number, name and words of each stand here once in Rust; link/check-names holds
//! them to the crates and to docs/KEY.md, 'The numbers'.

use core::fmt;

// A type of docs/KEY.md's numbers: a constant for each, whose words are its
// documentation and what it displays as; other numbers have the words $other.
macro_rules! numbers {
    ($(#[$doc:meta])* $type:ident, $other:literal: $($number:literal $name:ident $words:literal)*) => {
        $(#[$doc])*
        #[derive(Debug, Clone, Copy, PartialEq, Eq, Hash, PartialOrd, Ord)]
        pub struct $type(pub(super) u32);

        impl $type {
            $(
                #[doc = $words]
                pub const $name: $type = $type($number);
            )*

            /// Its number in docs/KEY.md.
            pub fn number(self) -> u32 {
                self.0
            }

            /// Its words in docs/KEY.md.
            pub fn words(self) -> &'static str {
                match self.0 {
                    $($number => $words,)*
                    _ => $other,
                }
            }
        }

        impl fmt::Display for $type {
            fn fmt(&self, f: &mut fmt::Formatter<'_>) -> fmt::Result {
                f.write_str(self.words())
            }
        }
    };
}

numbers! {
    /// Why a sheet fails: 101 to 125, or 140 to 152 for a reason that the paper
    /// sets. 110 to 112 and 125 arise only in an element's second reading, whose
    /// reason is never the mark's. It displays as the words of docs/KEY.md.
    Reason, "a reason that the paper sets":
    101 ELEMENT_WILDCARD_RANGE "element, wildcard: the range isn't within the base's"
    102 WILDCARD_ELEMENT "wildcard, element: a wildcard can't restrict an element"
    103 WILDCARD_RANGE "wildcard, wildcard: the range isn't within the base's"
    104 WEAKER_PROCESS_CONTENTS "wildcard, wildcard: weaker process contents"
    105 SEQUENCE_RANGE "sequence, sequence: the range isn't within the base's"
    106 CHOICE_RANGE "choice, choice: the range isn't within the base's"
    107 ALL_RANGE "all, all: the range isn't within the base's"
    108 NOT_IN_ALL "an item against an all-group: no untaken base element has its local name number"
    109 MISSING_FROM_ALL "against an all-group: a base element of minimum above 0 is left untaken"
    110 SEQUENCE_REQUIRED
        "element, sequence: the base minimum is above 1 (second reading, which no mark shows)"
    111 NO_ALTERNATIVE
        "element, choice: no alternative passes (second reading, which no mark shows)"
    112 CHOICE_REQUIRED
        "element, choice: the base minimum is above 1 (second reading, which no mark shows)"
    113 TOTAL_RANGE "group, wildcard: the total range isn't within the base's"
    114 WILDCARD_GROUP "wildcard, group: a wildcard can't restrict a group"
    115 GROUP_KIND "all against sequence or choice, or choice against sequence or all"
    116 SEQUENCE_TOTAL "sequence, choice: the pair times the item count isn't within the base pair"
    117 MEMBER_ALTERNATIVE "sequence, choice: a member restricts none of the alternatives"
    118 SEQUENCE_ALL_RANGE "sequence, all: the range isn't within the base's"
    119 MEMBER_NOT_ELEMENT "sequence, all: an item that isn't an element"
    120 NOT_ALLOWED "ordered walk: a derived item is left and the base items are used up"
    121 REQUIRED_MISSING "ordered walk: a base item is left over that isn't emptiable"
    122 MIN_BELOW "element, element: the minimum is below the base's"
    123 MAX_UNBOUNDED "element, element: the maximum is unbounded, the base's isn't"
    124 MAX_ABOVE "element, element: the maximum is above the base's"
    125 BASE_MAY_NOT_OCCUR
        "element, sequence or choice: the base maximum is 0 (second reading, which no mark shows)"
}

numbers! {
    /// Why a sheet, a tree, a chain, types or a table of types are refused: 1 to 18.
    /// A tree alone, or of a chain, is refused as a derived tree is. It displays as
    /// the words of docs/KEY.md.
    Refusal, "no refusal of docs/KEY.md":
    1 CONTENTS
        "the caller's mistake: sheet under 8 bytes, a contents field out of its range, or total \
         field or actual length unlike the formula"
    2 BUFFER "the caller's mistake: buffer shorter than the tree handed in, or than the joined tree, which no sheet shows"
    3 LEAF "the examiner's mistake: the fields of a leaf are out of order"
    4 VERDICT "the examiner's mistake: a verdict that is not 0, 1 or 140 to 152"
    5 BASE_FIELDS "the examiner's mistake: base tree, the fields of a record are out of order"
    6 BASE_PAIR "the examiner's mistake: base tree, the minimum is above a bounded maximum"
    7 BASE_ALL_GROUP
        "the examiner's mistake: base tree, an all-group's maximum isn't 1, or an all's item is \
         no element"
    8 BASE_DEPTH "the examiner's mistake: base tree, the depth is above 12"
    9 BASE_COUNTS "the examiner's mistake: base tree, the item counts need fewer or more records"
    10 DERIVED_FIELDS
        "the candidate's mistake in a derived tree, or one in a tree alone or in a chain's \
         level: the fields of a record are out of order"
    11 DERIVED_PAIR
        "the candidate's mistake in a derived tree, or one in a tree alone or in a chain's \
         level: the minimum is above a bounded maximum"
    12 DERIVED_ALL_GROUP
        "the candidate's mistake in a derived tree, or one in a tree alone or in a chain's \
         level: an all-group's maximum isn't 1, or an all's item is no element"
    13 DERIVED_DEPTH
        "the candidate's mistake in a derived tree, or one in a tree alone or in a chain's \
         level: the depth is above 12"
    14 DERIVED_COUNTS
        "the candidate's mistake in a derived tree, or one in a tree alone or in a chain's \
         level: the item counts need fewer or more records"
    15 CHAIN
        "the caller's mistake: chain of 0 or over 17 levels, or of a length unlike its counts"
    16 LIMIT "the examiner's mistake: joined tree over 1000 records or depth 12"
    17 TYPE_NUMBER
        "the examiner's mistake: a type number that the list or the table of types does not \
         have, or not one for each leaf"
    18 TYPE_TABLE
        "the examiner's mistake: a table of types of 0 or over 200 rows, or with a row whose \
         parent is out of order"
}

// So that `?` hands a refusal on. A reason is an answer, not an error.
impl core::error::Error for Refusal {}
