//! The built-in types, their numbers, names and parents, for `type_derivation_ok` and
//! `fill_types` of marker.rs; and which row of a table of types is out of order, for
//! `type_derivation_ok_by` and `fill_types_by`. Take this file into a crate as a
//! module beside it (`mod marker; mod types;`). It uses `core` alone.
//!
//! Number, name and parent of each type stand here once in Rust; link/check-names
//! holds them to crates/types and to docs/KEY.md, 'Type verdicts'.

// A program may use a part of it.
#![allow(dead_code)]

use core::fmt;

use super::marker::MOST_TYPES;

/// A type of the built-in list. It displays as its name.
#[derive(Debug, Clone, Copy, PartialEq, Eq, Hash, PartialOrd, Ord)]
pub struct Type {
    number: u8,
    name: &'static str,
}

impl Type {
    /// Its number, as `fill_types` takes one for each leaf.
    pub fn number(self) -> u8 {
        self.number
    }

    /// Its name.
    pub fn name(self) -> &'static str {
        self.name
    }

    /// The type with this number, if there is one.
    pub fn numbered(number: u8) -> Option<Type> {
        Type::ALL.iter().copied().find(|known| known.number == number)
    }

    /// The type with this name, if there is one; capital and small letters as in
    /// the list.
    pub fn named(name: &str) -> Option<Type> {
        Type::ALL.iter().copied().find(|known| known.name == name)
    }

    /// The built-in list as a table of types: the number of each type's parent, in
    /// the order of their numbers. With it `type_derivation_ok_by` and `fill_types_by`
    /// answer as the functions without a table do. A table with further types may
    /// start with it.
    pub const PARENTS: [u8; Type::ALL.len()] = [
        0, 0, 1, 1, 1, 1, 1, 1, 1, 1, // anyType to time
        1, 1, 1, 1, 1, 1, 1, 1, 1, 1, // date to QName
        1, 1, 1, 1, 1, 2, 25, 26, 26, 26, // NOTATION to Name
        29, 30, 30, 30, 4, 34, 34, 34, 35, 37, // NCName to int
        39, 40, 36, 36, 42, 44, 45, 8, 7, 7, // short to yearMonthDuration
    ];
}

impl fmt::Display for Type {
    fn fmt(&self, f: &mut fmt::Formatter<'_>) -> fmt::Result {
        f.write_str(self.name)
    }
}

// So that `type_derivation_ok` takes a type as well as a number.
impl From<Type> for u32 {
    fn from(known: Type) -> u32 {
        known.number.into()
    }
}

/// A table of types is out of order: its first row that is. It displays as a
/// sentence that names the row.
#[derive(Debug, Clone, Copy, PartialEq, Eq, Hash)]
pub struct TypeTableFault {
    row: usize,
}

impl TypeTableFault {
    /// The row: 0 where it is missing or not its own parent, a later one whose parent
    /// is not an earlier row, or `MOST_TYPES`, which is one too many.
    pub fn row(self) -> usize {
        self.row
    }
}

impl fmt::Display for TypeTableFault {
    fn fmt(&self, f: &mut fmt::Formatter<'_>) -> fmt::Result {
        match self.row {
            0 => f.write_str("row 0: it is missing, or not its own parent"),
            1 => f.write_str("row 1: its parent is not row 0"),
            row if row < MOST_TYPES => write!(f, "row {row}: its parent is not an earlier row"),
            row => write!(f, "row {row}: a table of types has at most {MOST_TYPES} rows"),
        }
    }
}

impl core::error::Error for TypeTableFault {}

/// Whether these parents are a table of types, as `type_derivation_ok_by` takes it,
/// and if not, which row is the first that is out of order, for whoever has to mend
/// it. It is an error exactly where there is the refusal 18. It is tested
/// (link/test_type_tables.rs), not proved.
pub fn check_type_table(parents: &[u8]) -> Result<(), TypeTableFault> {
    let in_order = |row: usize, parent: u8| match row {
        0 => parent == 0,
        _ => row < MOST_TYPES && usize::from(parent) < row,
    };
    match parents.iter().enumerate().find(|&(row, &parent)| !in_order(row, parent)) {
        Some((row, _)) => Err(TypeTableFault { row }),
        None if parents.is_empty() => Err(TypeTableFault { row: 0 }),
        None => Ok(()),
    }
}

// A constant for each type, and the list of them.
macro_rules! types {
    ($($number:literal $constant:ident $name:literal)*) => {
        impl Type {
            $(
                #[doc = $name]
                pub const $constant: Type = Type { number: $number, name: $name };
            )*

            /// All of them, in the order of their numbers.
            pub const ALL: &'static [Type] = &[$(Type::$constant),*];
        }
    };
}

types! {
    0 ANY_TYPE "anyType"
    1 ANY_SIMPLE_TYPE "anySimpleType"
    2 STRING "string"
    3 BOOLEAN "boolean"
    4 DECIMAL "decimal"
    5 FLOAT "float"
    6 DOUBLE "double"
    7 DURATION "duration"
    8 DATE_TIME "dateTime"
    9 TIME "time"
    10 DATE "date"
    11 G_YEAR_MONTH "gYearMonth"
    12 G_YEAR "gYear"
    13 G_MONTH_DAY "gMonthDay"
    14 G_DAY "gDay"
    15 G_MONTH "gMonth"
    16 HEX_BINARY "hexBinary"
    17 BASE64_BINARY "base64Binary"
    18 ANY_URI "anyURI"
    19 QNAME "QName"
    20 NOTATION "NOTATION"
    21 NMTOKENS "NMTOKENS"
    22 IDREFS "IDREFS"
    23 ENTITIES "ENTITIES"
    24 ANY_ATOMIC_TYPE "anyAtomicType"
    25 NORMALIZED_STRING "normalizedString"
    26 TOKEN "token"
    27 LANGUAGE "language"
    28 NMTOKEN "NMTOKEN"
    29 NAME "Name"
    30 NCNAME "NCName"
    31 ID "ID"
    32 IDREF "IDREF"
    33 ENTITY "ENTITY"
    34 INTEGER "integer"
    35 NON_POSITIVE_INTEGER "nonPositiveInteger"
    36 NON_NEGATIVE_INTEGER "nonNegativeInteger"
    37 LONG "long"
    38 NEGATIVE_INTEGER "negativeInteger"
    39 INT "int"
    40 SHORT "short"
    41 BYTE "byte"
    42 UNSIGNED_LONG "unsignedLong"
    43 POSITIVE_INTEGER "positiveInteger"
    44 UNSIGNED_INT "unsignedInt"
    45 UNSIGNED_SHORT "unsignedShort"
    46 UNSIGNED_BYTE "unsignedByte"
    47 DATE_TIME_STAMP "dateTimeStamp"
    48 DAY_TIME_DURATION "dayTimeDuration"
    49 YEAR_MONTH_DURATION "yearMonthDuration"
}
