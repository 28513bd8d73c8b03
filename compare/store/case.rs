//! One stored answer with what it answers, and its bytes as crates/replay reads
//! them.

/// An exported entry (crates/exports), by the number that stands for it.
#[derive(Debug, Clone, Copy, PartialEq, Eq, PartialOrd, Ord, Hash)]
pub enum Operation {
    Mark = 1,
    TotalMin = 2,
    TotalMax = 3,
    Emptiable = 4,
    Tidy = 5,
    Item = 6,
    EffectiveParticle = 7,
    TypeDerivationOk = 8,
    FillTypes = 9,
    TypeDerivationOkBy = 10,
    FillTypesBy = 11,
}

impl Operation {
    pub const EVERY: [Operation; 11] = [
        Operation::Mark,
        Operation::TotalMin,
        Operation::TotalMax,
        Operation::Emptiable,
        Operation::Tidy,
        Operation::Item,
        Operation::EffectiveParticle,
        Operation::TypeDerivationOk,
        Operation::FillTypes,
        Operation::TypeDerivationOkBy,
        Operation::FillTypesBy,
    ];

    /// Those that ask an entry for one tree.
    pub const OF_TREE: [Operation; 5] = [
        Operation::TotalMin,
        Operation::TotalMax,
        Operation::Emptiable,
        Operation::Tidy,
        Operation::Item,
    ];

    pub fn name(self) -> &'static str {
        match self {
            Operation::Mark => "mark",
            Operation::TotalMin => "total minimum",
            Operation::TotalMax => "total maximum",
            Operation::Emptiable => "emptiable",
            Operation::Tidy => "tidy",
            Operation::Item => "item",
            Operation::EffectiveParticle => "effective particle",
            Operation::TypeDerivationOk => "type derivation ok",
            Operation::FillTypes => "fill types",
            Operation::TypeDerivationOkBy => "type derivation ok by a table of types",
            Operation::FillTypesBy => "fill types by a table of types",
        }
    }
}

#[derive(Debug, Clone, PartialEq, Eq, Hash)]
pub struct Case {
    pub operation: Operation,
    /// The item that is asked for; or two types' numbers, the derived one's in the
    /// low byte, the base's in the high one; or how many types the input begins
    /// with, where a table of types follows them; 0 elsewhere.
    pub k: u16,
    /// The sheet, tree, chain, types or table of types; types and then a table of
    /// types; empty for two types' numbers alone.
    pub input: Vec<u8>,
    /// The lent buffer or sheet, empty where the operation takes none.
    pub before: Vec<u8>,
    /// As long as `before`.
    pub after: Vec<u8>,
    /// In the numbers of crates/exports.
    pub answer: u64,
    /// The Rust's own mark, where that is another. It is not written.
    pub unlike: Option<u32>,
}

impl Case {
    /// An answer that is a number alone.
    pub fn number(operation: Operation, input: &[u8], answer: u64) -> Case {
        let input = input.to_vec();
        let (before, after) = (Vec::new(), Vec::new());
        Case { operation, k: 0, input, before, after, answer, unlike: None }
    }

    /// Operation (8 bits), k (16), length of the input (16) and of the buffer
    /// (16), answer (64); the input, the buffer before and the buffer after.
    pub fn write(&self, out: &mut Vec<u8>) {
        let short = |length| u16::try_from(length).expect("a length of 16 bits").to_le_bytes();
        assert!(self.before.len() == self.after.len());
        out.push(self.operation as u8);
        out.extend(self.k.to_le_bytes());
        out.extend(short(self.input.len()));
        out.extend(short(self.before.len()));
        out.extend(self.answer.to_le_bytes());
        out.extend(&self.input);
        out.extend(&self.before);
        out.extend(&self.after);
    }
}
