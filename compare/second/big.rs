//! Whole numbers without limit: what total ranges need of them.

use std::cmp::Ordering;

/// The parts of 32 bits, the lowest first; the last one is not 0.
#[derive(Clone, PartialEq, Eq)]
pub struct Big(Vec<u32>);

impl Big {
    pub fn of(number: u32) -> Big {
        Big::from(vec![number])
    }

    pub fn is_zero(&self) -> bool {
        self.0.is_empty()
    }

    /// The number, where 32 bits hold it.
    pub fn small(&self) -> Option<u32> {
        match self.0[..] {
            [] => Some(0),
            [number] => Some(number),
            _ => None,
        }
    }

    pub fn plus(&self, other: &Big) -> Big {
        let part = |big: &Big, at: usize| u64::from(big.0.get(at).copied().unwrap_or(0));
        let longest = self.0.len().max(other.0.len());
        Big::carried((0..longest).map(|at| part(self, at) + part(other, at)))
    }

    pub fn times(&self, factor: u32) -> Big {
        Big::carried(self.0.iter().map(|part| u64::from(*part) * u64::from(factor)))
    }

    /// From parts that have yet to be carried over, each with room for a carry.
    fn carried(parts: impl Iterator<Item = u64>) -> Big {
        let mut carry = 0;
        let mut out: Vec<u32> = parts
            .map(|part| {
                carry += part;
                let low = carry as u32;
                carry >>= 32;
                low
            })
            .collect();
        out.push(carry as u32);
        Big::from(out)
    }

    fn from(mut parts: Vec<u32>) -> Big {
        while parts.last() == Some(&0) {
            parts.pop();
        }
        Big(parts)
    }
}

impl Ord for Big {
    fn cmp(&self, other: &Big) -> Ordering {
        let lengths = self.0.len().cmp(&other.0.len());
        lengths.then_with(|| self.0.iter().rev().cmp(other.0.iter().rev()))
    }
}

impl PartialOrd for Big {
    fn partial_cmp(&self, other: &Big) -> Option<Ordering> {
        Some(self.cmp(other))
    }
}
