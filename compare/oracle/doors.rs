//! A module inside the original one, whose functions and verdict are private:
//! the verdict tables go in here (`first`, `second`, called by the patched
//! places), and the original functions come out.

use super::Verdict;
use crate::reasons::{self, Mark};
use crate::stubs::{CompiledSchema, ComplexType, Particle, TypedElement, Types};

/// Called at each entry of the rule that goes by two kinds. `compare/run search`
/// counts them; elsewhere nothing is done, and no time is taken.
#[inline(always)]
pub(super) fn entered() {
    #[cfg(counted)]
    ENTRIES.set(ENTRIES.get() + 1);
}

#[cfg(counted)]
thread_local! {
    static ENTRIES: std::cell::Cell<u64> = const { std::cell::Cell::new(0) };
}

/// The entries so far.
#[cfg(counted)]
pub fn entries() -> u64 {
    ENTRIES.get()
}

/// The first table's verdict on two elements.
pub(super) fn first(derived: u8, base: u8, schema: &CompiledSchema) -> Verdict {
    verdict(schema.first[place(derived, base, schema)])
}

/// The second table's verdict on two leaves.
pub(super) fn second(derived: u8, base: u8, schema: &CompiledSchema) -> Verdict {
    verdict(schema.second[place(derived, base, schema)])
}

fn place(derived: u8, base: u8, schema: &CompiledSchema) -> usize {
    usize::from(derived) * schema.leaves + usize::from(base)
}

fn verdict(number: u8) -> Verdict {
    match number {
        0 => Verdict::Ok,
        1 => Verdict::Unknown,
        140..=152 => Verdict::Violation(reasons::set_by_paper(number)),
        _ => panic!("{number} is no verdict"),
    }
}

fn mark_of(verdict: Verdict) -> Mark {
    match verdict {
        Verdict::Ok => Mark::Passes,
        Verdict::Unknown => Mark::Undecided,
        Verdict::Violation(message) => Mark::Fails(reasons::number(&message)),
    }
}

/// The whole mark: tidying, the early pass, the rules.
pub fn mark(derived: &Particle, base: &Particle, schema: &CompiledSchema) -> Mark {
    mark_of(super::mark(derived, base.clone(), schema))
}

/// The whole mark for the benchmark: no message is read or counted, and the
/// base particle is handed over as the original takes it.
pub fn judge(derived: &Particle, base: Particle, schema: &CompiledSchema) {
    std::hint::black_box(super::mark(derived, base, schema));
}

pub fn normalize(p: &Particle) -> Particle {
    super::normalize(p.clone())
}

pub fn emptiable(p: &Particle) -> bool {
    super::emptiable(p)
}

pub fn effective_total_range(p: &Particle) -> (u32, Option<u32>) {
    super::effective_total_range(p)
}

/// The content of a type with what it inherits, as `check_restriction` asks.
pub fn effective_particle(ct: &ComplexType, types: &Types) -> Option<Particle> {
    super::effective_particle(ct, types, 0)
}

/// The names that `builtin_parent` knows, in the order of its text.
pub fn builtin_names() -> &'static [&'static str] {
    &super::names::NAMES
}

pub fn builtin_parent(local: &str) -> Option<&'static str> {
    super::builtin_parent(local)
}

pub fn type_derivation_ok(de: &TypedElement, be: &TypedElement, types: &Types) -> Mark {
    mark_of(super::types::type_derivation_ok(de, be, types))
}
