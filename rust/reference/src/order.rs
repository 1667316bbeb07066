//! The order in which the faults of one token are judged.
//!
//! Each way a token can be at fault is one bit; the lowest bit set is the
//! fault that counts. So all rules can be judged at once, without branching,
//! and the order stands in one place.

use crate::refusal::{fault, part, Fault};

/// A set of faults of one token.
pub(crate) type Faults = u32;

pub(crate) const ADDED_OPCODE: Faults = 1 << 0;
pub(crate) const FRAGMENT_OPCODE: Faults = 1 << 1;
pub(crate) const UNUSED_DESTINATION: Faults = 1 << 2;
pub(crate) const UNUSED_SOURCE1: Faults = 1 << 3;
pub(crate) const UNUSED_SOURCE2: Faults = 1 << 4;
pub(crate) const UNDEFINED_DESTINATION: Faults = 1 << 5;
pub(crate) const UNDEFINED_SOURCE1: Faults = 1 << 6;
pub(crate) const UNDEFINED_SOURCE2: Faults = 1 << 7;
pub(crate) const DESTINATION: Faults = 1 << 8;
pub(crate) const MASK: Faults = 1 << 9;
pub(crate) const INDEXED_SOURCE1: Faults = 1 << 10;
pub(crate) const DIRECT_SOURCE1: Faults = 1 << 11;
pub(crate) const SWIZZLE1: Faults = 1 << 12;
pub(crate) const INDEXED_SOURCE2: Faults = 1 << 13;
pub(crate) const DIRECT_SOURCE2: Faults = 1 << 14;
pub(crate) const SWIZZLE2: Faults = 1 << 15;
pub(crate) const SAMPLER: Faults = 1 << 16;
pub(crate) const OPENER: Faults = 1 << 17;
pub(crate) const ELS: Faults = 1 << 18;
pub(crate) const EIF: Faults = 1 << 19;
pub(crate) const UNWRITTEN1: Faults = 1 << 20;
pub(crate) const UNWRITTEN2: Faults = 1 << 21;

/// Number and part of each fault, in the order of the bits above.
static ORDER: [Fault; 22] = [
    Fault::new(fault::ADDED_OPCODE, part::OPCODE),
    Fault::new(fault::FRAGMENT_OPCODE, part::OPCODE),
    Fault::new(fault::UNUSED_FIELD, part::DESTINATION),
    Fault::new(fault::UNUSED_FIELD, part::SOURCE1),
    Fault::new(fault::UNUSED_FIELD, part::SOURCE2),
    Fault::new(fault::UNDEFINED_BIT, part::DESTINATION),
    Fault::new(fault::UNDEFINED_BIT, part::SOURCE1),
    Fault::new(fault::UNDEFINED_BIT, part::SOURCE2),
    Fault::new(fault::DESTINATION, part::DESTINATION),
    Fault::new(fault::MASK, part::DESTINATION),
    Fault::new(fault::INDEXED_SOURCE, part::SOURCE1),
    Fault::new(fault::DIRECT_SOURCE, part::SOURCE1),
    Fault::new(fault::SWIZZLE, part::SOURCE1),
    Fault::new(fault::INDEXED_SOURCE, part::SOURCE2),
    Fault::new(fault::DIRECT_SOURCE, part::SOURCE2),
    Fault::new(fault::SWIZZLE, part::SOURCE2),
    Fault::new(fault::SAMPLER, part::SOURCE2),
    Fault::new(fault::BRANCH, part::OPCODE),
    Fault::new(fault::BRANCH, part::OPCODE),
    Fault::new(fault::BRANCH, part::OPCODE),
    Fault::new(fault::UNWRITTEN, part::SOURCE1),
    Fault::new(fault::UNWRITTEN, part::SOURCE2),
];

/// The given faults where the condition holds, else none.
#[inline]
pub(crate) const fn when(condition: bool, faults: Faults) -> Faults {
    if condition {
        faults
    } else {
        0
    }
}

/// The fault that counts, if there is any.
#[inline]
pub(crate) fn first(faults: Faults) -> Result<(), Fault> {
    match ORDER.get(faults.trailing_zeros() as usize) {
        Some(fault) => Err(*fault),
        None => Ok(()),
    }
}
