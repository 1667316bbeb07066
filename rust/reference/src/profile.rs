//! An opcode as masks, so that a token is judged without branching on it.

use crate::components::selected;
use crate::layout::{Words, DESTINATION_UNDEFINED, SAMPLER_UNDEFINED, SOURCE_UNDEFINED};
use crate::opcodes::{Flow, Opcode, Second, Selectors};
use crate::order::{self, Faults};
use crate::record::{Destination, Sampler, Source};

/// What the check needs of an opcode.
#[derive(Clone, Copy, Debug)]
pub(crate) struct Profile {
    /// The bits of each word that must be 0.
    zero: Words,
    /// The faults a token of this opcode can have.
    pub(crate) possible: Faults,
    /// What a matrix in source 2 reads, four bits for each row.
    matrix: u16,
    /// Registers that source 2 spans.
    pub(crate) rows: u8,
    /// Mask bits that are refused.
    pub(crate) refused_mask: u8,
    /// Selectors read by whatever the mask.
    fixed: u8,
    /// Selectors read by where the mask has them.
    masked: u8,
    /// Selectors read by where a cube is sampled.
    cube: u8,
    /// What the opcode does to the nesting.
    pub(crate) flow: Flow,
}

impl Profile {
    pub(crate) const fn of(opcode: &Opcode) -> Self {
        let (fixed, masked, cube) = match opcode.selectors {
            Selectors::Mask => (0, 0b1111, 0),
            Selectors::Fixed(selectors) => (selectors, 0, 0),
            Selectors::Coordinates => (0b0011, 0, 0b0100),
        };
        Profile {
            zero: zero(opcode),
            possible: possible(opcode),
            matrix: opcode.matrix,
            rows: opcode.rows,
            refused_mask: if opcode.narrow { 0b1000 } else { 0 },
            fixed,
            masked,
            cube,
            flow: opcode.flow,
        }
    }

    /// Faults 12 and 13, some of which may be impossible for the opcode.
    #[inline]
    pub(crate) fn stray_bits(&self, words: &Words) -> Faults {
        use order::*;
        let destination = words.destination & self.zero.destination != 0;
        let source1 = words.source1 & self.zero.source1 != 0;
        let source2 = words.source2 & self.zero.source2 != 0;
        when(destination, UNUSED_DESTINATION | UNDEFINED_DESTINATION)
            | when(source1, UNUSED_SOURCE1 | UNDEFINED_SOURCE1)
            | when(source2, UNUSED_SOURCE2 | UNDEFINED_SOURCE2)
    }

    /// The components that each source reads if it is direct, four bits for
    /// each register.
    #[inline]
    pub(crate) fn reads(&self, words: &Words) -> (u16, u16) {
        let mask = Destination::from_word(words.destination).mask;
        let is_cube = Sampler::from_word(words.source2).dimension != 0;
        let cube = if is_cube { self.cube } else { 0 };
        let selectors = self.fixed | self.masked & mask | cube;
        let swizzle1 = Source::from_word(words.source1).swizzle;
        let swizzle2 = Source::from_word(words.source2).swizzle;
        let first = selected(swizzle1, selectors);
        // A lawful matrix is not swizzled, so its selectors add nothing to it.
        let second = selected(swizzle2, selectors);
        (first.into(), self.matrix | u16::from(second))
    }
}

const fn zero(opcode: &Opcode) -> Words {
    Words {
        opcode: 0,
        destination: if opcode.destination {
            DESTINATION_UNDEFINED
        } else {
            u32::MAX
        },
        source1: if opcode.source1 {
            SOURCE_UNDEFINED
        } else {
            u64::MAX
        },
        source2: match opcode.source2 {
            Second::Unused => u64::MAX,
            Second::Source => SOURCE_UNDEFINED,
            Second::Sampler => SAMPLER_UNDEFINED,
        },
    }
}

const fn possible(opcode: &Opcode) -> Faults {
    use order::*;
    let destination = if opcode.destination {
        UNDEFINED_DESTINATION | DESTINATION | MASK
    } else {
        UNUSED_DESTINATION
    };
    let source1 = if opcode.source1 {
        UNDEFINED_SOURCE1 | INDEXED_SOURCE1 | DIRECT_SOURCE1 | UNWRITTEN1
    } else {
        UNUSED_SOURCE1
    };
    let source2 = match opcode.source2 {
        Second::Unused => UNUSED_SOURCE2,
        Second::Source => UNDEFINED_SOURCE2 | INDEXED_SOURCE2 | DIRECT_SOURCE2 | UNWRITTEN2,
        Second::Sampler => UNDEFINED_SOURCE2 | SAMPLER,
    };
    let flow = match opcode.flow {
        Flow::Plain => 0,
        Flow::Opener => OPENER,
        Flow::Els => ELS,
        Flow::Eif => EIF,
    };
    when(opcode.added, ADDED_OPCODE)
        | when(opcode.fragment_only, FRAGMENT_OPCODE)
        | when(opcode.scalar, SWIZZLE1)
        | when(opcode.is_matrix(), SWIZZLE2)
        | destination
        | source1
        | source2
        | flow
}
