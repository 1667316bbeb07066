//! The records that stand for decoded tokens.

use crate::registers::SAMPLER;

/// A decoded token.
#[derive(Clone, Copy, Debug, PartialEq, Eq, Hash)]
pub struct Token {
    /// All four bytes of the opcode.
    pub opcode: u32,
    /// The destination, where the opcode has one.
    pub destination: Option<Destination>,
    /// Source 1.
    pub source1: Operand,
    /// Source 2, or the sampler of `tex`.
    pub source2: Operand,
}

/// The register a token writes.
#[derive(Clone, Copy, Debug, PartialEq, Eq, Hash)]
pub struct Destination {
    /// Register number.
    pub number: u16,
    /// Write mask, 4 bits; bit 0 is x, bit 3 is w.
    pub mask: u8,
    /// Register type, 4 bits.
    pub register_type: u8,
}

/// One of the two operands of a token.
#[derive(Clone, Copy, Debug, PartialEq, Eq, Hash)]
pub enum Operand {
    /// The opcode has no such operand.
    Unused,
    /// A register named by its number.
    Direct(Source),
    /// A constant found through an index register.
    Indexed(Source),
    /// A texture sampler.
    Sampler(Sampler),
}

/// The fields of a source, direct or indexed.
///
/// In a direct source `index_type` and `component` mean nothing, but a record
/// keeps them so that encoding gives back the same bytes.
#[derive(Clone, Copy, Debug, PartialEq, Eq, Hash)]
pub struct Source {
    /// Register number; of the index register in an indexed source.
    pub number: u16,
    /// Offset added to the index.
    pub offset: u8,
    /// Four selectors of two bits; bits 0-1 choose for x.
    pub swizzle: u8,
    /// Register type, 4 bits.
    pub register_type: u8,
    /// Type of the index register, 4 bits.
    pub index_type: u8,
    /// Component of the index register, 2 bits.
    pub component: u8,
}

/// The fields of a sampler.
#[derive(Clone, Copy, Debug, PartialEq, Eq, Hash)]
pub struct Sampler {
    /// Sampler register number.
    pub number: u16,
    /// Level-of-detail bias in eighths.
    pub bias: i8,
    /// Register type, 4 bits; 5 in a lawful program.
    pub register_type: u8,
    /// 0 is 2D, 1 is cube; 4 bits.
    pub dimension: u8,
    /// 0 clamps, 1 repeats; 4 bits.
    pub wrap: u8,
    /// Special flags, 4 bits; 0 in a lawful program.
    pub special: u8,
    /// 0 is nearest, 1 is linear; 4 bits.
    pub filter: u8,
    /// 0 is none, 1 is nearest, 2 is linear; 4 bits.
    pub mipmap: u8,
}

/// The bias of a sampler as the number the hardware adds: eighths of a level.
pub fn bias(sampler: &Sampler) -> f32 {
    f32::from(sampler.bias) / 8.0
}

const fn fits4(field: u8) -> bool {
    field < 16
}

impl Destination {
    #[inline]
    pub(crate) const fn from_word(word: u32) -> Self {
        Destination {
            number: word as u16,
            mask: (word >> 16) as u8 & 15,
            register_type: (word >> 24) as u8 & 15,
        }
    }

    pub(crate) fn to_word(self) -> u32 {
        u32::from(self.number) | u32::from(self.mask) << 16 | u32::from(self.register_type) << 24
    }

    /// Whether every field fits its width.
    pub(crate) const fn fits(&self) -> bool {
        fits4(self.mask) && fits4(self.register_type)
    }
}

impl Source {
    #[inline]
    pub(crate) const fn from_word(word: u64) -> Self {
        Source {
            number: word as u16,
            offset: (word >> 16) as u8,
            swizzle: (word >> 24) as u8,
            register_type: (word >> 32) as u8 & 15,
            index_type: (word >> 40) as u8 & 15,
            component: (word >> 48) as u8 & 3,
        }
    }

    /// The word of a direct source.
    pub(crate) fn to_word(self) -> u64 {
        u64::from(self.number)
            | u64::from(self.offset) << 16
            | u64::from(self.swizzle) << 24
            | u64::from(self.register_type) << 32
            | u64::from(self.index_type) << 40
            | u64::from(self.component) << 48
    }

    /// Whether every field fits its width.
    pub(crate) const fn fits(&self) -> bool {
        fits4(self.register_type) && fits4(self.index_type) && self.component < 4
    }
}

impl Sampler {
    pub(crate) const fn from_word(word: u64) -> Self {
        Sampler {
            number: word as u16,
            bias: (word >> 16) as i8,
            register_type: (word >> 32) as u8 & 15,
            dimension: (word >> 44) as u8 & 15,
            special: (word >> 48) as u8 & 15,
            wrap: (word >> 52) as u8 & 15,
            mipmap: (word >> 56) as u8 & 15,
            filter: (word >> 60) as u8 & 15,
        }
    }

    pub(crate) fn to_word(self) -> u64 {
        u64::from(self.number)
            | u64::from(self.bias as u8) << 16
            | u64::from(self.register_type) << 32
            | u64::from(self.dimension) << 44
            | u64::from(self.special) << 48
            | u64::from(self.wrap) << 52
            | u64::from(self.mipmap) << 56
            | u64::from(self.filter) << 60
    }

    /// Whether every field fits its width.
    pub(crate) const fn fits(&self) -> bool {
        fits4(self.register_type)
            && fits4(self.dimension)
            && fits4(self.special)
            && fits4(self.wrap)
            && fits4(self.mipmap)
            && fits4(self.filter)
    }

    /// Whether type and settings are lawful; the number is judged elsewhere,
    /// for its limit depends on the edition.
    pub(crate) const fn settings_lawful(&self) -> bool {
        self.register_type == SAMPLER
            && self.dimension <= 1
            && self.wrap <= 1
            && self.special == 0
            && self.filter <= 1
            && self.mipmap <= 2
    }
}
