//! What a refused call answers.

/// The numbers of the faults.
pub mod fault {
    #![allow(missing_docs)]
    pub const EDITION: u8 = 1;
    pub const SHORT_PROGRAM: u8 = 2;
    pub const FIRST_BYTE: u8 = 3;
    pub const VERSION: u8 = 4;
    pub const TYPE_ID: u8 = 5;
    pub const STAGE: u8 = 6;
    pub const RAGGED_LENGTH: u8 = 7;
    pub const TOO_MANY_TOKENS: u8 = 8;
    pub const UNLISTED_OPCODE: u8 = 9;
    pub const ADDED_OPCODE: u8 = 10;
    pub const FRAGMENT_OPCODE: u8 = 11;
    pub const UNUSED_FIELD: u8 = 12;
    pub const UNDEFINED_BIT: u8 = 13;
    pub const DESTINATION: u8 = 14;
    pub const MASK: u8 = 15;
    pub const INDEXED_SOURCE: u8 = 16;
    pub const DIRECT_SOURCE: u8 = 17;
    pub const SWIZZLE: u8 = 18;
    pub const SAMPLER: u8 = 19;
    pub const BRANCH: u8 = 20;
    pub const UNWRITTEN: u8 = 21;
    pub const OPEN_BRANCH: u8 = 22;
    pub const SHORT_BUFFER: u8 = 23;
    pub const NO_TOKEN: u8 = 24;
    pub const RECORD: u8 = 25;
}

/// The parts of a token that a refusal can name.
pub mod part {
    #![allow(missing_docs)]
    pub const OPCODE: u8 = 0;
    pub const DESTINATION: u8 = 1;
    pub const SOURCE1: u8 = 2;
    pub const SOURCE2: u8 = 3;
}

/// A refused answer; numbers that no rule names are 0.
#[derive(Clone, Copy, Debug, PartialEq, Eq, Hash)]
pub struct Refusal {
    /// Number of the fault, see [`fault`].
    pub number: u8,
    /// The token at fault, counted from 0.
    pub token: usize,
    /// The part of the token at fault, see [`part`].
    pub part: u8,
}

impl Refusal {
    /// A refusal that names neither a token nor a part.
    pub(crate) const fn plain(number: u8) -> Self {
        Fault::new(number, part::OPCODE).at(0)
    }
}

/// A fault inside one token, before anyone says which token it is.
#[derive(Clone, Copy)]
pub(crate) struct Fault {
    number: u8,
    part: u8,
}

impl Fault {
    pub(crate) const fn new(number: u8, part: u8) -> Self {
        Fault { number, part }
    }

    /// The same fault as a refusal at `token`.
    pub(crate) const fn at(self, token: usize) -> Refusal {
        Refusal {
            number: self.number,
            token,
            part: self.part,
        }
    }
}
