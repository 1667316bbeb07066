//! The record of a token: what its 24 bytes say.

use crate::check::Stage;
use crate::ffi;
use crate::flat;
use crate::refusal::Refusal;

/// How many bytes a token has.
pub const TOKEN_SIZE: usize = 24;

/// Room for every listing line.
const LINE_MAX: usize = 128;

/// A token.
#[derive(Clone, Copy, Debug, PartialEq, Eq, Hash)]
pub struct Token {
    /// The opcode, all four bytes of it.
    pub opcode: u32,
    /// The register that is written, where the opcode writes one.
    pub destination: Option<Destination>,
    /// Source 1.
    pub source1: Operand,
    /// Source 2; of `tex` the sampler.
    pub source2: Operand,
}

/// A register that is written.
#[derive(Clone, Copy, Debug, PartialEq, Eq, Hash)]
pub struct Destination {
    /// The register's number.
    pub number: u16,
    /// The components that are written: bit 0 is x, bit 3 is w.
    pub mask: u8,
    /// The register's type, 0 to 6 in the format.
    pub register_type: u8,
}

/// A source of a token.
#[derive(Clone, Copy, Debug, PartialEq, Eq, Hash)]
pub enum Operand {
    /// The opcode has no such source.
    Unused,
    /// A register.
    Direct(Source),
    /// A register that a component of an index register picks.
    Indexed(Source),
    /// A texture, and how it is sampled.
    Sampler(Sampler),
}

/// A direct or an indexed source.
#[derive(Clone, Copy, Debug, PartialEq, Eq, Hash)]
pub struct Source {
    /// The register's number; of an indexed source that of the index register.
    pub number: u16,
    /// What is added to the index; a direct source keeps it, and the check refuses it there.
    pub offset: u8,
    /// Four selectors of two bits; bits 0 and 1 choose for x. E4 is xyzw.
    pub swizzle: u8,
    /// The register's type, 0 to 6 in the format.
    pub register_type: u8,
    /// The index register's type; a direct source keeps it without a meaning.
    pub index_type: u8,
    /// The index register's component, 0 is x; a direct source keeps it without a meaning.
    pub component: u8,
}

/// A texture, and how it is sampled.
#[derive(Clone, Copy, Debug, PartialEq, Eq, Hash)]
pub struct Sampler {
    /// The sampler register's number.
    pub number: u16,
    /// The bias of the level of detail, in eighths.
    pub bias: i8,
    /// The register's type; a program that is accepted has 5.
    pub register_type: u8,
    /// 0 is 2D, 1 cube.
    pub dimension: u8,
    /// Special flags; a program that is accepted has none.
    pub special: u8,
    /// 0 clamps, 1 repeats.
    pub wrap: u8,
    /// 0 is none, 1 nearest, 2 linear.
    pub mipmap: u8,
    /// 0 is nearest, 1 linear.
    pub filter: u8,
}

/// Decodes a token from its 24 bytes.
///
/// Refused by 24 where there are more or fewer bytes, then by 9, 12 or 13.
///
/// ```
/// use agal::{decode, Operand};
///
/// // rcp vt1.x, vc3.xyzw
/// let bytes = [5, 0, 0, 0, 1, 0, 1, 2, 3, 0, 0, 0xE4, 1, 0, 0, 0, 0, 0, 0, 0, 0, 0, 0, 0];
/// let token = decode(&bytes)?;
/// assert_eq!(token.opcode, 5);
/// assert_eq!(token.source2, Operand::Unused);
/// assert_eq!(token.encode()?, bytes);
/// # Ok::<(), agal::Refusal>(())
/// ```
pub fn decode(bytes: &[u8]) -> Result<Token, Refusal> {
    let mut flat = [0; flat::SIZE];
    Refusal::of(ffi::decode(bytes, &mut flat))?;
    Ok(flat::read(&flat))
}

/// The bias of a sampler as a number of levels, exactly an eighth of [`Sampler::bias`].
///
/// ```
/// use agal::{bias, Sampler};
///
/// let sampler =
///     Sampler { number: 0, bias: -4, register_type: 5, dimension: 0, special: 0, wrap: 0, mipmap: 0, filter: 0 };
/// assert_eq!(bias(&sampler), -0.5);
/// ```
pub fn bias(sampler: &Sampler) -> f32 {
    ffi::bias(sampler.bias)
}

impl Token {
    /// Encodes the token.
    ///
    /// Refused by 25 where the opcode is not listed, takes operands of other kinds, or a value is wider than its
    /// field.
    ///
    /// ```
    /// use agal::{Operand, Token};
    ///
    /// let eif = Token { opcode: 0x21, destination: None, source1: Operand::Unused, source2: Operand::Unused };
    /// assert_eq!(eif.encode()?[0], 0x21);
    /// let unlisted = Token { opcode: 0x2B, ..eif };
    /// assert_eq!(unlisted.encode().unwrap_err().number, 25);
    /// # Ok::<(), agal::Refusal>(())
    /// ```
    pub fn encode(&self) -> Result<[u8; TOKEN_SIZE], Refusal> {
        let mut bytes = [0; TOKEN_SIZE];
        Refusal::of(ffi::encode(&flat::written(self), &mut bytes))?;
        Ok(bytes)
    }

    /// The token's line in a listing, for a stage and at a depth of 0 to 16. It ends in a line feed.
    ///
    /// Refused by 25 as [`encode`](Token::encode) is, and for another depth, a register type above 6 or sampler
    /// settings that have no name.
    ///
    /// ```
    /// use agal::{decode, Stage};
    ///
    /// let bytes = [5, 0, 0, 0, 1, 0, 1, 2, 3, 0, 0, 0xE4, 1, 0, 0, 0, 0, 0, 0, 0, 0, 0, 0, 0];
    /// assert_eq!(decode(&bytes)?.line(Stage::Fragment, 1)?, "  rcp ft1.x fc3.xyzw\n");
    /// # Ok::<(), agal::Refusal>(())
    /// ```
    pub fn line(&self, stage: Stage, depth: u32) -> Result<String, Refusal> {
        let mut line = [0; LINE_MAX];
        let answer = Refusal::of(ffi::line(
            &flat::written(self),
            stage as u32,
            depth,
            &mut line,
        ))?;
        Ok(String::from_utf8_lossy(&line[..answer.value]).into_owned())
    }
}
