//! From records to bytes.

use crate::layout::{indexed, Words, TOKEN_LEN};
use crate::opcodes::{opcode, Opcode, Second};
use crate::record::{Operand, Token};
use crate::refusal::{fault, Refusal};

/// Encodes a record into the first 24 bytes of the buffer.
///
/// A refused call leaves the buffer as it was.
pub fn encode(token: &Token, buffer: &mut [u8]) -> Result<(), Refusal> {
    encodable(token).ok_or(Refusal::plain(fault::RECORD))?;
    let lent = buffer
        .first_chunk_mut::<TOKEN_LEN>()
        .ok_or(Refusal::plain(fault::SHORT_BUFFER))?;
    *lent = words(token).to_bytes();
    Ok(())
}

/// The opcode of a record whose opcode is listed, whose operands are of the
/// opcode's kinds and whose fields all fit their widths.
pub(crate) fn encodable(token: &Token) -> Option<&'static Opcode> {
    let opcode = opcode(token.opcode)?;
    let fits = token
        .destination
        .is_none_or(|destination| destination.fits())
        && operand_fits(&token.source1)
        && operand_fits(&token.source2);
    (fits && matches(opcode, token)).then_some(opcode)
}

/// Whether the operands of a record are of the kinds that the opcode has.
fn matches(opcode: &Opcode, token: &Token) -> bool {
    let source1 = match token.source1 {
        Operand::Unused => !opcode.source1,
        Operand::Direct(_) | Operand::Indexed(_) => opcode.source1,
        Operand::Sampler(_) => false,
    };
    let source2 = match token.source2 {
        Operand::Unused => Second::Unused,
        Operand::Direct(_) | Operand::Indexed(_) => Second::Source,
        Operand::Sampler(_) => Second::Sampler,
    };
    token.destination.is_some() == opcode.destination && source1 && source2 == opcode.source2
}

fn operand_fits(operand: &Operand) -> bool {
    match operand {
        Operand::Unused => true,
        Operand::Direct(source) | Operand::Indexed(source) => source.fits(),
        Operand::Sampler(sampler) => sampler.fits(),
    }
}

fn words(token: &Token) -> Words {
    Words {
        opcode: token.opcode,
        destination: token.destination.map_or(0, |written| written.to_word()),
        source1: operand_word(&token.source1),
        source2: operand_word(&token.source2),
    }
}

fn operand_word(operand: &Operand) -> u64 {
    match operand {
        Operand::Unused => 0,
        Operand::Direct(source) => source.to_word(),
        Operand::Indexed(source) => indexed(source.to_word()),
        Operand::Sampler(sampler) => sampler.to_word(),
    }
}
