//! From bytes to records.

use crate::layout::{is_indexed, Words, TOKEN_LEN};
use crate::opcodes::{listed, Opcode, Second};
use crate::order;
use crate::record::{Destination, Operand, Sampler, Source, Token};
use crate::refusal::{fault, part, Fault, Refusal};

/// Decodes exactly 24 bytes into a token record.
pub fn decode(bytes: &[u8]) -> Result<Token, Refusal> {
    let bytes = <&[u8; TOKEN_LEN]>::try_from(bytes).map_err(|_| Refusal::plain(fault::NO_TOKEN))?;
    decode_token(bytes).map_err(|fault| fault.at(0))
}

/// Decodes one token, whose number the caller knows.
pub(crate) fn decode_token(bytes: &[u8; TOKEN_LEN]) -> Result<Token, Fault> {
    let words = Words::from_bytes(bytes);
    let (opcode, profile) =
        listed(words.opcode).ok_or(Fault::new(fault::UNLISTED_OPCODE, part::OPCODE))?;
    order::first(profile.stray_bits(&words) & profile.possible)?;
    Ok(token(opcode, &words))
}

fn token(opcode: &Opcode, words: &Words) -> Token {
    Token {
        opcode: words.opcode,
        destination: opcode
            .destination
            .then(|| Destination::from_word(words.destination)),
        source1: if opcode.source1 {
            source(words.source1)
        } else {
            Operand::Unused
        },
        source2: match opcode.source2 {
            Second::Unused => Operand::Unused,
            Second::Source => source(words.source2),
            Second::Sampler => Operand::Sampler(Sampler::from_word(words.source2)),
        },
    }
}

fn source(word: u64) -> Operand {
    let source = Source::from_word(word);
    if is_indexed(word) {
        Operand::Indexed(source)
    } else {
        Operand::Direct(source)
    }
}
