//! What the program `agallist` prints.

use crate::check::{check, Accepted};
use crate::line::Line;
use crate::opcodes::{opcode, Flow};
use crate::reader::TokenReader;
use crate::refusal::{fault, Refusal};
use crate::registers::VERTEX;

/// Longest input of `agallist`: an edition digit and the longest program.
pub const MAX_INPUT_LEN: usize = 49_160;

/// What `agallist` prints for an input: an edition digit and a program.
pub fn report(input: &[u8]) -> Vec<u8> {
    if input.len() > MAX_INPUT_LEN {
        return b"input too long\n".to_vec();
    }
    let Some((&digit, program)) = input.split_first() else {
        return b"no edition\n".to_vec();
    };
    listing(digit, program).unwrap_or_else(|refusal| refusal_line(&refusal))
}

fn refusal_line(refusal: &Refusal) -> Vec<u8> {
    let Refusal {
        number,
        token,
        part,
    } = refusal;
    format!("refused {number} at {token} part {part}\n").into_bytes()
}

fn listing(digit: u8, program: &[u8]) -> Result<Vec<u8>, Refusal> {
    let edition = match digit {
        b'1'..=b'3' => u32::from(digit - b'0'),
        _ => return Err(Refusal::plain(fault::EDITION)),
    };
    let accepted = check(program, edition)?;
    let mut text = first_line(edition, &accepted);
    let (mut reader, opened) = TokenReader::open(program);
    opened?;
    let mut depth = 0u32;
    for _ in 0..accepted.tokens {
        let token = reader.read()?;
        let flow = opcode(token.opcode).map_or(Flow::Plain, |opcode| opcode.flow);
        if matches!(flow, Flow::Els | Flow::Eif) {
            depth = depth.saturating_sub(1);
        }
        // An accepted token can always be named.
        let line = Line::of(&token, accepted.stage, depth).ok_or(Refusal::plain(fault::RECORD))?;
        text.extend_from_slice(line.as_bytes());
        if matches!(flow, Flow::Opener | Flow::Els) {
            depth += 1;
        }
    }
    Ok(text)
}

fn first_line(edition: u32, accepted: &Accepted) -> Vec<u8> {
    let stage = if accepted.stage == VERTEX {
        "vertex"
    } else {
        "fragment"
    };
    let tokens = accepted.tokens;
    format!("agal {edition} {stage} {tokens}\n").into_bytes()
}
