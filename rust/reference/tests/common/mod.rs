//! Small pieces to put programs together from.
#![allow(dead_code)]

use generate::Case;
use reference::{Accepted, Refusal};

pub const VERTEX: u8 = 0;
pub const FRAGMENT: u8 = 1;

pub const X: u8 = 1;
pub const XYZ: u8 = 7;
pub const XYZW: u8 = 15;
pub const E4: u8 = 0xe4;

pub type Bytes = [u8; 24];

/// A destination: type, number, mask.
pub type Destination = (u8, u16, u8);

/// A source word.
pub type Word = u64;

/// A direct source: type, number, swizzle.
pub fn direct(register_type: u8, number: u16, swizzle: u8) -> Word {
    u64::from(number) | u64::from(swizzle) << 24 | u64::from(register_type) << 32
}

/// A constant found through an index register: type, number, component.
pub fn indexed(index: (u8, u16, u8), offset: u8, swizzle: u8) -> Word {
    direct(1, index.1, swizzle)
        | u64::from(offset) << 16
        | u64::from(index.0) << 40
        | u64::from(index.2) << 48
        | 1 << 63
}

pub fn token(opcode: u32, destination: Destination, source1: Word, source2: Word) -> Bytes {
    let (register_type, number, mask) = destination;
    let destination = u32::from(number) | u32::from(mask) << 16 | u32::from(register_type) << 24;
    let mut bytes = [0; 24];
    bytes[0..4].copy_from_slice(&opcode.to_le_bytes());
    bytes[4..8].copy_from_slice(&destination.to_le_bytes());
    bytes[8..16].copy_from_slice(&source1.to_le_bytes());
    bytes[16..24].copy_from_slice(&source2.to_le_bytes());
    bytes
}

pub const NOWHERE: Destination = (0, 0, 0);

/// `mov vt<number>.xyzw vc0.xyzw`, or its like in a fragment program.
pub fn write(number: u16) -> Bytes {
    token(0x00, (2, number, XYZW), direct(1, 0, E4), 0)
}

/// `mov op0.xyzw vt<number>.xyzw`, or its like in a fragment program.
pub fn read(number: u16) -> Bytes {
    token(0x00, (3, 0, XYZW), direct(2, number, E4), 0)
}

/// `ife vc0.xyzw vc0.xyzw`.
pub fn ife() -> Bytes {
    token(0x1c, NOWHERE, direct(1, 0, E4), direct(1, 0, E4))
}

pub fn els() -> Bytes {
    token(0x20, NOWHERE, 0, 0)
}

pub fn eif() -> Bytes {
    token(0x21, NOWHERE, 0, 0)
}

pub fn program(stage: u8, tokens: &[Bytes]) -> Vec<u8> {
    let mut bytes = vec![0xa0, 1, 0, 0, 0, 0xa1, stage];
    bytes.extend(tokens.iter().flatten());
    bytes
}

pub fn accepted(stage: u8, tokens: usize) -> Result<Accepted, Refusal> {
    Ok(Accepted { stage, tokens })
}

pub fn refused(number: u8, token: usize, part: u8) -> Result<Accepted, Refusal> {
    Err(Refusal {
        number,
        token,
        part,
    })
}

/// The verdict of the naive judge in the reference's terms.
pub fn oracle_verdict(case: &Case) -> Result<Accepted, Refusal> {
    match oracle::judge(&case.program, case.edition) {
        Ok((stage, tokens)) => accepted(stage, tokens),
        Err((number, token, part)) => refused(number, token, part),
    }
}

pub fn hex(bytes: &[u8]) -> String {
    let bytes: Vec<String> = bytes.iter().map(|b| format!("{b:02x}")).collect();
    bytes.join(" ")
}
