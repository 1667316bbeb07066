//! The flat form that a record has in the C interface: `include/agal.h` has its layout.

use crate::record::{Destination, Operand, Sampler, Source, Token};

/// How many bytes a flat form has.
pub(crate) const SIZE: usize = 29;

const DESTINATION: usize = 4;
const SOURCE1: usize = 9;
const SOURCE2: usize = 19;

/// The record of a flat form that the library wrote.
pub(crate) fn read(flat: &[u8; SIZE]) -> Token {
    Token {
        opcode: u32::from_le_bytes([flat[0], flat[1], flat[2], flat[3]]),
        destination: match flat[DESTINATION] {
            0 => None,
            _ => Some(Destination {
                number: number(&flat[DESTINATION..]),
                mask: flat[DESTINATION + 3],
                register_type: flat[DESTINATION + 4],
            }),
        },
        source1: operand(&flat[SOURCE1..SOURCE2]),
        source2: operand(&flat[SOURCE2..]),
    }
}

fn number(bytes: &[u8]) -> u16 {
    u16::from_le_bytes([bytes[1], bytes[2]])
}

fn operand(bytes: &[u8]) -> Operand {
    match bytes[0] {
        0 => Operand::Unused,
        1 => Operand::Direct(source(bytes)),
        2 => Operand::Indexed(source(bytes)),
        _ => Operand::Sampler(Sampler {
            number: number(bytes),
            bias: bytes[3] as i8,
            register_type: bytes[4],
            dimension: bytes[5],
            special: bytes[6],
            wrap: bytes[7],
            mipmap: bytes[8],
            filter: bytes[9],
        }),
    }
}

fn source(bytes: &[u8]) -> Source {
    Source {
        number: number(bytes),
        offset: bytes[3],
        swizzle: bytes[4],
        register_type: bytes[5],
        index_type: bytes[6],
        component: bytes[7],
    }
}

/// The flat form of a record.
pub(crate) fn written(token: &Token) -> [u8; SIZE] {
    let mut flat = [0; SIZE];
    flat[..DESTINATION].copy_from_slice(&token.opcode.to_le_bytes());
    if let Some(d) = &token.destination {
        let [low, high] = d.number.to_le_bytes();
        flat[DESTINATION..SOURCE1].copy_from_slice(&[1, low, high, d.mask, d.register_type]);
    }
    flat[SOURCE1..SOURCE2].copy_from_slice(&operand_bytes(&token.source1));
    flat[SOURCE2..].copy_from_slice(&operand_bytes(&token.source2));
    flat
}

fn operand_bytes(operand: &Operand) -> [u8; 10] {
    match operand {
        Operand::Unused => [0; 10],
        Operand::Direct(s) => source_bytes(1, s),
        Operand::Indexed(s) => source_bytes(2, s),
        Operand::Sampler(s) => {
            let [low, high] = s.number.to_le_bytes();
            [
                3,
                low,
                high,
                s.bias as u8,
                s.register_type,
                s.dimension,
                s.special,
                s.wrap,
                s.mipmap,
                s.filter,
            ]
        }
    }
}

fn source_bytes(kind: u8, s: &Source) -> [u8; 10] {
    let [low, high] = s.number.to_le_bytes();
    [
        kind,
        low,
        high,
        s.offset,
        s.swizzle,
        s.register_type,
        s.index_type,
        s.component,
        0,
        0,
    ]
}
