//! The flat form of a record, after the table in `include/agal.h` and apart from the crate `agal`.

use reference::{Destination, Operand, Sampler, Source, Token};

/// How many bytes a flat form has.
pub const SIZE: usize = 29;

/// The flat form of a record.
pub fn of(token: &Token) -> [u8; SIZE] {
    let mut bytes = token.opcode.to_le_bytes().to_vec();
    match token.destination {
        None => bytes.extend([0; 5]),
        Some(d) => {
            bytes.push(1);
            bytes.extend(d.number.to_le_bytes());
            bytes.extend([d.mask, d.register_type]);
        }
    }
    put_operand(&mut bytes, &token.source1);
    put_operand(&mut bytes, &token.source2);
    bytes.try_into().expect("29 bytes")
}

fn put_operand(bytes: &mut Vec<u8>, operand: &Operand) {
    match operand {
        Operand::Unused => bytes.extend([0; 10]),
        Operand::Direct(s) => put_source(bytes, 1, s),
        Operand::Indexed(s) => put_source(bytes, 2, s),
        Operand::Sampler(s) => {
            bytes.push(3);
            bytes.extend(s.number.to_le_bytes());
            bytes.extend([s.bias as u8, s.register_type, s.dimension]);
            bytes.extend([s.special, s.wrap, s.mipmap, s.filter]);
        }
    }
}

fn put_source(bytes: &mut Vec<u8>, kind: u8, s: &Source) {
    bytes.push(kind);
    bytes.extend(s.number.to_le_bytes());
    bytes.extend([s.offset, s.swizzle, s.register_type]);
    bytes.extend([s.index_type, s.component, 0, 0]);
}

/// The record that bytes are the flat form of, where they are one. Bytes after the flat form are not looked at.
pub fn record(bytes: &[u8]) -> Option<Token> {
    let (flat, _) = bytes.split_first_chunk::<SIZE>()?;
    let destination = match flat[4] {
        0 => None,
        1 => Some(Destination {
            number: u16::from_le_bytes([flat[5], flat[6]]),
            mask: flat[7],
            register_type: flat[8],
        }),
        _ => return None,
    };
    Some(Token {
        opcode: u32::from_le_bytes([flat[0], flat[1], flat[2], flat[3]]),
        destination,
        source1: operand(&flat[9..19])?,
        source2: operand(&flat[19..29])?,
    })
}

fn operand(bytes: &[u8]) -> Option<Operand> {
    let number = u16::from_le_bytes([bytes[1], bytes[2]]);
    let source = Source {
        number,
        offset: bytes[3],
        swizzle: bytes[4],
        register_type: bytes[5],
        index_type: bytes[6],
        component: bytes[7],
    };
    let sampler = Sampler {
        number,
        bias: bytes[3] as i8,
        register_type: bytes[4],
        dimension: bytes[5],
        special: bytes[6],
        wrap: bytes[7],
        mipmap: bytes[8],
        filter: bytes[9],
    };
    match bytes[0] {
        0 => Some(Operand::Unused),
        1 => Some(Operand::Direct(source)),
        2 => Some(Operand::Indexed(source)),
        3 => Some(Operand::Sampler(sampler)),
        _ => None,
    }
}
