//! Decode and encode.

mod common;

use common::*;
use generate::{record, token_bytes, Rng};
use reference::{decode, encode, opcode, Operand, Refusal, Second, Token};

fn plain(number: u8) -> Refusal {
    Refusal {
        number,
        token: 0,
        part: 0,
    }
}

#[test]
fn decode_needs_exactly_24_bytes() {
    let bytes = [0; 48];
    for length in (0..48).filter(|length| *length != 24) {
        assert_eq!(decode(&bytes[..length]), Err(plain(24)));
    }
    assert!(decode(&bytes[..24]).is_ok());
}

/// Bytes that decode come back from encode; the others have fault 9, 12 or 13
/// by the same words as in a check.
#[test]
fn bytes_round_trip() {
    let mut rng = Rng::new(7);
    let mut decoded = 0;
    for _ in 0..500_000 {
        let bytes = token_bytes(&mut rng);
        match decode(&bytes) {
            Ok(token) => {
                let mut buffer = [0xaa; 30];
                assert_eq!(encode(&token, &mut buffer), Ok(()), "{}", hex(&bytes));
                assert_eq!(buffer[..24], bytes, "{}", hex(&bytes));
                assert_eq!(buffer[24..], [0xaa; 6], "{}", hex(&bytes));
                decoded += 1;
            }
            Err(refusal) => {
                assert_eq!(refusal, oracle_fault(&bytes), "{}", hex(&bytes));
            }
        }
    }
    assert!(decoded > 250_000);
}

/// The naive judge's fault for a token that doesn't decode. Edition 2 and a
/// fragment program leave out faults 10 and 11, which decode has not.
fn oracle_fault(bytes: &Bytes) -> Refusal {
    match oracle::judge(&program(FRAGMENT, &[*bytes]), 2) {
        Err((number @ (9 | 12 | 13), token, part)) => Refusal {
            number,
            token,
            part,
        },
        other => panic!("{other:?}: {}", hex(bytes)),
    }
}

/// Encode refuses just what it should and nothing is written then.
#[test]
fn records_round_trip() {
    let mut rng = Rng::new(8);
    let mut encoded = 0;
    for _ in 0..500_000 {
        let token = record(&mut rng);
        let length = rng.pick(&[0, 8, 23, 24, 24, 25, 40]);
        let mut buffer = vec![0x55; length];
        let answer = encode(&token, &mut buffer);
        if !encodable(&token) {
            assert_eq!(answer, Err(plain(25)), "{token:?}");
            assert!(buffer.iter().all(|&byte| byte == 0x55));
        } else if length < 24 {
            assert_eq!(answer, Err(plain(23)), "{token:?}");
            assert!(buffer.iter().all(|&byte| byte == 0x55));
        } else {
            assert_eq!(answer, Ok(()), "{token:?}");
            assert_eq!(decode(&buffer[..24]), Ok(token), "{}", hex(&buffer));
            assert!(buffer[24..].iter().all(|&byte| byte == 0x55));
            encoded += 1;
        }
    }
    assert!(encoded > 100_000);
}

fn encodable(token: &Token) -> bool {
    let Some(opcode) = opcode(token.opcode) else {
        return false;
    };
    let destination = match token.destination {
        None => !opcode.destination,
        Some(d) => opcode.destination && d.mask <= 15 && d.register_type <= 15,
    };
    let source1 = match token.source1 {
        Operand::Unused => !opcode.source1,
        operand => opcode.source1 && source_fits(&operand),
    };
    let source2 = match opcode.source2 {
        Second::Unused => token.source2 == Operand::Unused,
        Second::Source => source_fits(&token.source2),
        Second::Sampler => sampler_fits(&token.source2),
    };
    destination && source1 && source2
}

fn source_fits(operand: &Operand) -> bool {
    match operand {
        Operand::Direct(s) | Operand::Indexed(s) => {
            s.register_type <= 15 && s.index_type <= 15 && s.component <= 3
        }
        _ => false,
    }
}

fn sampler_fits(operand: &Operand) -> bool {
    match operand {
        Operand::Sampler(s) => [
            s.register_type,
            s.dimension,
            s.wrap,
            s.special,
            s.filter,
            s.mipmap,
        ]
        .iter()
        .all(|&field| field <= 15),
        _ => false,
    }
}

/// Every field lands where the layout says.
#[test]
fn fields_of_one_token() {
    let mut bytes = token(0x28, (6, 0x1234, 0b1010), 0, 0);
    bytes[8..16].copy_from_slice(&[0x78, 0x56, 0x21, 0x1b, 0x04, 0x0c, 0x02, 0x80]);
    bytes[16..24].copy_from_slice(&[0x34, 0x12, 0xfc, 0x00, 0x05, 0x10, 0x93, 0x72]);
    let token = decode(&bytes).unwrap();
    let destination = token.destination.unwrap();
    assert_eq!(destination.number, 0x1234);
    assert_eq!(destination.mask, 0b1010);
    assert_eq!(destination.register_type, 6);
    let Operand::Indexed(source) = token.source1 else {
        panic!("{token:?}");
    };
    assert_eq!((source.number, source.offset), (0x5678, 0x21));
    assert_eq!((source.swizzle, source.register_type), (0x1b, 4));
    assert_eq!((source.index_type, source.component), (12, 2));
    let Operand::Sampler(sampler) = token.source2 else {
        panic!("{token:?}");
    };
    assert_eq!((sampler.number, sampler.bias), (0x1234, -4));
    assert_eq!((sampler.register_type, sampler.dimension), (5, 1));
    assert_eq!((sampler.wrap, sampler.special), (9, 3));
    assert_eq!((sampler.filter, sampler.mipmap), (7, 2));
}
