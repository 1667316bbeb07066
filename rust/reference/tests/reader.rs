//! The token reader.

mod common;

use common::*;
use generate::{small_program, Rng};
use reference::{decode, Refusal, TokenReader};

fn refusal(number: u8, token: usize, part: u8) -> Refusal {
    Refusal {
        number,
        token,
        part,
    }
}

#[test]
fn a_short_program_gives_a_reader_without_tokens() {
    for length in 0..7 {
        let bytes = program(VERTEX, &[]);
        let (mut reader, opened) = TokenReader::open(&bytes[..length]);
        assert_eq!(opened, Err(refusal(2, 0, 0)));
        assert_eq!(reader.read(), Err(refusal(24, 0, 0)));
        assert_eq!(reader.read(), Err(refusal(24, 0, 0)));
    }
}

#[test]
fn the_header_is_not_judged() {
    let mut bytes = program(9, &[write(0), read(0)]);
    bytes[0] = 0;
    bytes.extend([0; 23]);
    let (mut reader, opened) = TokenReader::open(&bytes);
    assert_eq!(opened, Ok(()));
    assert_eq!(reader.read(), decode(&write(0)));
    assert_eq!(reader.read(), decode(&read(0)));
    assert_eq!(reader.read(), Err(refusal(24, 2, 0)));
    assert_eq!(reader.place(), 2);
}

#[test]
fn a_refused_token_keeps_the_place() {
    let mut stray = write(0);
    stray[20] = 1;
    let bytes = program(VERTEX, &[write(0), stray, write(1)]);
    let (mut reader, _) = TokenReader::open(&bytes);
    assert_eq!(reader.read(), decode(&write(0)));
    for _ in 0..3 {
        assert_eq!(reader.read(), Err(refusal(12, 1, 3)));
    }
}

/// Reads agree with decoding the chunks of the body one by one.
#[test]
fn reads_follow_decode() {
    let mut rng = Rng::new(11);
    for _ in 0..20_000 {
        let case = small_program(&mut rng);
        let (mut reader, opened) = TokenReader::open(&case.program);
        assert_eq!(opened.is_ok(), case.program.len() >= 7);
        let body = case.program.get(7..).unwrap_or_default();
        let mut chunks = body.chunks_exact(24);
        let mut place = 0;
        let end = loop {
            let Some(bytes) = chunks.next() else {
                break refusal(24, place, 0);
            };
            match decode(bytes) {
                Ok(token) => assert_eq!(reader.read(), Ok(token), "{}", case.hex()),
                Err(fault) => break refusal(fault.number, place, fault.part),
            }
            place += 1;
        };
        assert_eq!(reader.read(), Err(end), "{}", case.hex());
        assert_eq!(reader.read(), Err(end), "{}", case.hex());
    }
}
