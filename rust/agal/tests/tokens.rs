//! Where the iterator over tokens ends.

use agal::{tokens, Refusal};

/// A header, and tokens that copy vc5 to vt0.
fn program(count: usize) -> Vec<u8> {
    let mut bytes = vec![0xA0, 1, 0, 0, 0, 0xA1, 0];
    for _ in 0..count {
        bytes.extend([
            0, 0, 0, 0, 0, 0, 0x0F, 2, 5, 0, 0, 0xE4, 1, 0, 0, 0, 0, 0, 0, 0, 0, 0, 0, 0,
        ]);
    }
    bytes
}

/// How many tokens come, and what is refused after them.
fn walk(program: &[u8]) -> (usize, Option<Refusal>) {
    let mut read = tokens(program);
    let mut refused = None;
    for token in read.by_ref() {
        assert_eq!(refused, None, "an item after a refusal");
        refused = token.err();
    }
    assert!(read.next().is_none(), "an item after the end");
    (read.place(), refused)
}

fn refusal(number: u8, token: usize, part: u8) -> Option<Refusal> {
    Some(Refusal {
        number,
        token,
        part,
    })
}

#[test]
fn a_whole_program_ends_without_a_refusal() {
    assert_eq!(walk(&program(0)), (0, None));
    assert_eq!(walk(&program(3)), (3, None));
}

#[test]
fn bytes_left_over_are_refused() {
    let bytes = program(2);
    assert_eq!(walk(&bytes[..bytes.len() - 1]), (1, refusal(24, 1, 0)));
    assert_eq!(walk(&bytes[..8]), (0, refusal(24, 0, 0)));
    assert_eq!(walk(&bytes[..6]), (0, refusal(24, 0, 0)));
    assert_eq!(walk(&[]), (0, refusal(24, 0, 0)));
}

#[test]
fn a_token_that_is_refused_is_the_last() {
    let mut bytes = program(3);
    bytes[7 + 24 + 19] = 1;
    assert_eq!(walk(&bytes), (1, refusal(12, 1, 3)));
}
