//! The check against the judge that walks every way.

mod common;

use common::*;
use generate::{deep_program, small_program, Case, Rng};
use reference::check;

/// Openers beyond which walking every way takes too long.
const MOST_OPENERS: usize = 18;

fn compare(case: &Case) {
    assert_eq!(
        check(&case.program, case.edition),
        oracle_verdict(case),
        "{}",
        case.hex()
    );
}

fn openers(case: &Case) -> usize {
    let tokens = case.program.get(7..).unwrap_or_default().chunks(24);
    tokens.filter(|t| (0x1c..=0x1f).contains(&t[0])).count()
}

#[test]
fn small_programs() {
    let mut rng = Rng::new(1);
    let mut compared = 0;
    while compared < 100_000 {
        let case = small_program(&mut rng);
        if openers(&case) <= MOST_OPENERS && case.program.len() < 7 + 24 * 64 {
            compare(&case);
            compared += 1;
        }
    }
}

#[test]
fn deep_programs() {
    let mut rng = Rng::new(2);
    for _ in 0..100 {
        compare(&deep_program(&mut rng));
    }
}

/// Every opcode, swizzle and mask over one half-written register.
#[test]
fn every_read_of_one_register() {
    let mut rng = Rng::new(3);
    for opcode in 0..0x2eu32 {
        for swizzle in 0..=255u8 {
            for written in 1..=15u8 {
                let mask = 1 + rng.below(15) as u8;
                for case in one_register(opcode, swizzle, written, mask) {
                    compare(&case);
                }
            }
        }
    }
}

/// A register written in part, then read as source 1 and as source 2.
fn one_register(opcode: u32, swizzle: u8, written: u8, mask: u8) -> [Case; 2] {
    let destination = match opcode {
        0x1c..=0x21 | 0x27 => NOWHERE,
        0x0e | 0x11 | 0x17 | 0x19 => (3, 0, 1 + mask % 7),
        _ => (3, 0, mask),
    };
    let temporary = direct(2, 0, swizzle);
    let constant = direct(1, 0, E4);
    let reader = |source1, source2| match opcode {
        0x00 | 0x05 | 0x08..=0x0a | 0x0c..=0x10 | 0x14..=0x16 | 0x1a | 0x1b | 0x27 => {
            token(opcode, destination, source1, 0)
        }
        0x20 | 0x21 => token(opcode, destination, 0, 0),
        0x28 => {
            let sampler = 5 << 32 | u64::from(mask & 1) << 44;
            token(opcode, destination, source1, sampler)
        }
        _ => token(opcode, destination, source1, source2),
    };
    let writer = token(0x00, (2, 0, written), constant, 0);
    let case = |reader: Bytes| Case {
        edition: 2,
        program: program(FRAGMENT, &[writer, reader]),
    };
    [
        case(reader(temporary, constant)),
        case(reader(constant, temporary)),
    ]
}

/// Rows of a matrix in temporaries, each lacking one component in turn.
#[test]
fn every_row_of_a_matrix() {
    for opcode in [0x17, 0x18, 0x19] {
        for first in [0, 3, 22, 23, 24] {
            for lacking in 0..16 {
                let masks = |row: u16| XYZW & !(u8::from(lacking / 4 == row) << (lacking % 4));
                let mut tokens: Vec<Bytes> = (0..4)
                    .filter(|row| first + row < 26 && masks(*row) != 0)
                    .map(|row| token(0, (2, first + row, masks(row)), direct(1, 0, E4), 0))
                    .collect();
                let matrix = direct(2, first, E4);
                tokens.push(token(opcode, (3, 0, XYZ), direct(1, 0, E4), matrix));
                compare(&Case {
                    edition: 2,
                    program: program(VERTEX, &tokens),
                });
            }
        }
    }
}

/// Every register type, numbers up to and beyond every count, in each field.
#[test]
fn every_register() {
    let numbers = (0..=256).chain(65_531..=65_535);
    for number in numbers {
        for register_type in 0..16 {
            for program_of in [vertex_tokens, fragment_tokens] {
                for (stage, token) in program_of(register_type, number) {
                    for edition in 1..=3 {
                        compare(&Case {
                            edition,
                            program: program(stage, &[token]),
                        });
                    }
                }
            }
        }
    }
}

fn vertex_tokens(register_type: u8, number: u16) -> Vec<(u8, Bytes)> {
    let index = (register_type, number, 0);
    let offset = number as u8;
    let sources = [
        direct(register_type, number, E4),
        indexed(index, 0, E4),
        indexed((register_type, 0, 0), offset, E4),
    ];
    tokens_of(VERTEX, register_type, number, &sources)
}

fn fragment_tokens(register_type: u8, number: u16) -> Vec<(u8, Bytes)> {
    let sources = [direct(register_type, number, E4)];
    let mut tokens = tokens_of(FRAGMENT, register_type, number, &sources);
    let sampler = direct(register_type, number, 0);
    let tex = token(0x28, (3, 0, XYZW), direct(1, 0, E4), sampler);
    tokens.push((FRAGMENT, tex));
    tokens
}

/// The register as a destination, then each source as a vector and a matrix.
fn tokens_of(stage: u8, register_type: u8, number: u16, sources: &[Word]) -> Vec<(u8, Bytes)> {
    let constant = direct(1, 0, E4);
    let written = (register_type, number, XYZW);
    let mut tokens = vec![(stage, token(0x00, written, constant, 0))];
    for &source in sources {
        tokens.push((stage, token(0x01, (3, 0, XYZW), source, constant)));
        tokens.push((stage, token(0x01, (3, 0, XYZW), constant, source)));
        for matrix in [0x17, 0x18, 0x19] {
            tokens.push((stage, token(matrix, (3, 0, XYZ), constant, source)));
        }
    }
    tokens
}
