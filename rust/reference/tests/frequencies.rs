//! Every fault of a program turns up often among generated programs.

use generate::{plain_program, program, Rng};
use reference::{check, Accepted};

const PROGRAMS: usize = 200_000;

#[test]
fn every_fault_is_frequent() {
    let mut rng = Rng::new(4);
    let mut seen = [0usize; 23];
    for _ in 0..PROGRAMS {
        let case = program(&mut rng);
        let number = match check(&case.program, case.edition) {
            Ok(_) => 0,
            Err(refusal) => usize::from(refusal.number),
        };
        assert!(number < seen.len(), "refusal {number}: {}", case.hex());
        seen[number] += 1;
    }
    println!("accepted {} of {PROGRAMS}", seen[0]);
    for (number, times) in seen.iter().enumerate().skip(1) {
        println!("refusal {number:2}: {times}");
    }
    assert!(seen[0] >= PROGRAMS / 3, "accepted {}", seen[0]);
    for (number, &times) in seen.iter().enumerate() {
        assert!(times >= 100, "refusal {number} came up {times} times");
    }
}

/// What the generator calls lawful is accepted, up to the longest programs.
#[test]
fn lawful_programs_are_accepted() {
    let mut rng = Rng::new(5);
    for round in 0..2_000 {
        let edition = 1 + rng.below(3) as u32;
        let stage = rng.below(2) as u8;
        let tokens = match round % 20 {
            0 => reference::registers::token_limit(edition),
            _ => rng.below(100),
        };
        let case = plain_program(&mut rng, edition, stage, tokens);
        let tokens = (case.program.len() - 7) / 24;
        assert_eq!(
            check(&case.program, edition),
            Ok(Accepted { stage, tokens }),
            "{}",
            case.hex()
        );
    }
}

/// All forty opcodes appear in accepted programs.
#[test]
fn every_opcode_is_accepted_somewhere() {
    let mut rng = Rng::new(6);
    let mut seen = [0usize; 256];
    for _ in 0..5_000 {
        let case = program(&mut rng);
        if check(&case.program, case.edition).is_ok() {
            for token in case.program[7..].chunks(24) {
                seen[usize::from(token[0])] += 1;
            }
        }
    }
    let listed = (0..256u32).filter(|code| reference::opcode(*code).is_some());
    assert_eq!(listed.clone().count(), 40);
    for code in listed {
        assert!(seen[code as usize] >= 100, "opcode {code:#04x}");
    }
}
