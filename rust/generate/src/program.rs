//! Whole programs and inputs of the listing program.

use reference::registers::token_limit;

use crate::build::{build, Habit, Plan};
use crate::damage::damage;
use crate::rng::Rng;

/// A program and the edition to judge it under.
#[derive(Clone, Debug, PartialEq, Eq)]
pub struct Case {
    /// The edition, not always one that exists.
    pub edition: u32,
    /// Header and tokens.
    pub program: Vec<u8>,
}

impl Case {
    /// Edition and program in hexadecimal, to print where a test fails.
    pub fn hex(&self) -> String {
        let bytes: Vec<String> = self.program.iter().map(|b| format!("{b:02x}")).collect();
        format!("edition {}: {}", self.edition, bytes.join(" "))
    }
}

/// Half of these are lawful, the rest careless or damaged. One in a hundred
/// is about as long as its edition allows.
pub fn program(rng: &mut Rng) -> Case {
    let (edition, stage) = edition_and_stage(rng);
    let limit = token_limit(edition);
    let tokens = match rng.below(100) {
        0 => limit - rng.below(3),
        1..=4 => rng.below(3),
        5..=14 => rng.between(25, 80),
        _ => rng.between(3, 24),
    };
    let deep = rng.percent(10);
    let plan = Plan {
        edition,
        stage,
        tokens: if deep { tokens.max(45) } else { tokens },
        openers: usize::MAX,
        depth: rng.pick(&[16, 16, 16, 17]),
        opening: if deep { 60 } else { 15 },
        closing: if deep { 5 } else { 20 },
        habit: Habit::Sound,
    };
    perhaps_spoiled(rng, plan)
}

/// At most 24 tokens and 8 openers before any damage, so that every way can
/// be walked.
pub fn small_program(rng: &mut Rng) -> Case {
    let (edition, stage) = edition_and_stage(rng);
    let plan = Plan {
        edition,
        stage,
        tokens: rng.between(0, 24),
        openers: rng.pick(&[2, 4, 4, 6, 8]),
        depth: 8,
        opening: rng.pick(&[15, 25, 40]),
        closing: rng.pick(&[15, 25, 40]),
        habit: Habit::Sound,
    };
    perhaps_spoiled(rng, plan)
}

/// A lawful or careless program nested 14 to 17 deep, with that many openers.
pub fn deep_program(rng: &mut Rng) -> Case {
    let edition = rng.pick(&[2, 3]);
    let depth = rng.between(14, 17);
    let plan = Plan {
        edition,
        stage: rng.below(2) as u8,
        tokens: 60,
        openers: depth,
        depth,
        opening: 60,
        closing: 2,
        habit: rng.pick(&[Habit::Sound, Habit::Unite, Habit::KeepFirst]),
    };
    let program = build(rng, &plan);
    Case { edition, program }
}

/// A lawful program of at most so many tokens.
pub fn plain_program(rng: &mut Rng, edition: u32, stage: u8, tokens: usize) -> Case {
    let plan = Plan {
        edition,
        stage,
        tokens,
        openers: usize::MAX,
        depth: 16,
        opening: 15,
        closing: 20,
        habit: Habit::Sound,
    };
    let program = build(rng, &plan);
    Case { edition, program }
}

/// An input of the listing program: mostly a digit and a small program.
pub fn input(rng: &mut Rng) -> Vec<u8> {
    match rng.below(100) {
        0 => Vec::new(),
        1 => vec![rng.byte(); rng.between(49_159, 49_162)],
        2 => vec![rng.byte()],
        _ => {
            let case = small_program(rng);
            let mut digit = match case.edition {
                1..=3 => b'0' + case.edition as u8,
                other => other as u8,
            };
            if rng.percent(2) {
                digit = rng.byte();
            }
            let mut input = vec![digit];
            input.extend_from_slice(&case.program);
            input
        }
    }
}

fn edition_and_stage(rng: &mut Rng) -> (u32, u8) {
    (rng.pick(&[1, 2, 2, 3, 3]), rng.below(2) as u8)
}

/// Builds by plan: half lawful, some careless, the rest damaged.
fn perhaps_spoiled(rng: &mut Rng, mut plan: Plan) -> Case {
    let damages = match rng.below(100) {
        0..=49 => 0,
        50..=59 => {
            plan.habit = rng.pick(&[Habit::Unite, Habit::KeepFirst, Habit::WriteFirst]);
            0
        }
        60..=89 => 1,
        _ => rng.between(2, 4),
    };
    let program = build(rng, &plan);
    let mut case = Case {
        edition: plan.edition,
        program,
    };
    for _ in 0..damages {
        damage(rng, &mut case);
    }
    case
}
