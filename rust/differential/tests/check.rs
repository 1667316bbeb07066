//! The check, on programs of all editions and stages, up to the token limits, deeply nested, and damaged.

use agal::raw::{self, Answer};
use agal::Edition;
use differential::{exact, in_full, refused, rounds, safe, Tally};
use generate::{deep_program, program, small_program, Case, Rng};
use reference::registers::token_limit;
use reference::{check, Accepted, Refusal, MAX_NESTING};

/// Openers beyond which walking every way takes too long for so many programs.
const MOST_OPENERS: usize = 12;
/// Tokens of the programs that are called small.
const MOST_TOKENS: usize = 64;

type Verdict = Result<Accepted, Refusal>;

/// Both ways to call the proved check, against the reference; answers the reference's verdict.
fn compare(case: &Case) -> Verdict {
    let verdict = check(&case.program, case.edition);
    let expected = match verdict {
        Err(refusal) => refused(refusal),
        Ok(accepted) => Answer {
            number: 0,
            part: 0,
            stage: accepted.stage,
            token: 0,
            value: accepted.tokens,
        },
    };
    let answer = raw::check(case.edition, &exact(&case.program));
    assert_eq!(answer, expected, "{}", case.hex());
    if let Ok(edition) = Edition::try_from(case.edition) {
        let ours = agal::check(&case.program, edition).map(|a| (a.stage as u8, a.tokens));
        let theirs = verdict.map(|a| (a.stage, a.tokens));
        assert_eq!(ours, theirs.map_err(safe::refusal), "{}", case.hex());
    }
    verdict
}

/// The proved check against the judge that walks every way.
fn compare_all_ways(case: &Case) {
    let answer = raw::check(case.edition, &case.program);
    let ours = match answer.number {
        0 => Ok((answer.stage, answer.value)),
        number => Err((number, answer.token, answer.part)),
    };
    let theirs = oracle::judge(&case.program, case.edition);
    assert_eq!(ours, theirs, "{}", case.hex());
}

fn opcodes(case: &Case) -> impl Iterator<Item = u8> + '_ {
    let body = case.program.get(7..).unwrap_or_default();
    body.chunks(24).map(|token| token[0])
}

fn is_opener(opcode: &u8) -> bool {
    (0x1c..=0x1f).contains(opcode)
}

fn is_small(case: &Case) -> bool {
    opcodes(case).count() <= MOST_TOKENS && opcodes(case).filter(is_opener).count() <= MOST_OPENERS
}

/// How many branches are open at once.
fn nesting(case: &Case) -> usize {
    let depths = opcodes(case).scan(0usize, |open, opcode| {
        *open += usize::from(is_opener(&opcode));
        *open -= usize::from(opcode == 0x21);
        Some(*open)
    });
    depths.max().unwrap_or(0)
}

/// What came up beside the numbers of refusals.
#[derive(Default, Debug)]
struct Extremes {
    /// Accepted programs by edition and stage, and those of them that have all the tokens the edition allows.
    accepted: [[usize; 2]; 3],
    longest: [[usize; 2]; 3],
    /// Accepted programs nested as deeply as may be, and programs refused at the opener after that.
    deepest: usize,
    too_deep: usize,
}

impl Extremes {
    fn count(&mut self, case: &Case, verdict: &Verdict) {
        match verdict {
            Ok(accepted) => {
                let (edition, stage) = (case.edition as usize - 1, usize::from(accepted.stage));
                self.accepted[edition][stage] += 1;
                let is_longest = accepted.tokens == token_limit(case.edition);
                self.longest[edition][stage] += usize::from(is_longest);
                self.deepest += usize::from(nesting(case) == MAX_NESTING);
            }
            Err(refusal) if refusal.number == 20 => {
                let opcode = case.program[7 + 24 * refusal.token];
                self.too_deep += usize::from(is_opener(&opcode));
            }
            Err(_) => {}
        }
    }

    fn are_met(&self) {
        println!("{self:?}");
        if in_full() {
            assert!(self.accepted.iter().flatten().all(|&n| n >= 1_000));
            assert!(self.longest.iter().flatten().all(|&n| n >= 20));
            assert!(self.deepest >= 100 && self.too_deep >= 100);
        }
    }
}

#[test]
fn programs() {
    let mut rng = Rng::new(21);
    let mut tally = Tally::default();
    let mut extremes = Extremes::default();
    let programs = rounds(240_000);
    for round in 0..programs {
        let case = match round % 4 {
            0 | 1 => program(&mut rng),
            2 => small_program(&mut rng),
            _ => deep_program(&mut rng),
        };
        let verdict = compare(&case);
        tally.count(verdict.err().map_or(0, |refusal| refusal.number));
        extremes.count(&case, &verdict);
    }
    assert!(tally.total() >= 200_000 || !in_full());
    assert!(tally.accepted() > programs / 2);
    tally.is_full(1..=22);
    extremes.are_met();
}

#[test]
fn all_ways_of_small_programs() {
    let mut rng = Rng::new(22);
    let mut judged = 0;
    while judged < rounds(100_000) {
        let case = small_program(&mut rng);
        if is_small(&case) {
            compare_all_ways(&case);
            judged += 1;
        }
    }
}

/// Nested 14 to 17 deep, and every way walked.
#[test]
fn all_ways_of_deep_programs() {
    let mut rng = Rng::new(23);
    for _ in 0..rounds(100) {
        compare_all_ways(&deep_program(&mut rng));
    }
}

/// Every value of every byte of programs that have a header and a token.
#[test]
fn every_byte_of_a_token() {
    let mut rng = Rng::new(24);
    for _ in 0..rounds(50) {
        let edition = rng.between(1, 3) as u32;
        let stage = rng.below(2) as u8;
        let mut case = generate::plain_program(&mut rng, edition, stage, 1);
        for place in 0..case.program.len() {
            let whole = case.program[place];
            for byte in 0..=255 {
                case.program[place] = byte;
                let _ = compare(&case);
                compare_all_ways(&case);
            }
            case.program[place] = whole;
        }
    }
}
