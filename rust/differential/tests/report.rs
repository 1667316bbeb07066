//! The text that `agallist` prints, on whole inputs.

use agal::{raw, Edition};
use differential::{done, exact, hex, in_full, plain, refused, rounds, Lent};
use generate::{input, plain_program, program, Rng};
use reference::registers::token_limit;
use reference::report;

/// Room for the text of every input, as `include/agal.h` has it.
const REPORT_MAX: usize = 262_178;

/// The text in a buffer of so many bytes.
fn compare(input: &[u8], text: &[u8], room: usize, first: u8) {
    let mut lent = Lent::new(room, first);
    let answer = raw::report(&exact(input), lent.part());
    if room < text.len() {
        assert_eq!(answer, refused(plain(23)), "{}", hex(input));
        assert!(lent.holds(&[]), "written: {}", hex(input));
    } else {
        assert_eq!(answer, done(text.len()), "{}", hex(input));
        assert!(lent.holds(text), "not written: {}", hex(input));
    }
}

/// Buffers around the text's length, and the crate's listing where there is an edition.
fn compare_around(rng: &mut Rng, input: &[u8]) -> String {
    let text = report(input);
    let near = text.len().saturating_sub(2)..=text.len() + 2;
    for room in near.chain([0, rng.below(text.len()), text.len() + 200]) {
        compare(input, &text, room, rng.byte());
    }
    let text = String::from_utf8(text).expect("ASCII");
    if let Some((digit, program)) = input.split_first() {
        if let Ok(edition) = Edition::try_from(u32::from(digit.wrapping_sub(b'0'))) {
            assert_eq!(agal::listing(program, edition), text, "{}", hex(input));
        }
    }
    text
}

fn with_digit(edition: u32, program: &[u8]) -> Vec<u8> {
    let mut input = vec![b'0'.wrapping_add(edition as u8)];
    input.extend_from_slice(program);
    input
}

/// Small inputs, by all three judges.
#[test]
fn small_inputs() {
    let mut rng = Rng::new(61);
    let mut firsts = [0usize; 4];
    for _ in 0..rounds(8_000) {
        let input = input(&mut rng);
        let text = compare_around(&mut rng, &input);
        let starts = ["agal ", "refused ", "input too long\n", "no edition\n"];
        let kind = starts.iter().position(|start| text.starts_with(start));
        firsts[kind.expect("one of these lines")] += 1;
        if input.iter().filter(|b| (0x1c..=0x1f).contains(*b)).count() <= 12 {
            assert_eq!(oracle::listing(&input), text, "{}", hex(&input));
        }
    }
    println!("listed, refused, too long, empty: {firsts:?}");
    assert!(firsts.iter().all(|&n| n >= 20) || !in_full());
}

#[test]
fn inputs_of_any_size() {
    let mut rng = Rng::new(62);
    for _ in 0..rounds(4_000) {
        let case = program(&mut rng);
        compare_around(&mut rng, &with_digit(case.edition, &case.program));
    }
}

/// As many tokens as an edition allows, in a buffer that every text fits.
#[test]
fn longest_inputs() {
    let mut rng = Rng::new(63);
    for round in 0..rounds(120) {
        let edition = 1 + round as u32 % 3;
        let stage = rng.below(2) as u8;
        let case = plain_program(&mut rng, edition, stage, token_limit(edition));
        let input = with_digit(edition, &case.program);
        let text = compare_around(&mut rng, &input);
        assert_eq!(text.lines().count(), 1 + token_limit(edition));
        compare(&input, text.as_bytes(), REPORT_MAX, rng.byte());
    }
}
