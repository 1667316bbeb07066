//! Random tokens through decode, and back through encode.

use agal::raw;
use differential::{done, exact, flat, hex, plain, refused, rounds, safe, Lent, Tally};
use generate::{token_bytes, Rng};
use reference::{bias, decode, Refusal, Sampler, TOKEN_LEN};

/// What the C interface answers and writes for a token and a buffer of so many bytes.
fn expected(bytes: &[u8], room: usize) -> Result<[u8; flat::SIZE], Refusal> {
    let record = decode(bytes)?;
    if room < flat::SIZE {
        return Err(plain(23));
    }
    Ok(flat::of(&record))
}

/// Decodes into a buffer of so many bytes, and compares all that stands there afterwards; answers the number.
fn compare(bytes: &[u8], room: usize, first: u8) -> u8 {
    let mut lent = Lent::new(room, first);
    let answer = raw::decode(&exact(bytes), lent.part());
    match expected(bytes, room) {
        Err(refusal) => {
            assert_eq!(answer, refused(refusal), "{}", hex(bytes));
            assert!(lent.holds(&[]), "written: {}", hex(bytes));
        }
        Ok(written) => {
            assert_eq!(answer, done(flat::SIZE), "{}", hex(bytes));
            assert!(lent.holds(&written), "not written: {}", hex(bytes));
        }
    }
    answer.number
}

/// A token that decodes comes back from encode.
fn compare_back(bytes: &[u8; TOKEN_LEN], first: u8) {
    let mut flat = [0; flat::SIZE];
    if raw::decode(bytes, &mut flat).number == 0 {
        let mut lent = Lent::new(TOKEN_LEN, first);
        let answer = raw::encode(&flat, lent.part());
        assert_eq!(answer, done(TOKEN_LEN), "{}", hex(bytes));
        assert!(lent.holds(bytes), "not the same: {}", hex(bytes));
    }
}

#[test]
fn decode_and_back() {
    let mut rng = Rng::new(31);
    let mut tally = Tally::default();
    for _ in 0..rounds(400_000) {
        let bytes = token_bytes(&mut rng);
        let first = rng.byte();
        let room = rng.pick(&[0, 1, 28, 29, 29, 29, 29, 30, 40]);
        tally.count(compare(&bytes, room, first));
        compare_back(&bytes, first);
        let theirs = decode(&bytes).map(safe::token).map_err(safe::refusal);
        assert_eq!(agal::decode(&bytes), theirs, "{}", hex(&bytes));
    }
    tally.is_full([9, 12, 13, 23]);
}

/// More and fewer bytes than a token has, and buffers of every length around that of a flat form.
#[test]
fn lengths() {
    let mut rng = Rng::new(32);
    let mut tally = Tally::default();
    for _ in 0..rounds(200) {
        let mut bytes = [token_bytes(&mut rng), token_bytes(&mut rng)].concat();
        bytes[24..].fill(0);
        for length in 0..=bytes.len() {
            tally.count(compare(&bytes[..length], flat::SIZE, rng.byte()));
        }
        for room in 0..=flat::SIZE + 3 {
            tally.count(compare(&bytes[..24], room, rng.byte()));
        }
    }
    tally.is_full([9, 12, 13, 23, 24]);
}

#[test]
fn every_bias() {
    for eighths in i8::MIN..=i8::MAX {
        let sampler = Sampler {
            number: 0,
            bias: eighths,
            register_type: 5,
            dimension: 0,
            special: 0,
            wrap: 0,
            mipmap: 0,
            filter: 0,
        };
        let theirs = bias(&sampler).to_bits();
        assert_eq!(raw::bias(eighths).to_bits(), theirs, "{eighths}");
        let ours = agal::bias(&safe::sampler(sampler));
        assert_eq!(ours.to_bits(), theirs, "{eighths}");
    }
}
