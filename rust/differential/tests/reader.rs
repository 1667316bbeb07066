//! The reader, on whole and damaged programs.

use agal::raw::{self, Answer};
use differential::{done, exact, flat, plain, refused, rounds, safe, Lent, Tally};
use generate::{plain_program, program, small_program, Case, Rng};
use reference::{decode, Refusal, Token, TokenReader};

/// What reading at a place comes to.
fn expected(read: Result<Token, Refusal>, place: usize, room: usize) -> (Answer, Vec<u8>) {
    let read = read.and_then(|token| match room {
        0..flat::SIZE => Err(Refusal {
            token: place,
            ..plain(23)
        }),
        _ => Ok(flat::of(&token).to_vec()),
    });
    match read {
        Ok(written) => (done(place + 1), written),
        // A refused reader stays where it is.
        Err(refusal) => {
            let mut answer = refused(refusal);
            answer.value = place;
            (answer, Vec::new())
        }
    }
}

/// Reads at a place into a buffer of so many bytes; answers the number.
fn compare(case: &Case, read: Result<Token, Refusal>, place: usize, room: usize, first: u8) -> u8 {
    let mut lent = Lent::new(room, first);
    let answer = raw::read(&case.program, place, lent.part());
    let (wanted, written) = expected(read, place, room);
    assert_eq!(answer, wanted, "place {place}, {}", case.hex());
    assert!(lent.holds(&written), "place {place}, {}", case.hex());
    answer.number
}

/// Token after token until one is refused, and that one twice.
fn compare_in_turn(rng: &mut Rng, case: &Case, tally: &mut Tally) {
    let (mut reader, opened) = TokenReader::open(&case.program);
    loop {
        let place = reader.place();
        let read = reader.read();
        tally.count(compare(case, read, place, flat::SIZE, rng.byte()));
        // A program too short to be opened has no token to read.
        assert!(opened.is_ok() || read.is_err_and(|refusal| refusal.number == 24));
        if read.is_err() {
            compare(case, reader.read(), place, flat::SIZE, rng.byte());
            return;
        }
    }
}

/// The crate's iterator gives the same, and ends where the reader has come to the end of the bytes.
fn compare_iterator(case: &Case) {
    let (mut reader, _) = TokenReader::open(&case.program);
    let mut tokens = agal::tokens(&case.program);
    for ours in tokens.by_ref() {
        let theirs = reader.read().map(safe::token).map_err(safe::refusal);
        assert_eq!(ours, theirs, "{}", case.hex());
    }
    assert_eq!(tokens.place(), reader.place(), "{}", case.hex());
}

/// Any place, also where no reader comes.
fn compare_anywhere(rng: &mut Rng, case: &Case, tally: &mut Tally) {
    let body = case.program.get(7..).unwrap_or_default();
    let count = body.len() / 24;
    let place = match rng.below(10) {
        0 => rng.pick(&[
            count,
            count + 1,
            1 << 32,
            usize::MAX / 24,
            usize::MAX / 24 + 1,
            usize::MAX - 1,
            usize::MAX,
        ]),
        _ => rng.below(count),
    };
    let at = |place: usize| body.chunks_exact(24).nth(place);
    let read = at(place).map_or(Err(plain(24)), decode);
    let read = read.map_err(|refusal| Refusal {
        token: place,
        ..refusal
    });
    let room = rng.below(flat::SIZE + 4);
    tally.count(compare(case, read, place, room, rng.byte()));
}

#[test]
fn programs() {
    let mut rng = Rng::new(51);
    let mut in_turn = Tally::default();
    let mut anywhere = Tally::default();
    for round in 0..rounds(60_000) {
        let mut case = match round % 8 {
            0 => program(&mut rng),
            _ => small_program(&mut rng),
        };
        if rng.percent(20) {
            let length = rng.below(case.program.len() + 1);
            case.program.truncate(length);
        }
        case.program = exact(&case.program).into_vec();
        compare_in_turn(&mut rng, &case, &mut in_turn);
        compare_iterator(&case);
        for _ in 0..4 {
            compare_anywhere(&mut rng, &case, &mut anywhere);
        }
    }
    in_turn.is_full([9, 12, 13, 24]);
    anywhere.is_full([9, 12, 13, 23, 24]);
}

/// A program of up to one token, cut at every length: below 7 bytes it can't be opened, below 31 it has no token.
#[test]
fn openings() {
    let mut rng = Rng::new(52);
    let mut tally = Tally::default();
    let whole = plain_program(&mut rng, 1, 0, 1);
    for length in 0..=31 {
        let case = Case {
            edition: 1,
            program: exact(&whole.program[..length]).into_vec(),
        };
        let opened = TokenReader::open(&case.program).1;
        let wanted = if length < 7 { Err(plain(2)) } else { Ok(()) };
        assert_eq!(opened, wanted, "{}", case.hex());
        let mut flat = [0; flat::SIZE];
        let answer = raw::read(&case.program, 0, &mut flat);
        let wanted = if length < 31 {
            refused(plain(24))
        } else {
            done(1)
        };
        assert_eq!(answer, wanted, "{}", case.hex());
        compare_in_turn(&mut rng, &case, &mut tally);
        compare_iterator(&case);
    }
}
