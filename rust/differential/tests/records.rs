//! Random records through encode and line, with buffers of every length around the limit.

use agal::raw;
use differential::{done, exact, flat, hex, plain, refused, rounds, safe, Lent, Tally};
use generate::{record, Rng};
use reference::{encode, line, Refusal, MAX_LINE_LEN, TOKEN_LEN};

/// A call that writes to a lent buffer: its flat form, and the stage and depth of a line.
struct Call<'a> {
    flat: &'a [u8],
    line: Option<(u32, u32)>,
}

impl Call<'_> {
    /// What the reference writes, given room enough.
    fn written(&self) -> Result<Vec<u8>, Refusal> {
        let record = flat::record(self.flat).ok_or(plain(25))?;
        let mut buffer = [0; MAX_LINE_LEN];
        let length = match self.line {
            None => encode(&record, &mut buffer).map(|()| TOKEN_LEN)?,
            // The reference has a stage in a byte; those above are no stages, either.
            Some((stage, depth)) => {
                let stage = u8::try_from(stage).unwrap_or(u8::MAX);
                line(&record, stage, depth, &mut buffer)?
            }
        };
        Ok(buffer[..length].to_vec())
    }

    /// Compares the answer, and all that stands in a buffer of so many bytes; answers the number.
    fn compare(&self, room: usize, first: u8) -> u8 {
        let mut lent = Lent::new(room, first);
        let flat = exact(self.flat);
        let answer = match self.line {
            None => raw::encode(&flat, lent.part()),
            Some((stage, depth)) => raw::line(&flat, stage, depth, lent.part()),
        };
        let written = self.written().and_then(|bytes| match bytes.len() {
            length if length > room => Err(plain(23)),
            _ => Ok(bytes),
        });
        let input = || format!("{:?}, {room} bytes: {}", self.line, hex(self.flat));
        let expected = written.as_ref().map(|bytes| done(bytes.len()));
        assert_eq!(
            answer,
            expected.unwrap_or_else(|r| refused(*r)),
            "{}",
            input()
        );
        assert!(lent.holds(&written.unwrap_or_default()), "{}", input());
        answer.number
    }
}

#[test]
fn encode_into_every_length() {
    let mut rng = Rng::new(41);
    let mut tally = Tally::default();
    for _ in 0..rounds(30_000) {
        let flat = flat::of(&record(&mut rng));
        let call = Call {
            flat: &flat,
            line: None,
        };
        for room in 0..=TOKEN_LEN + 2 {
            tally.count(call.compare(room, rng.byte()));
        }
    }
    tally.is_full([23, 25]);
}

fn stage_and_depth(rng: &mut Rng) -> (u32, u32) {
    let stage = match rng.below(20) {
        0 => rng.pick(&[2, 3, 255, 256, 257, 0x1_0000, u32::MAX]),
        other => other as u32 & 1,
    };
    let depth = match rng.below(40) {
        0 => rng.pick(&[19, 32, 255, 256, 0x1_0000, 0x8000_0000, u32::MAX]),
        _ => rng.below(18) as u32,
    };
    (stage, depth)
}

/// Lengths around that of the line, and some others.
#[test]
fn line_into_every_length() {
    let mut rng = Rng::new(42);
    let mut tally = Tally::default();
    for _ in 0..rounds(60_000) {
        let flat = flat::of(&record(&mut rng));
        let call = Call {
            flat: &flat,
            line: Some(stage_and_depth(&mut rng)),
        };
        let length = call.written().map_or(TOKEN_LEN, |line| line.len());
        let near = length.saturating_sub(3)..=length + 3;
        for room in near.chain([0, 1, rng.below(length), MAX_LINE_LEN, 128]) {
            tally.count(call.compare(room, rng.byte()));
        }
    }
    tally.is_full([23, 25]);
}

/// Every length from none to more than any line has.
#[test]
fn line_into_all_lengths() {
    let mut rng = Rng::new(43);
    for _ in 0..rounds(1_000) {
        let flat = flat::of(&record(&mut rng));
        let call = Call {
            flat: &flat,
            line: Some((rng.below(2) as u32, rng.below(17) as u32)),
        };
        for room in 0..=130 {
            call.compare(room, rng.byte());
        }
    }
}

/// Flat forms cut short, with bytes after them, with other kinds and with any bytes where a kind has none.
#[test]
fn damaged_flat_forms() {
    let mut rng = Rng::new(44);
    let mut tally = Tally::default();
    for _ in 0..rounds(100_000) {
        let mut bytes = flat::of(&record(&mut rng)).to_vec();
        match rng.below(4) {
            0 => bytes.truncate(rng.below(flat::SIZE)),
            1 => bytes.extend((0..rng.below(5)).map(|_| rng.byte())),
            2 => bytes[rng.pick(&[4, 9, 19])] = rng.pick(&[0, 1, 2, 3, 4, 5, 128, 255]),
            _ => bytes[rng.below(flat::SIZE)] = rng.byte(),
        }
        let room = rng.pick(&[0, 23, 24, 25, 60, 128]);
        for line in [None, Some(stage_and_depth(&mut rng))] {
            let call = Call { flat: &bytes, line };
            tally.count(call.compare(room, rng.byte()));
        }
    }
    tally.is_full([23, 25]);
}

#[test]
fn records_of_the_crate() {
    let mut rng = Rng::new(45);
    for _ in 0..rounds(100_000) {
        let made = record(&mut rng);
        let flat = flat::of(&made);
        let mut call = Call {
            flat: &flat,
            line: None,
        };
        let ours = safe::token(made).encode().map(|bytes| bytes.to_vec());
        assert_eq!(
            ours,
            call.written().map_err(safe::refusal),
            "{}",
            hex(&flat)
        );

        let depth = rng.below(18) as u32;
        let stage = rng.pick(&[agal::Stage::Vertex, agal::Stage::Fragment]);
        call.line = Some((stage as u32, depth));
        let ours = safe::token(made).line(stage, depth).map(String::into_bytes);
        assert_eq!(
            ours,
            call.written().map_err(safe::refusal),
            "{}",
            hex(&flat)
        );
    }
}
