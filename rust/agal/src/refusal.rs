//! What a refused call answers.

use crate::ffi::Answer;
use std::error::Error;
use std::fmt;

/// A refusal: which fault, and where it is.
///
/// Its text says so in plain words:
///
/// ```
/// let refusal = agal::decode(&[0; 23]).unwrap_err();
/// assert_eq!(refusal.number, 24);
/// assert_eq!(refusal.to_string(), "no whole token is there (refusal 24)");
/// ```
#[derive(Clone, Copy, Debug, PartialEq, Eq, Hash)]
pub struct Refusal {
    /// The number of the fault, 1 to 25.
    pub number: u8,
    /// The token at fault, counted from 0.
    pub token: usize,
    /// The part of the token at fault: 0 the opcode or the whole, 1 the destination, 2 source 1, 3 source 2.
    pub part: u8,
}

/// What each number says, from 1 on.
const REASONS: [&str; 25] = [
    "the edition is not 1, 2 or 3",
    "the program has fewer than 7 bytes",
    "the first byte is not A0",
    "the version is not 1",
    "the type id is not A1",
    "the stage is neither vertex nor fragment",
    "the bytes after the header are no whole number of tokens",
    "the program has more tokens than the edition allows",
    "there is no such opcode",
    "edition 1 does not have this opcode",
    "a vertex program must not use kil or tex",
    "a field that the opcode does not use is not 0",
    "a bit without a meaning is set",
    "the destination cannot be written, or there is no such register",
    "the mask is empty, or has w where the opcode gives three components",
    "the rules do not allow this indexed source",
    "the source cannot be read, or there is no such register",
    "kil or a matrix does not allow this swizzle",
    "the sampler's settings are wrong",
    "els or eif is out of place, or too many branches are open",
    "a component of a temporary register is read that some path has not written",
    "the branch that begins here is not closed",
    "the buffer is too short",
    "no whole token is there",
    "the record cannot be encoded or listed",
];

impl Refusal {
    /// The fault in plain words, without its place.
    pub fn reason(&self) -> &'static str {
        match usize::from(self.number)
            .checked_sub(1)
            .and_then(|n| REASONS.get(n))
        {
            Some(reason) => reason,
            None => "an unknown fault",
        }
    }

    /// An answer is either refused, or the answer itself.
    pub(crate) fn of(answer: Answer) -> Result<Answer, Refusal> {
        match answer.number {
            0 => Ok(answer),
            number => Err(Refusal {
                number,
                token: answer.token,
                part: answer.part,
            }),
        }
    }
}

impl fmt::Display for Refusal {
    fn fmt(&self, f: &mut fmt::Formatter<'_>) -> fmt::Result {
        // Faults 9 to 22 stand at a token; the others are of the program, a buffer or a record.
        if (9..=22).contains(&self.number) {
            write!(f, "token {}", self.token)?;
            match self.part {
                1 => f.write_str(", destination")?,
                2 => f.write_str(", source 1")?,
                3 => f.write_str(", source 2")?,
                _ => {}
            }
            f.write_str(": ")?;
        }
        write!(f, "{} (refusal {})", self.reason(), self.number)
    }
}

impl Error for Refusal {}

#[cfg(test)]
mod tests {
    use super::*;
    use std::collections::HashSet;

    fn refusal(number: u8, token: usize, part: u8) -> Refusal {
        Refusal {
            number,
            token,
            part,
        }
    }

    #[test]
    fn each_number_has_words_of_its_own() {
        let reasons: HashSet<&str> = (1..=25).map(|n| refusal(n, 0, 0).reason()).collect();
        assert_eq!(reasons.len(), 25);
        assert_eq!(refusal(0, 0, 0).reason(), "an unknown fault");
        assert_eq!(refusal(26, 0, 0).reason(), "an unknown fault");
    }

    #[test]
    fn the_place_is_said_where_there_is_one() {
        assert_eq!(
            refusal(9, 3, 0).to_string(),
            "token 3: there is no such opcode (refusal 9)"
        );
        assert_eq!(
            refusal(13, 0, 1).to_string(),
            "token 0, destination: a bit without a meaning is set (refusal 13)"
        );
        assert_eq!(
            refusal(19, 7, 3).to_string(),
            "token 7, source 2: the sampler's settings are wrong (refusal 19)"
        );
        assert_eq!(
            refusal(2, 0, 0).to_string(),
            "the program has fewer than 7 bytes (refusal 2)"
        );
    }
}
