//! The tokens of a program, one after another.

use crate::ffi;
use crate::flat;
use crate::record::{Token, TOKEN_SIZE};
use crate::refusal::Refusal;
use std::iter::FusedIterator;

/// How many bytes come before a program's first token.
const HEADER_SIZE: usize = 7;

/// The refusal that no whole token is left.
const NONE_LEFT: u8 = 24;

/// The tokens of a program, header and all; the header's contents are not judged.
///
/// A token that is refused is the last item. Bytes left over at the end that are no whole token, or no header of
/// 7 bytes, are refused by 24.
///
/// ```
/// use agal::tokens;
///
/// let mut program = vec![0xA0, 1, 0, 0, 0, 0xA1, 0];
/// program.extend([0, 0, 0, 0, 0, 0, 0x0F, 2, 5, 0, 0, 0xE4, 1, 0, 0, 0, 0, 0, 0, 0, 0, 0, 0, 0]);
/// let opcodes: Result<Vec<u32>, _> = tokens(&program).map(|token| token.map(|t| t.opcode)).collect();
/// assert_eq!(opcodes, Ok(vec![0]));
///
/// program.push(0);
/// let last = tokens(&program).last().unwrap().unwrap_err();
/// assert_eq!((last.number, last.token), (24, 1));
/// ```
pub fn tokens(program: &[u8]) -> Tokens<'_> {
    Tokens {
        program,
        place: 0,
        ended: false,
    }
}

/// The iterator that [`tokens`] gives.
#[derive(Clone, Debug)]
pub struct Tokens<'a> {
    program: &'a [u8],
    place: usize,
    ended: bool,
}

impl Tokens<'_> {
    /// The number of tokens read, which is the number of the token that comes next.
    pub fn place(&self) -> usize {
        self.place
    }

    /// Every byte of the program has been read.
    fn at_end(&self) -> bool {
        self.program.len() == HEADER_SIZE + TOKEN_SIZE * self.place
    }
}

impl Iterator for Tokens<'_> {
    type Item = Result<Token, Refusal>;

    fn next(&mut self) -> Option<Self::Item> {
        if self.ended {
            return None;
        }
        let mut flat = [0; flat::SIZE];
        match Refusal::of(ffi::read(self.program, self.place, &mut flat)) {
            Ok(answer) => {
                self.place = answer.value;
                Some(Ok(flat::read(&flat)))
            }
            Err(refusal) => {
                self.ended = true;
                let plain_end = refusal.number == NONE_LEFT && self.at_end();
                (!plain_end).then_some(Err(refusal))
            }
        }
    }
}

impl FusedIterator for Tokens<'_> {}
