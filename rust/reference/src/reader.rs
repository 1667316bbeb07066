//! Reads a program token after token.

use crate::decode::decode_token;
use crate::layout::{HEADER_LEN, TOKEN_LEN};
use crate::record::Token;
use crate::refusal::{fault, Fault, Refusal};

/// A lent program and the place of the next token in it.
#[derive(Clone, Debug)]
pub struct TokenReader<'a> {
    rest: &'a [u8],
    token: usize,
}

impl<'a> TokenReader<'a> {
    /// Opens a program of at least 7 bytes. The header's contents are not
    /// judged.
    ///
    /// A refused opening still gives a reader; it has no token to read.
    pub fn open(program: &'a [u8]) -> (Self, Result<(), Refusal>) {
        let body = program.get(HEADER_LEN..);
        let reader = TokenReader {
            rest: body.unwrap_or_default(),
            token: 0,
        };
        let opened = body.map(|_| ()).ok_or(Refusal::plain(fault::SHORT_PROGRAM));
        (reader, opened)
    }

    /// Decodes the next token and moves on. Any refusal leaves the place
    /// unmoved and names the token the reader stands at.
    pub fn read(&mut self) -> Result<Token, Refusal> {
        let (bytes, rest) = self
            .rest
            .split_first_chunk::<TOKEN_LEN>()
            .ok_or(Fault::new(fault::NO_TOKEN, 0).at(self.token))?;
        let token = decode_token(bytes).map_err(|fault| fault.at(self.token))?;
        self.rest = rest;
        self.token += 1;
        Ok(token)
    }

    /// The number of the token the reader stands at.
    pub fn place(&self) -> usize {
        self.token
    }
}
