//! Prints one token as a listing line.

use crate::encode::encodable;
use crate::nesting::MAX_NESTING;
use crate::record::{Destination, Operand, Sampler, Source, Token};
use crate::refusal::{fault, Refusal};

/// No listing line is longer than this: a `tex` at depth 16 with an indexed
/// coordinate, five-digit numbers and the longest sampler settings.
pub const MAX_LINE_LEN: usize = 122;

/// Register names by stage and type, filled up with a space to two letters.
static NAMES: [[&[u8; 2]; 7]; 2] = [
    [b"va", b"vc", b"vt", b"op", b"v ", b"fs", b"od"],
    [b"va", b"fc", b"ft", b"oc", b"v ", b"fs", b"od"],
];

const LETTERS: [u8; 4] = *b"xyzw";

/// Prints a record as a listing line of a stage at a depth, into the front of
/// the buffer; answers the line's length.
///
/// A refused call leaves the buffer as it was.
pub fn line(token: &Token, stage: u8, depth: u32, buffer: &mut [u8]) -> Result<usize, Refusal> {
    let line = Line::of(token, stage, depth).ok_or(Refusal::plain(fault::RECORD))?;
    let text = line.as_bytes();
    let lent = buffer
        .get_mut(..text.len())
        .ok_or(Refusal::plain(fault::SHORT_BUFFER))?;
    lent.copy_from_slice(text);
    Ok(text.len())
}

/// A line under construction.
pub(crate) struct Line {
    names: &'static [&'static [u8; 2]; 7],
    len: usize,
    bytes: [u8; MAX_LINE_LEN],
}

impl Line {
    /// The line of a record, if it can be encoded and named.
    pub(crate) fn of(token: &Token, stage: u8, depth: u32) -> Option<Self> {
        let opcode = encodable(token)?;
        let names = NAMES.get(usize::from(stage))?;
        if depth as usize > MAX_NESTING {
            return None;
        }
        let mut line = Line {
            names,
            len: 0,
            bytes: [b' '; MAX_LINE_LEN],
        };
        line.len += 2 * depth as usize;
        line.text(opcode.name);
        if let Some(destination) = &token.destination {
            line.destination(destination)?;
        }
        line.operand(&token.source1)?;
        line.operand(&token.source2)?;
        line.put([b'\n']);
        Some(line)
    }

    pub(crate) fn as_bytes(&self) -> &[u8] {
        &self.bytes[..self.len]
    }

    fn destination(&mut self, destination: &Destination) -> Option<()> {
        self.put([b' ']);
        self.name(destination.register_type)?;
        self.decimal(destination.number);
        self.put([b'.']);
        for (bit, letter) in LETTERS.into_iter().enumerate() {
            if destination.mask >> bit & 1 == 1 {
                self.put([letter]);
            }
        }
        Some(())
    }

    fn operand(&mut self, operand: &Operand) -> Option<()> {
        match operand {
            Operand::Unused => Some(()),
            Operand::Direct(source) => self.direct(source),
            Operand::Indexed(source) => self.indexed(source),
            Operand::Sampler(sampler) => self.sampler(sampler),
        }
    }

    fn direct(&mut self, source: &Source) -> Option<()> {
        self.put([b' ']);
        self.name(source.register_type)?;
        self.decimal(source.number);
        self.swizzle(source.swizzle);
        Some(())
    }

    fn indexed(&mut self, source: &Source) -> Option<()> {
        self.put([b' ']);
        self.name(source.register_type)?;
        self.put([b'[']);
        self.name(source.index_type)?;
        self.decimal(source.number);
        self.put([b'.', letter(source.component), b'+']);
        self.decimal(source.offset.into());
        self.put([b']']);
        self.swizzle(source.swizzle);
        Some(())
    }

    fn sampler(&mut self, sampler: &Sampler) -> Option<()> {
        if !sampler.settings_lawful() {
            return None;
        }
        self.put([b' ']);
        self.name(sampler.register_type)?;
        self.decimal(sampler.number);
        self.text(["<2d,", "<cube,"].get(usize::from(sampler.dimension))?);
        self.text(["mipnone,", "mipnearest,", "miplinear,"].get(usize::from(sampler.mipmap))?);
        self.text(["clamp,", "repeat,"].get(usize::from(sampler.wrap))?);
        self.text(["nearest,", "linear,"].get(usize::from(sampler.filter))?);
        self.text(if sampler.bias < 0 { "bias=-" } else { "bias=" });
        self.decimal(sampler.bias.unsigned_abs().into());
        self.put([b'>']);
        Some(())
    }

    fn name(&mut self, register_type: u8) -> Option<()> {
        let name = **self.names.get(usize::from(register_type))?;
        self.put(name);
        if name[1] == b' ' {
            self.len -= 1;
        }
        Some(())
    }

    fn swizzle(&mut self, swizzle: u8) {
        self.put([
            b'.',
            letter(swizzle),
            letter(swizzle >> 2),
            letter(swizzle >> 4),
            letter(swizzle >> 6),
        ]);
    }

    fn decimal(&mut self, number: u16) {
        if number >= 10 {
            self.decimal(number / 10);
        }
        self.put([b'0' + (number % 10) as u8]);
    }

    fn text(&mut self, text: &str) {
        let end = self.len + text.len();
        self.bytes[self.len..end].copy_from_slice(text.as_bytes());
        self.len = end;
    }

    /// Like `text`, for a length known when compiling, which makes it a move.
    fn put<const N: usize>(&mut self, bytes: [u8; N]) {
        let end = self.len + N;
        self.bytes[self.len..end].copy_from_slice(&bytes);
        self.len = end;
    }
}

fn letter(component: u8) -> u8 {
    LETTERS[usize::from(component & 3)]
}
