//! Finding one's way about a program that may be damaged already.

use reference::{opcode, Opcode, Second, HEADER_LEN, TOKEN_LEN};

use crate::program::Case;
use crate::rng::Rng;

/// First bytes of the destination and of the two sources in a token.
pub(super) const DESTINATION: usize = 4;
pub(super) const SOURCES: [usize; 2] = [8, 16];

pub(super) fn tokens(case: &Case) -> usize {
    case.program.len().saturating_sub(HEADER_LEN) / TOKEN_LEN
}

pub(super) fn at(token: usize) -> usize {
    HEADER_LEN + TOKEN_LEN * token
}

pub(super) fn known(case: &Case, token: usize) -> Option<&'static Opcode> {
    let bytes = case.program.get(at(token)..at(token) + 4)?;
    opcode(u32::from_le_bytes(bytes.try_into().ok()?))
}

/// Any token whose opcode pleases the caller.
pub(super) fn find(rng: &mut Rng, case: &Case, pleases: impl Fn(&Opcode) -> bool) -> Option<usize> {
    let count = tokens(case);
    let start = rng.below(count);
    let mut order = (start..count).chain(0..start);
    order.find(|&token| known(case, token).is_some_and(&pleases))
}

/// The 24 bytes of any token whose opcode pleases the caller.
pub(super) fn find_bytes<'a>(
    rng: &mut Rng,
    case: &'a mut Case,
    pleases: impl Fn(&Opcode) -> bool,
) -> Option<&'a mut [u8]> {
    let token = find(rng, case, pleases)?;
    case.program.get_mut(at(token)..at(token + 1))
}

/// The 8 bytes of any ordinary source, with the rows it spans.
pub(super) fn find_source<'a>(rng: &mut Rng, case: &'a mut Case) -> Option<(&'a mut [u8], usize)> {
    let token = find(rng, case, |opcode| opcode.source1)?;
    let opcode = known(case, token)?;
    let second = opcode.source2 == Second::Source && rng.percent(50);
    let rows = if second { opcode.rows.into() } else { 1 };
    let start = at(token) + SOURCES[usize::from(second)];
    Some((case.program.get_mut(start..start + 8)?, rows))
}

pub(super) fn insert(case: &mut Case, token: usize, bytes: &[u8]) {
    let place = at(token).min(case.program.len());
    case.program.splice(place..place, bytes.iter().copied());
}

pub(super) fn stage(case: &Case) -> u8 {
    case.program.get(6).copied().unwrap_or(0)
}
