//! Damages to edition, header and length.

use reference::registers::token_limit;
use reference::{Opcode, HEADER_LEN, TOKEN_LEN};

use super::place::{at, find, stage, tokens};
use crate::program::Case;
use crate::rng::Rng;

pub(super) fn wrong_edition(rng: &mut Rng, case: &mut Case) {
    case.edition = rng.pick(&[0, 4, 5, 255, 256, 257, 258, 0x1_0001, u32::MAX]);
}

pub(super) fn other_edition(rng: &mut Rng, case: &mut Case) {
    case.edition = rng.pick(&[1, 2, 3]);
}

pub(super) fn too_short(rng: &mut Rng, case: &mut Case) {
    case.program.truncate(rng.below(HEADER_LEN));
}

pub(super) fn wrong_first_byte(rng: &mut Rng, case: &mut Case) {
    set_header(case, 0, rng.byte());
}

pub(super) fn wrong_version(rng: &mut Rng, case: &mut Case) {
    set_header(case, rng.between(1, 4), rng.byte());
}

pub(super) fn wrong_type_id(rng: &mut Rng, case: &mut Case) {
    set_header(case, 5, rng.byte());
}

pub(super) fn wrong_stage(rng: &mut Rng, case: &mut Case) {
    set_header(case, 6, rng.edgy(256) as u8);
}

pub(super) fn other_stage(_: &mut Rng, case: &mut Case) {
    let other = stage(case) ^ 1;
    set_header(case, 6, other);
}

/// The byte of a header, if there is that much of it.
fn set_header(case: &mut Case, place: usize, byte: u8) {
    if let Some(lent) = case.program.get_mut(place) {
        *lent = byte;
    }
}

pub(super) fn ragged_end(rng: &mut Rng, case: &mut Case) {
    let bytes = rng.between(1, TOKEN_LEN - 1);
    if rng.percent(50) {
        let keep = case.program.len().saturating_sub(bytes);
        case.program.truncate(keep);
    } else {
        case.program.extend((0..bytes).map(|_| rng.byte()));
    }
}

/// Repeats a token until there is one too many, or rarely just enough.
pub(super) fn too_many_tokens(rng: &mut Rng, case: &mut Case) {
    let limit = token_limit(case.edition);
    let wanted = limit + rng.pick(&[0, 1, 1, 1, 2, 30]);
    let simple = |opcode: &Opcode| opcode.name == "mov";
    if let Some(token) = find(rng, case, simple) {
        let bytes = case.program[at(token)..at(token + 1)].to_vec();
        while tokens(case) < wanted {
            case.program.extend_from_slice(&bytes);
        }
    }
}
