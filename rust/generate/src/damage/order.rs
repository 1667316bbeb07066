//! Damages to the order of tokens and to anything at all.

use reference::TOKEN_LEN;

use super::place::{at, find, insert, tokens};
use crate::program::Case;
use crate::rng::Rng;
use crate::token::token_bytes;

/// `ife vc0.xyzw vc0.xyzw`.
const OPENER: [u8; TOKEN_LEN] = [
    0x1c, 0, 0, 0, 0, 0, 0, 0, 0, 0, 0, 0xe4, 1, 0, 0, 0, 0, 0, 0, 0xe4, 1, 0, 0, 0,
];

pub(super) fn stray_branch_token(rng: &mut Rng, case: &mut Case) {
    let mut bytes = OPENER;
    if rng.percent(80) {
        bytes = [0; TOKEN_LEN];
        bytes[0] = rng.pick(&[0x20, 0x20, 0x21]);
    }
    let token = rng.below(tokens(case) + 1);
    insert(case, token, &bytes);
}

/// Seventeen openers in a row.
pub(super) fn too_deep(rng: &mut Rng, case: &mut Case) {
    let token = rng.below(tokens(case) + 1);
    for _ in 0..17 {
        insert(case, token, &OPENER);
    }
}

/// Takes a token out, an eif or els more often than others.
pub(super) fn lost_token(rng: &mut Rng, case: &mut Case) {
    let name = rng.pick(&["eif", "eif", "els", ""]);
    let token = find(rng, case, |opcode| name.is_empty() || opcode.name == name);
    if let Some(token) = token {
        case.program.drain(at(token)..at(token + 1));
    }
}

/// Cuts whole tokens off the end.
pub(super) fn lost_end(rng: &mut Rng, case: &mut Case) {
    let kept = rng.below(tokens(case) + 1);
    case.program.truncate(at(kept));
}

pub(super) fn swapped_tokens(rng: &mut Rng, case: &mut Case) {
    let count = tokens(case);
    let (one, two) = (rng.below(count), rng.below(count));
    if one < two {
        let (front, back) = case.program.split_at_mut(at(two));
        front[at(one)..at(one + 1)].swap_with_slice(&mut back[..TOKEN_LEN]);
    }
}

/// Flips bits, sets a byte or puts a strange token in.
pub(super) fn any_bits(rng: &mut Rng, case: &mut Case) {
    if case.program.is_empty() {
        return;
    }
    let place = rng.below(case.program.len());
    match rng.below(3) {
        0 => case.program[place] ^= 1 << rng.below(8),
        1 => case.program[place] = rng.byte(),
        _ => {
            let token = rng.below(tokens(case) + 1);
            insert(case, token, &token_bytes(rng));
        }
    }
}
