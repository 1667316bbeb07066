//! Damages to opcodes, destinations and undefined bits.

use reference::registers::count;
use reference::{Opcode, Second};

use super::place::{at, find, find_bytes, insert, known, stage, tokens, DESTINATION};
use crate::program::Case;
use crate::rng::Rng;

pub(super) fn unlisted_opcode(rng: &mut Rng, case: &mut Case) {
    let code = rng.pick(&[0x22, 0x23, 0x26, 0x2b, 0x2e, 0x2f, 0x3f, 0x40, 0x80, 0xff]);
    if let Some(bytes) = find_bytes(rng, case, |_| true) {
        bytes[0] = code;
    }
}

pub(super) fn high_opcode_byte(rng: &mut Rng, case: &mut Case) {
    let (place, byte) = (rng.between(1, 3), 1 << rng.below(8));
    if let Some(bytes) = find_bytes(rng, case, |_| true) {
        bytes[place] = byte;
    }
}

pub(super) fn other_opcode(rng: &mut Rng, case: &mut Case) {
    let code = rng.below(0x30) as u8;
    if let Some(bytes) = find_bytes(rng, case, |_| true) {
        bytes[0] = code;
    }
}

/// Makes a one-source token a derivative, which edition 1 lacks.
pub(super) fn added_opcode(rng: &mut Rng, case: &mut Case) {
    let code = rng.pick(&[0x1a, 0x1b]);
    if rng.percent(60) {
        case.edition = 1;
    }
    let one_source = |opcode: &Opcode| opcode.destination && opcode.source2 == Second::Unused;
    if let Some(bytes) = find_bytes(rng, case, one_source) {
        bytes[0] = code;
    }
}

pub(super) fn fragment_opcode(rng: &mut Rng, case: &mut Case) {
    let kil = [
        0x27, 0, 0, 0, 0, 0, 0, 0, 0, 0, 0, 0, 1, 0, 0, 0, 0, 0, 0, 0, 0, 0, 0, 0,
    ];
    let tex = [
        0x28, 0, 0, 0, 0, 0, 15, 3, 0, 0, 0, 0xe4, 1, 0, 0, 0, 0, 0, 0, 0, 5, 0, 0, 0,
    ];
    let token = rng.below(tokens(case) + 1);
    insert(case, token, rng.pick(&[&kil, &tex]));
}

/// Sets bits of a field that the opcode does not use.
pub(super) fn stray_in_unused(rng: &mut Rng, case: &mut Case) {
    let spare = |opcode: &Opcode| !opcode.destination || opcode.source2 == Second::Unused;
    let Some(token) = find(rng, case, spare) else {
        return;
    };
    let Some(opcode) = known(case, token) else {
        return;
    };
    let unused = [
        (!opcode.destination, 4..8),
        (!opcode.source1, 8..16),
        (opcode.source2 == Second::Unused, 16..24),
    ];
    for (is_unused, field) in unused {
        if is_unused && rng.percent(60) {
            let place = at(token) + rng.between(field.start, field.end - 1);
            case.program[place] |= 1 << rng.below(8);
        }
    }
}

/// Sets an undefined bit of a destination or source.
pub(super) fn stray_in_used(rng: &mut Rng, case: &mut Case) {
    let places = [
        (6, 0xf0),
        (7, 0xf0),
        (12, 0xf0),
        (13, 0xf0),
        (14, 0xfc),
        (15, 0x7f),
        (19, 0xff),
        (20, 0xf0),
        (21, 0x0f),
        (21, 0xf0),
        (22, 0xfc),
        (23, 0x7f),
    ];
    let (place, undefined) = rng.pick(&places);
    let bit = undefined & 1 << rng.below(8);
    if let Some(bytes) = find_bytes(rng, case, |_| true) {
        bytes[place] |= bit;
    }
}

/// Sets some bits of a token anywhere but in its opcode.
pub(super) fn stray_everywhere(rng: &mut Rng, case: &mut Case) {
    let bits: Vec<usize> = (0..rng.between(2, 6))
        .map(|_| rng.between(32, 191))
        .collect();
    if let Some(bytes) = find_bytes(rng, case, |_| true) {
        for bit in bits {
            bytes[bit / 8] |= 1 << (bit % 8);
        }
    }
}

pub(super) fn destination_type(rng: &mut Rng, case: &mut Case) {
    let register_type = rng.below(16) as u8;
    if let Some(bytes) = find_bytes(rng, case, |opcode| opcode.destination) {
        bytes[DESTINATION + 3] = register_type;
    }
}

/// A destination number about its count.
pub(super) fn destination_number(rng: &mut Rng, case: &mut Case) {
    let (edition, stage) = (case.edition, stage(case));
    let jump = rng.pick(&[0, 1, 255, 256]);
    if let Some(bytes) = find_bytes(rng, case, |opcode| opcode.destination) {
        let number = count(bytes[DESTINATION + 3] & 15, edition, stage) + jump;
        bytes[DESTINATION..DESTINATION + 2].copy_from_slice(&number.to_le_bytes());
    }
}

pub(super) fn no_mask(rng: &mut Rng, case: &mut Case) {
    if let Some(bytes) = find_bytes(rng, case, |opcode| opcode.destination) {
        bytes[DESTINATION + 2] = 0;
    }
}

pub(super) fn w_in_mask(rng: &mut Rng, case: &mut Case) {
    if let Some(bytes) = find_bytes(rng, case, |opcode| opcode.narrow) {
        bytes[DESTINATION + 2] |= 8;
    }
}
