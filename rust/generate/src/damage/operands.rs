//! Damages to sources and samplers.

use reference::registers::{count, CONSTANT, SAMPLER, TEMPORARY};
use reference::{Opcode, Second};

use super::place::{find_bytes, find_source, stage, SOURCES};
use crate::program::Case;
use crate::rng::Rng;

pub(super) fn indirect_bit(rng: &mut Rng, case: &mut Case) {
    if let Some((bytes, _)) = find_source(rng, case) {
        bytes[7] ^= 0x80;
    }
}

/// Makes a source an indexed one, lawful but for one field perhaps.
pub(super) fn faulty_index(rng: &mut Rng, case: &mut Case) {
    let (edition, stage) = (case.edition, stage(case));
    let arm = rng.below(6);
    let index_type = rng.below(3) as u8;
    let wild = rng.byte() & 15;
    let step = rng.below(3);
    let Some((bytes, rows)) = find_source(rng, case) else {
        return;
    };
    bytes[0..2].copy_from_slice(&[0, 0]);
    bytes[2] = 0;
    bytes[4..8].copy_from_slice(&[CONSTANT, index_type, wild & 3, 0x80]);
    match arm {
        0 => bytes[4] = wild,
        1 => bytes[5] = wild,
        2 => {
            let number = count(index_type, edition, stage).saturating_sub(1) + step as u16;
            bytes[0..2].copy_from_slice(&number.to_le_bytes());
        }
        3 | 4 => {
            let last = usize::from(count(CONSTANT, edition, stage)).saturating_sub(rows);
            bytes[2] = (last + step).min(255) as u8;
        }
        _ => {}
    }
}

pub(super) fn source_type(rng: &mut Rng, case: &mut Case) {
    let register_type = rng.below(16) as u8;
    if let Some((bytes, _)) = find_source(rng, case) {
        bytes[4] = register_type;
    }
}

/// A source number about its count, or so high that a sum could wrap.
pub(super) fn source_number(rng: &mut Rng, case: &mut Case) {
    let (edition, stage) = (case.edition, stage(case));
    let high = rng.percent(20).then(|| rng.between(65_530, 65_535) as u16);
    let step = rng.below(5) as u16;
    if let Some((bytes, rows)) = find_source(rng, case) {
        let last = count(bytes[4] & 15, edition, stage).saturating_sub(rows as u16);
        let number = high.unwrap_or(last + step);
        bytes[0..2].copy_from_slice(&number.to_le_bytes());
    }
}

pub(super) fn direct_offset(rng: &mut Rng, case: &mut Case) {
    let offset = rng.byte();
    if let Some((bytes, _)) = find_source(rng, case) {
        bytes[2] = offset;
    }
}

pub(super) fn read_temporary(rng: &mut Rng, case: &mut Case) {
    let registers = count(TEMPORARY, case.edition, stage(case)).max(1);
    let number = rng.below(registers.into()) as u8;
    if let Some((bytes, _)) = find_source(rng, case) {
        bytes[0..3].copy_from_slice(&[number, 0, 0]);
        bytes[4] = TEMPORARY;
        bytes[7] = 0;
    }
}

/// Changes a swizzle that is not free: that of `kil` or of a matrix.
pub(super) fn swizzle(rng: &mut Rng, case: &mut Case) {
    let selectors = rng.byte();
    let bound = |opcode: &Opcode| opcode.scalar || opcode.is_matrix();
    if let Some(bytes) = find_bytes(rng, case, bound) {
        let source = SOURCES[usize::from(bytes[0] != 0x27)];
        bytes[source + 3] = selectors;
    }
}

fn is_tex(opcode: &Opcode) -> bool {
    opcode.source2 == Second::Sampler
}

pub(super) fn sampler_setting(rng: &mut Rng, case: &mut Case) {
    let (place, shift) = rng.pick(&[(4, 0), (5, 4), (6, 4), (6, 0), (7, 4), (7, 0)]);
    let value = (rng.between(1, 4) as u8 | rng.byte() & 8) << shift;
    if let Some(bytes) = find_bytes(rng, case, is_tex) {
        let other_half = 0xf0 >> shift;
        let byte = &mut bytes[SOURCES[1] + place];
        *byte = *byte & other_half | value;
    }
}

/// A sampler number about its count.
pub(super) fn sampler_number(rng: &mut Rng, case: &mut Case) {
    let last = count(SAMPLER, case.edition, stage(case)).saturating_sub(1);
    let number = last + rng.pick(&[0, 1, 2, 256]);
    if let Some(bytes) = find_bytes(rng, case, is_tex) {
        bytes[SOURCES[1]..SOURCES[1] + 2].copy_from_slice(&number.to_le_bytes());
    }
}
