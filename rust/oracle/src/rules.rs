//! Faults 9 to 19, one function for each number. A function answers the part
//! at fault, or nothing. Each may rely on the faults numbered below it being
//! absent.

use crate::fields::{Field, Token};
use crate::tables;

/// A token and the program it stands in.
#[derive(Clone, Copy)]
pub struct Place<'a> {
    pub edition: u32,
    pub stage: u8,
    pub token: Token<'a>,
}

/// The first fault among 9 to 19, with its part.
pub fn first_fault(place: Place) -> Option<(u8, u8)> {
    let Some(name) = tables::name_of(place.token.opcode()) else {
        return Some((9, 0));
    };
    let ordered = [
        (10, added_opcode(place, name)),
        (11, fragment_opcode(place, name)),
        (12, unused_field(place, name)),
        (13, undefined_bit(place, name)),
        (14, destination(place, name)),
        (15, mask(place, name)),
        (16, indexed(place, name, 2)),
        (17, direct(place, name, 2)),
        (18, swizzle(place, name, 2)),
        (16, indexed(place, name, 3)),
        (17, direct(place, name, 3)),
        (18, swizzle(place, name, 3)),
        (19, sampler(place, name)),
    ];
    let mut found = ordered.iter();
    found.find_map(|&(number, part)| part.map(|part| (number, part)))
}

/// Whether the opcode has a destination (1), source 1 (2), source 2 (3).
fn has(name: &str, part: u8) -> bool {
    match part {
        1 => tables::has_destination(name),
        2 => tables::has_source1(name),
        _ => tables::has_source2(name),
    }
}

fn is_sampler(name: &str, part: u8) -> bool {
    name == "tex" && part == 3
}

fn is_source(name: &str, part: u8) -> bool {
    part >= 2 && has(name, part) && !is_sampler(name, part)
}

fn added_opcode(place: Place, name: &str) -> Option<u8> {
    (place.edition == 1 && tables::is_added(name)).then_some(0)
}

fn fragment_opcode(place: Place, name: &str) -> Option<u8> {
    (place.stage == tables::VERTEX && (name == "kil" || name == "tex")).then_some(0)
}

fn unused_field(place: Place, name: &str) -> Option<u8> {
    let stray = |part: &u8| place.token.part(*part).iter().any(|&byte| byte != 0);
    [1, 2, 3]
        .into_iter()
        .find(|part| !has(name, *part) && stray(part))
}

fn undefined_bit(place: Place, name: &str) -> Option<u8> {
    let defined = |part: u8| -> &[u8] {
        if part == 1 {
            &[0xff, 0xff, 0x0f, 0x0f]
        } else if is_sampler(name, part) {
            &[0xff, 0xff, 0xff, 0x00, 0x0f, 0xf0, 0xff, 0xff]
        } else {
            &[0xff, 0xff, 0xff, 0xff, 0x0f, 0x0f, 0x03, 0x80]
        }
    };
    let stray = |part: u8| {
        let mut pairs = place.token.part(part).iter().zip(defined(part));
        pairs.any(|(byte, defined)| byte & !defined != 0)
    };
    [1, 2, 3]
        .into_iter()
        .find(|&part| has(name, part) && stray(part))
}

fn destination(place: Place, name: &str) -> Option<u8> {
    if !has(name, 1) {
        return None;
    }
    let register_type = place.token.destination_type();
    let writable = tables::writable(place.stage).contains(&register_type);
    let count = tables::count(register_type, place.edition, place.stage);
    (!writable || place.token.destination_number() >= count).then_some(1)
}

fn mask(place: Place, name: &str) -> Option<u8> {
    if !has(name, 1) {
        return None;
    }
    let mask = place.token.mask();
    let no_w = ["nrm", "crs", "m33", "m34"].contains(&name);
    (mask == 0 || (no_w && mask >= 8)).then_some(1)
}

fn indexed(place: Place, name: &str, part: u8) -> Option<u8> {
    let source = place.token.source(part);
    if !is_source(name, part) || !source.indirect() {
        return None;
    }
    let count = |register_type| tables::count(register_type, place.edition, place.stage);
    let faulty = place.stage != tables::VERTEX
        || source.register_type() != 1
        || source.index_type() > 2
        || source.number() >= count(source.index_type())
        || source.offset() + tables::rows(name, part) > count(1);
    faulty.then_some(part)
}

fn direct(place: Place, name: &str, part: u8) -> Option<u8> {
    let source = place.token.source(part);
    if !is_source(name, part) || source.indirect() {
        return None;
    }
    let register_type = source.register_type();
    let count = tables::count(register_type, place.edition, place.stage);
    let faulty = !tables::readable(place.stage).contains(&register_type)
        || source.number() + tables::rows(name, part) > count
        || source.offset() != 0;
    faulty.then_some(part)
}

fn swizzle(place: Place, name: &str, part: u8) -> Option<u8> {
    let selectors = place.token.source(part).selectors();
    let faulty = match (name, part) {
        ("kil", 2) => selectors.iter().any(|&selector| selector != selectors[0]),
        ("m33" | "m34" | "m44", 3) => selectors != [0, 1, 2, 3],
        _ => false,
    };
    faulty.then_some(part)
}

fn sampler(place: Place, name: &str) -> Option<u8> {
    if !is_sampler(name, 3) {
        return None;
    }
    let sampler: Field = place.token.source(3);
    let count = tables::count(5, place.edition, place.stage);
    let faulty = sampler.register_type() != 5
        || sampler.number() >= count
        || sampler.filter() > 1
        || sampler.wrap() > 1
        || sampler.dimension() > 1
        || sampler.mipmap() > 2
        || sampler.special() != 0;
    faulty.then_some(3)
}
