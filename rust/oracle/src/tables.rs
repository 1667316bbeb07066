//! The tables, typed as they are printed.

/// Opcodes of every edition.
const FIRST: [(&str, u32); 32] = [
    ("mov", 0x00),
    ("add", 0x01),
    ("sub", 0x02),
    ("mul", 0x03),
    ("div", 0x04),
    ("rcp", 0x05),
    ("min", 0x06),
    ("max", 0x07),
    ("frc", 0x08),
    ("sqt", 0x09),
    ("rsq", 0x0a),
    ("pow", 0x0b),
    ("log", 0x0c),
    ("exp", 0x0d),
    ("nrm", 0x0e),
    ("sin", 0x0f),
    ("cos", 0x10),
    ("crs", 0x11),
    ("dp3", 0x12),
    ("dp4", 0x13),
    ("abs", 0x14),
    ("neg", 0x15),
    ("sat", 0x16),
    ("m33", 0x17),
    ("m44", 0x18),
    ("m34", 0x19),
    ("kil", 0x27),
    ("tex", 0x28),
    ("sge", 0x29),
    ("slt", 0x2a),
    ("seq", 0x2c),
    ("sne", 0x2d),
];

/// Opcodes that AGAL2 and AGAL3 add.
const ADDED: [(&str, u32); 8] = [
    ("ddx", 0x1a),
    ("ddy", 0x1b),
    ("ife", 0x1c),
    ("ine", 0x1d),
    ("ifg", 0x1e),
    ("ifl", 0x1f),
    ("els", 0x20),
    ("eif", 0x21),
];

const ONE_SOURCE: [&str; 15] = [
    "mov", "rcp", "frc", "sqt", "rsq", "log", "exp", "nrm", "sin", "cos", "abs", "neg", "sat",
    "ddx", "ddy",
];

pub const OPENERS: [&str; 4] = ["ife", "ine", "ifg", "ifl"];

/// Counts by type; columns 1 frag, 1 vert, 2 frag, 2 vert, 3 frag, 3 vert.
const COUNTS: [[u32; 6]; 7] = [
    [0, 8, 0, 8, 0, 16],
    [28, 128, 64, 250, 200, 250],
    [8, 8, 26, 26, 26, 26],
    [1, 1, 1, 1, 1, 1],
    [8, 8, 10, 10, 10, 10],
    [8, 0, 16, 0, 16, 0],
    [0, 0, 1, 0, 1, 0],
];

pub const VERTEX: u8 = 0;

pub fn name_of(code: u32) -> Option<&'static str> {
    let mut listed = FIRST.iter().chain(&ADDED);
    listed.find(|entry| entry.1 == code).map(|entry| entry.0)
}

pub fn is_added(name: &str) -> bool {
    ADDED.iter().any(|entry| entry.0 == name)
}

pub fn is_opener(name: &str) -> bool {
    OPENERS.contains(&name)
}

pub fn has_destination(name: &str) -> bool {
    !(is_opener(name) || ["kil", "els", "eif"].contains(&name))
}

pub fn has_source1(name: &str) -> bool {
    !["els", "eif"].contains(&name)
}

pub fn has_source2(name: &str) -> bool {
    !(ONE_SOURCE.contains(&name) || ["kil", "els", "eif"].contains(&name))
}

pub fn count(register_type: u8, edition: u32, stage: u8) -> u32 {
    let pair = 2 * (edition as usize - 1);
    let column = if stage == VERTEX { pair + 1 } else { pair };
    match COUNTS.get(register_type as usize) {
        Some(row) => row[column],
        None => 0,
    }
}

pub fn token_limit(edition: u32) -> usize {
    match edition {
        1 => 200,
        2 => 1_024,
        _ => 2_048,
    }
}

pub fn readable(stage: u8) -> [u8; 3] {
    if stage == VERTEX {
        [0, 1, 2]
    } else {
        [1, 2, 4]
    }
}

pub fn writable(stage: u8) -> [u8; 3] {
    if stage == VERTEX {
        [2, 3, 4]
    } else {
        [2, 3, 6]
    }
}

/// Registers that a source of this opcode spans.
pub fn rows(name: &str, part: u8) -> u32 {
    match (name, part) {
        ("m33" | "m34", 3) => 3,
        ("m44", 3) => 4,
        _ => 1,
    }
}
