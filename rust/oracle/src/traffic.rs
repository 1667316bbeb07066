//! What one token reads and writes, as lists of temporary components.

use crate::fields::Token;
use crate::tables;

/// Number of a temporary register and one of its components.
pub type Cell = (u32, u8);

/// No edition has more temporary registers.
pub const TEMPORARIES: usize = 26;

/// The temporary components that a token reads and writes.
#[derive(Default)]
pub struct Traffic {
    pub source1: Vec<Cell>,
    pub source2: Vec<Cell>,
    pub written: Vec<Cell>,
}

/// The traffic of a token that has none of the faults 9 to 19.
pub fn traffic(token: Token, name: &str) -> Traffic {
    Traffic {
        source1: reads(token, name, 2),
        source2: reads(token, name, 3),
        written: writes(token, name),
    }
}

fn writes(token: Token, name: &str) -> Vec<Cell> {
    if !tables::has_destination(name) || token.destination_type() != 2 {
        return Vec::new();
    }
    let number = token.destination_number();
    let components = mask_bits(token);
    components.into_iter().map(|bit| (number, bit)).collect()
}

/// The components of the mask.
fn mask_bits(token: Token) -> Vec<u8> {
    let set = |bit: &u8| token.mask() & (1 << bit) != 0;
    [0, 1, 2, 3].into_iter().filter(set).collect()
}

fn reads(token: Token, name: &str, part: u8) -> Vec<Cell> {
    let has_source = match part {
        2 => tables::has_source1(name),
        _ => tables::has_source2(name) && name != "tex",
    };
    if !has_source {
        return Vec::new();
    }
    let source = token.source(part);
    if source.indirect() {
        return match source.index_type() {
            2 => vec![(source.number(), source.component())],
            _ => Vec::new(),
        };
    }
    if source.register_type() != 2 {
        return Vec::new();
    }
    let mut cells = Vec::new();
    for row in 0..tables::rows(name, part) {
        for component in components(token, name, part) {
            cells.push((source.number() + row, component));
        }
    }
    cells
}

/// The components read of each register of a direct source.
fn components(token: Token, name: &str, part: u8) -> Vec<u8> {
    let selectors = token.source(part).selectors();
    match (name, part) {
        ("m33", 3) => vec![0, 1, 2],
        ("m34" | "m44", 3) => vec![0, 1, 2, 3],
        ("nrm" | "crs" | "dp3" | "m33", _) => selectors[..3].to_vec(),
        ("dp4" | "m34" | "m44" | "ife" | "ine" | "ifg" | "ifl", _) => selectors.to_vec(),
        ("kil", _) => vec![selectors[0]],
        ("tex", _) if token.source(3).dimension() == 0 => selectors[..2].to_vec(),
        ("tex", _) => selectors[..3].to_vec(),
        _ => {
            let bits = mask_bits(token);
            bits.iter().map(|&bit| selectors[bit as usize]).collect()
        }
    }
}
