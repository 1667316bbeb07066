//! Register types and how many registers each edition and stage offers.

use crate::order::{when, Faults, ADDED_OPCODE, FRAGMENT_OPCODE};

/// Vertex input.
pub const ATTRIBUTE: u8 = 0;
/// Constant set from outside.
pub const CONSTANT: u8 = 1;
/// Register for computation inside the program.
pub const TEMPORARY: u8 = 2;
/// The position or colour a program answers.
pub const OUTPUT: u8 = 3;
/// Passed from vertex to fragment program.
pub const VARYING: u8 = 4;
/// Texture sampler.
pub const SAMPLER: u8 = 5;
/// Depth written by a fragment program.
pub const FRAGMENT_REGISTER: u8 = 6;

/// Stage of a vertex program.
pub const VERTEX: u8 = 0;
/// Stage of a fragment program.
pub const FRAGMENT: u8 = 1;

/// Counts by type, edition less 1, and stage (vertex, fragment).
const COUNTS: [[[u16; 2]; 3]; 7] = [
    [[8, 0], [8, 0], [16, 0]],
    [[128, 28], [250, 64], [250, 200]],
    [[8, 8], [26, 26], [26, 26]],
    [[1, 1], [1, 1], [1, 1]],
    [[8, 8], [10, 10], [10, 10]],
    [[0, 8], [0, 16], [0, 16]],
    [[0, 0], [0, 1], [0, 1]],
];

/// Longest program of each edition, in tokens.
const TOKENS: [usize; 3] = [200, 1024, 2048];

/// Readable types by stage, one bit for each type.
const READABLE: [u8; 2] = [0b000_0111, 0b001_0110];

/// Writable types by stage, one bit for each type.
const WRITABLE: [u8; 2] = [0b001_1100, 0b100_1100];

/// How many registers of a type there are; 0 for any unknown argument.
pub fn count(register_type: u8, edition: u32, stage: u8) -> u16 {
    match (COUNTS.get(usize::from(register_type)), edition, stage) {
        (Some(by_edition), 1..=3, 0..=1) => by_edition[edition as usize - 1][usize::from(stage)],
        _ => 0,
    }
}

/// How many tokens a program may have; 0 for an unknown edition.
pub fn token_limit(edition: u32) -> usize {
    match edition {
        1..=3 => TOKENS[edition as usize - 1],
        _ => 0,
    }
}

/// Whether a program of this stage may read this type as a direct source.
pub fn is_readable(register_type: u8, stage: u8) -> bool {
    has(&READABLE, register_type, stage)
}

/// Whether a program of this stage may write this type.
pub fn is_writable(register_type: u8, stage: u8) -> bool {
    has(&WRITABLE, register_type, stage)
}

fn has(types: &[u8; 2], register_type: u8, stage: u8) -> bool {
    register_type < 8 && stage < 2 && types[usize::from(stage)] >> register_type & 1 == 1
}

/// What one edition and stage offers, laid out for the check: a count is 0
/// where the type may not be used that way, so one comparison judges both.
pub(crate) struct Limits {
    pub(crate) tokens: usize,
    /// Faults of the opcodes that are missing here.
    pub(crate) absent: Faults,
    pub(crate) readable: [u16; 16],
    pub(crate) writable: [u16; 16],
    pub(crate) index: [u16; 16],
    pub(crate) constants: u16,
    pub(crate) samplers: u16,
}

static LIMITS: [[Limits; 2]; 3] = [
    [limits(0, 0), limits(0, 1)],
    [limits(1, 0), limits(1, 1)],
    [limits(2, 0), limits(2, 1)],
];

/// The limits of an edition, by stage.
pub(crate) fn limits_of(edition: u32) -> Option<&'static [Limits; 2]> {
    LIMITS.get((edition as usize).checked_sub(1)?)
}

const fn limits(edition: usize, stage: usize) -> Limits {
    let mut limits = Limits {
        tokens: TOKENS[edition],
        absent: when(edition == 0, ADDED_OPCODE) | when(stage == VERTEX as usize, FRAGMENT_OPCODE),
        readable: [0; 16],
        writable: [0; 16],
        index: [0; 16],
        constants: COUNTS[CONSTANT as usize][edition][stage],
        samplers: COUNTS[SAMPLER as usize][edition][stage],
    };
    let mut t = 0;
    while t < COUNTS.len() {
        let count = COUNTS[t][edition][stage];
        if READABLE[stage] >> t & 1 == 1 {
            limits.readable[t] = count;
        }
        if WRITABLE[stage] >> t & 1 == 1 {
            limits.writable[t] = count;
        }
        // Only vertex programs index, and only by types 0 to 2.
        if stage == VERTEX as usize && t <= TEMPORARY as usize {
            limits.index[t] = count;
        }
        t += 1;
    }
    limits
}
