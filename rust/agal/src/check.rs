//! The check of a whole program.

use crate::ffi;
use crate::refusal::Refusal;
use std::fmt;

/// The edition of the bytecode that a program is judged by.
#[derive(Clone, Copy, Debug, PartialEq, Eq, Hash)]
pub enum Edition {
    /// The first edition: 200 tokens, no branches.
    Agal = 1,
    /// AGAL2: 1,024 tokens, branches, derivatives.
    Agal2 = 2,
    /// AGAL3: 2,048 tokens.
    Agal3 = 3,
}

impl Edition {
    /// The digit that `agallist` reads.
    pub(crate) fn digit(self) -> u8 {
        b'0' + self as u8
    }
}

/// Refused by 1 where there is no such edition.
///
/// ```
/// use agal::Edition;
///
/// assert_eq!(Edition::try_from(2), Ok(Edition::Agal2));
/// assert_eq!(Edition::try_from(4).unwrap_err().number, 1);
/// ```
impl TryFrom<u32> for Edition {
    type Error = Refusal;

    fn try_from(number: u32) -> Result<Self, Refusal> {
        match number {
            1 => Ok(Edition::Agal),
            2 => Ok(Edition::Agal2),
            3 => Ok(Edition::Agal3),
            _ => Err(Refusal {
                number: 1,
                token: 0,
                part: 0,
            }),
        }
    }
}

/// What a program computes for.
#[derive(Clone, Copy, Debug, PartialEq, Eq, Hash)]
pub enum Stage {
    /// Each vertex.
    Vertex = 0,
    /// Each fragment.
    Fragment = 1,
}

impl fmt::Display for Stage {
    fn fmt(&self, f: &mut fmt::Formatter<'_>) -> fmt::Result {
        f.write_str(match self {
            Stage::Vertex => "vertex",
            Stage::Fragment => "fragment",
        })
    }
}

/// An accepted program.
#[derive(Clone, Copy, Debug, PartialEq, Eq, Hash)]
pub struct Accepted {
    /// What the program computes for.
    pub stage: Stage,
    /// How many tokens it has.
    pub tokens: usize,
}

/// Judges a program: it is accepted, or the first fault is named.
///
/// Whatever side is chosen at each branch of an accepted program, no component of a temporary register is read
/// that was not written before.
///
/// ```
/// use agal::{check, Edition};
///
/// let header = [0xA0, 1, 0, 0, 0, 0xA1, 1];
/// assert_eq!(check(&header, Edition::Agal2)?.tokens, 0);
/// assert_eq!(check(&[], Edition::Agal2).unwrap_err().number, 2);
/// # Ok::<(), agal::Refusal>(())
/// ```
pub fn check(program: &[u8], edition: Edition) -> Result<Accepted, Refusal> {
    let answer = Refusal::of(ffi::check(edition as u32, program))?;
    let stage = if answer.stage == 0 {
        Stage::Vertex
    } else {
        Stage::Fragment
    };
    Ok(Accepted {
        stage,
        tokens: answer.value,
    })
}
