//! What the comparisons in `tests/` share.
//!
//! Each compares the proved functions, as C has them and as the crate `agal` has them, with `reference`; small
//! programs also with `oracle`, which walks every way. All inputs are seeded, and a difference is printed with its
//! input in hexadecimal.

#![forbid(unsafe_code)]
#![warn(missing_docs)]

pub mod flat;
mod lent;
pub mod safe;
mod tally;

use agal::raw::Answer;
use reference::Refusal;

pub use lent::Lent;
pub use tally::Tally;

/// Bytes in hexadecimal, to print where a comparison fails.
pub fn hex(bytes: &[u8]) -> String {
    let bytes: Vec<String> = bytes.iter().map(|b| format!("{b:02x}")).collect();
    bytes.join(" ")
}

/// A copy whose last byte is the last of its allocation, so that valgrind sees a read past it.
pub fn exact(bytes: &[u8]) -> Box<[u8]> {
    bytes.into()
}

/// The answer of a call that is not refused.
pub fn done(value: usize) -> Answer {
    Answer {
        number: 0,
        part: 0,
        stage: 0,
        token: 0,
        value,
    }
}

/// The answer of a call that is refused.
pub fn refused(refusal: Refusal) -> Answer {
    Answer {
        number: refusal.number,
        part: refusal.part,
        stage: 0,
        token: refusal.token,
        value: 0,
    }
}

/// A refusal that names neither a token nor a part.
pub fn plain(number: u8) -> Refusal {
    Refusal {
        number,
        token: 0,
        part: 0,
    }
}

/// How many rounds a test makes: all, or one in `DIFFERENTIAL_DIVISOR` where that is set. It is meant for runs under
/// valgrind, which are slow.
pub fn rounds(all: usize) -> usize {
    all / divisor()
}

/// Whether the tests make all their rounds, so that what is rare comes up, too.
pub fn in_full() -> bool {
    divisor() == 1
}

fn divisor() -> usize {
    std::env::var("DIFFERENTIAL_DIVISOR").map_or(1, |text| {
        text.parse().expect("DIFFERENTIAL_DIVISOR is a number")
    })
}
