//! Seeded AGAL programs, tokens and records for tests.
//!
//! Everything is drawn from an [`Rng`], so a seed names a test input. Programs
//! are first built lawful, keeping track of what is written on every way, and
//! then perhaps damaged; the damages are chosen so that every fault of a
//! program turns up often.

#![forbid(unsafe_code)]
#![warn(missing_docs)]

mod build;
mod damage;
mod operands;
mod program;
mod rng;
mod token;

pub use build::{build, Habit, Plan};
pub use damage::damage;
pub use program::{deep_program, input, plain_program, program, small_program, Case};
pub use rng::Rng;
pub use token::{record, token_bytes};
