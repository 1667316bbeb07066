//! A deliberately naive judge of AGAL programs.
//!
//! It shares no code with the crate `reference`: it reads single bytes, looks
//! opcodes up by name and decides whether a temporary is unwritten by walking
//! every way through the program, one for each choice of yes or no at each
//! opener. That is exponential in the number of openers, so it is meant for
//! small programs.

#![forbid(unsafe_code)]
#![warn(missing_docs)]

mod fields;
mod judge;
mod listing;
mod rules;
mod tables;
mod traffic;
mod ways;

pub use judge::judge;
pub use listing::listing;

/// Stage and token count, or number, token and part of the first fault.
pub type Verdict = Result<(u8, usize), (u8, usize, u8)>;
