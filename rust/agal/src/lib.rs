//! A verified checker for AGAL shader bytecode.
//!
//! Every answer here comes from a function that is proved to give it, for every input; this crate only hands
//! bytes and numbers over. What the functions promise is in `docs/PROMISES.md` of the repository.
//!
//! ```
//! use agal::{check, Edition, Stage};
//!
//! // A header and one token: mov vt0.xyzw, vc5.xyzw
//! let mut program = vec![0xA0, 1, 0, 0, 0, 0xA1, 0];
//! program.extend([0, 0, 0, 0, 0, 0, 0x0F, 2, 5, 0, 0, 0xE4, 1, 0, 0, 0, 0, 0, 0, 0, 0, 0, 0, 0]);
//!
//! let accepted = check(&program, Edition::Agal)?;
//! assert_eq!(accepted.stage, Stage::Vertex);
//! assert_eq!(accepted.tokens, 1);
//!
//! // The same from vt5, which nothing has written.
//! program[7 + 12] = 2;
//! let refusal = check(&program, Edition::Agal).unwrap_err();
//! assert_eq!((refusal.number, refusal.token, refusal.part), (21, 0, 2));
//! assert_eq!(
//!     refusal.to_string(),
//!     "token 0, source 1: a component of a temporary register is read that some path has not written (refusal 21)"
//! );
//! # Ok::<(), agal::Refusal>(())
//! ```

#![deny(unsafe_code)]
#![warn(missing_docs)]

mod check;
#[allow(unsafe_code)]
mod ffi;
mod flat;
mod listing;
mod record;
mod refusal;
mod tokens;

/// The C functions as they are, for tests and measurements: every number as edition, stage, depth and place, and
/// buffers of every length.
#[cfg(feature = "raw")]
pub mod raw {
    pub use crate::ffi::{bias, check, decode, encode, line, read, report, Answer};
}

pub use check::{check, Accepted, Edition, Stage};
pub use listing::listing;
pub use record::{bias, decode, Destination, Operand, Sampler, Source, Token, TOKEN_SIZE};
pub use refusal::Refusal;
pub use tokens::{tokens, Tokens};
