//! Reference checker, codec and listing for AGAL bytecode.
//!
//! A program is a 7-byte header and tokens of 24 bytes. [`check`] judges a
//! whole program under an edition, [`decode`] and [`encode`] translate single
//! tokens, [`line()`] and [`report`] print them. No call panics, and only
//! [`report`] allocates.

#![forbid(unsafe_code)]
#![warn(missing_docs)]

mod check;
mod components;
mod decode;
mod encode;
mod layout;
mod line;
mod nesting;
mod opcodes;
mod order;
mod profile;
mod reader;
mod record;
mod refusal;
pub mod registers;
mod report;

pub use check::{check, Accepted};
pub use decode::decode;
pub use encode::encode;
pub use layout::{HEADER_LEN, TOKEN_LEN};
pub use line::{line, MAX_LINE_LEN};
pub use nesting::MAX_NESTING;
pub use opcodes::{opcode, Flow, Opcode, Second, Selectors, OPCODE_SPAN};
pub use reader::TokenReader;
pub use record::{bias, Destination, Operand, Sampler, Source, Token};
pub use refusal::{fault, part, Refusal};
pub use report::{report, MAX_INPUT_LEN};
