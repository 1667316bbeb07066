//! The listing of a whole program.

use crate::check::Edition;
use crate::ffi;

/// Room for the text of every input.
const REPORT_MAX: usize = 262_178;

/// The text that the program `agallist` prints: the listing of a program that is accepted, or one line that says
/// why there is none. Programs of more than 49,159 bytes are `input too long`.
///
/// ```
/// use agal::{listing, Edition};
///
/// let header = [0xA0, 1, 0, 0, 0, 0xA1, 1];
/// assert_eq!(listing(&header, Edition::Agal3), "agal 3 fragment 0\n");
/// assert_eq!(listing(&header[..6], Edition::Agal3), "refused 2 at 0 part 0\n");
/// ```
pub fn listing(program: &[u8], edition: Edition) -> String {
    let mut input = Vec::with_capacity(1 + program.len());
    input.push(edition.digit());
    input.extend_from_slice(program);
    let mut text = vec![0; REPORT_MAX];
    let answer = ffi::report(&input, &mut text);
    String::from_utf8_lossy(&text[..answer.value]).into_owned()
}
