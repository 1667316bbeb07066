//! The calls that are measured.

use crate::programs::Case;
use agal::raw;
use reference::TokenReader;
use std::hint::black_box;

/// Room for every text of the listing.
const REPORT_MAX: usize = 262_178;
const EDITION: u32 = 3;

/// What is called.
#[derive(Clone, Copy, PartialEq, Eq)]
pub enum Call {
    Check,
    Listing,
    Reading,
}

/// Whose code it is.
#[derive(Clone, Copy, PartialEq, Eq)]
pub enum Side {
    Verified,
    Reference,
}

impl Call {
    pub const ALL: [Call; 3] = [Call::Check, Call::Listing, Call::Reading];

    pub fn name(self) -> &'static str {
        match self {
            Call::Check => "check",
            Call::Listing => "listing",
            Call::Reading => "reading",
        }
    }
}

impl Side {
    pub const BOTH: [Side; 2] = [Side::Verified, Side::Reference];

    pub fn name(self) -> &'static str {
        match self {
            Side::Verified => "verified",
            Side::Reference => "reference",
        }
    }
}

/// Calls, and the buffer that the verified listing writes to.
pub struct Caller {
    text: Vec<u8>,
}

impl Caller {
    pub fn new() -> Self {
        let text = vec![0; REPORT_MAX];
        Caller { text }
    }

    /// Calls once for each program of a case.
    pub fn round(&mut self, case: &Case, call: Call, side: Side) {
        for input in &case.inputs {
            let input = black_box(input.as_slice());
            match (call, side) {
                (Call::Check, Side::Verified) => {
                    black_box(raw::check(EDITION, &input[1..]));
                }
                (Call::Check, Side::Reference) => {
                    let _ = black_box(reference::check(&input[1..], EDITION));
                }
                (Call::Listing, Side::Verified) => {
                    black_box(raw::report(input, &mut self.text));
                }
                (Call::Listing, Side::Reference) => {
                    black_box(reference::report(input));
                }
                (Call::Reading, Side::Verified) => read(&input[1..]),
                (Call::Reading, Side::Reference) => read_reference(&input[1..]),
            }
        }
    }
}

/// Reads tokens until one is refused.
fn read(program: &[u8]) {
    let mut flat = [0; 29];
    let mut place = 0;
    loop {
        let answer = raw::read(program, place, &mut flat);
        if answer.number != 0 {
            return;
        }
        black_box(&flat);
        place = answer.value;
    }
}

fn read_reference(program: &[u8]) {
    let (mut reader, _) = TokenReader::open(program);
    while let Ok(token) = reader.read() {
        black_box(&token);
    }
}

/// Fails unless both sides judge each program of a case alike, and list it alike, and the case says how many tokens are judged.
pub fn agree(case: &Case) {
    let mut judged = 0;
    let mut text = vec![0; REPORT_MAX];
    for input in &case.inputs {
        let ours = raw::check(EDITION, &input[1..]);
        match reference::check(&input[1..], EDITION) {
            Ok(accepted) => assert_eq!((ours.number, ours.value), (0, accepted.tokens)),
            Err(r) => assert_eq!((ours.number, ours.token), (r.number, r.token)),
        }
        judged += if ours.number == 0 {
            ours.value
        } else {
            ours.token + 1
        };
        let length = raw::report(input, &mut text).value;
        assert_eq!(text[..length], reference::report(input));
    }
    assert_eq!(judged, case.tokens);
}
