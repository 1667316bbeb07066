//! The functions of `include/agal.h`. All of the crate's unsafe code is here: a slice is handed over as its
//! pointer and its length, which is what each function asks for.

/// What a function answers; the fields are those of `agal_answer`.
#[repr(C)]
#[derive(Clone, Copy, Debug, PartialEq, Eq)]
pub struct Answer {
    /// 0, or the number of the refusal.
    pub number: u8,
    /// Of a refusal, the part of the token.
    pub part: u8,
    /// Of the check, the stage.
    pub stage: u8,
    /// Of a refusal, the token.
    pub token: usize,
    /// What else is answered: a token count, a place, or how many bytes were written.
    pub value: usize,
}

extern "C" {
    fn agal_check(edition: u32, program: *const u8, length: usize) -> Answer;
    fn agal_decode(token: *const u8, length: usize, flat: *mut u8, flat_length: usize) -> Answer;
    fn agal_read(
        program: *const u8,
        length: usize,
        place: usize,
        flat: *mut u8,
        flat_length: usize,
    ) -> Answer;
    fn agal_encode(flat: *const u8, flat_length: usize, out: *mut u8, out_length: usize) -> Answer;
    fn agal_line(
        flat: *const u8,
        flat_length: usize,
        stage: u32,
        depth: u32,
        out: *mut u8,
        out_length: usize,
    ) -> Answer;
    fn agal_report(input: *const u8, length: usize, out: *mut u8, out_length: usize) -> Answer;
    fn agal_bias(bias: i8) -> f32;
}

/// `agal_check`.
pub fn check(edition: u32, program: &[u8]) -> Answer {
    // SAFETY: a slice is good for reading over its length.
    unsafe { agal_check(edition, program.as_ptr(), program.len()) }
}

/// `agal_decode`.
pub fn decode(token: &[u8], flat: &mut [u8]) -> Answer {
    // SAFETY: both slices are good over their lengths, and `&mut` rules out that they overlap.
    unsafe { agal_decode(token.as_ptr(), token.len(), flat.as_mut_ptr(), flat.len()) }
}

/// `agal_read`.
pub fn read(program: &[u8], place: usize, flat: &mut [u8]) -> Answer {
    // SAFETY: as for `decode`.
    unsafe {
        agal_read(
            program.as_ptr(),
            program.len(),
            place,
            flat.as_mut_ptr(),
            flat.len(),
        )
    }
}

/// `agal_encode`.
pub fn encode(flat: &[u8], out: &mut [u8]) -> Answer {
    // SAFETY: as for `decode`.
    unsafe { agal_encode(flat.as_ptr(), flat.len(), out.as_mut_ptr(), out.len()) }
}

/// `agal_line`.
pub fn line(flat: &[u8], stage: u32, depth: u32, out: &mut [u8]) -> Answer {
    // SAFETY: as for `decode`.
    unsafe {
        agal_line(
            flat.as_ptr(),
            flat.len(),
            stage,
            depth,
            out.as_mut_ptr(),
            out.len(),
        )
    }
}

/// `agal_report`.
pub fn report(input: &[u8], out: &mut [u8]) -> Answer {
    // SAFETY: as for `decode`.
    unsafe { agal_report(input.as_ptr(), input.len(), out.as_mut_ptr(), out.len()) }
}

/// `agal_bias`.
pub fn bias(bias: i8) -> f32 {
    // SAFETY: a number is all that is handed over.
    unsafe { agal_bias(bias) }
}
