//! The functions of the static library, on pointers.
//!
//! What each asks of its caller: a pointer is never null, also where its length is 0; it is valid for its length; `output` and
//! `saved` overlap nothing else that is passed. The functions keep no state and may be called from several threads.

/// What a call did.
#[repr(C)]
#[derive(Clone, Copy, Debug, PartialEq, Eq)]
pub struct Ran {
    /// The number of the refusal, or 0. A call that is refused writes nothing.
    pub refusal: u8,
    /// How many bytes of answers were written.
    pub written: usize,
    /// How many bytes of the saved sheet were written.
    pub saved: usize,
}

/// Where a name stands in a file.
#[repr(C)]
#[derive(Clone, Copy, Debug, PartialEq, Eq)]
pub struct Place {
    /// The place of its first byte, or 0 where there is no name.
    pub from: usize,
    /// How many bytes it has, 1 to 24, or 0 where there is no name.
    pub len: usize,
}

extern "C" {
    /// How many fields the bytes hold, and so how many answers a run of them writes. A field that is cut or longer than 60,000
    /// counts as one and is the last.
    pub fn frames_count(input: *const u8, input_len: usize) -> usize;

    /// Reads the fields of `input` on the sheet that `state` saves and writes their answers to `output`, which must have 37
    /// bytes for each field. Nothing is saved.
    pub fn frames_answer(
        state: *const u8,
        state_len: usize,
        input: *const u8,
        input_len: usize,
        output: *mut u8,
        output_len: usize,
    ) -> Ran;

    /// The same, and saves the sheet after the fields to `saved`, which must have 8,192 bytes.
    pub fn frames_run(
        state: *const u8,
        state_len: usize,
        input: *const u8,
        input_len: usize,
        output: *mut u8,
        output_len: usize,
        saved: *mut u8,
        saved_len: usize,
    ) -> Ran;

    /// Where the name of a case stands in a file of fields: the last tag 60 for the case, as far as the fields are whole and none is
    /// longer than 60,000. A case above 31 has no name.
    pub fn frames_name(file: *const u8, file_len: usize, load_case: u8) -> Place;
}
