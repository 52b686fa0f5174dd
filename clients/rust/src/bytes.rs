//! The library on slices of bytes, for a caller with buffers of its own.
//!
//! [`Sheet`](crate::Sheet) is built on [`answer`] and [`run`], [`case_name`](crate::case_name) on [`name_place`].

use std::ops::Range;

use crate::raw::{self, Ran};
use crate::Refusal;

/// The longest answer. An output must have this many bytes for each field.
pub const ANSWER: usize = 37;

/// A buffer to save into must have this many bytes. Every saved sheet is shorter.
pub const SAVED: usize = 8192;

/// How many bytes a call of [`run`] wrote.
#[derive(Clone, Copy, Debug, PartialEq, Eq)]
pub struct Written {
    /// Bytes of answers.
    pub answers: usize,
    /// Bytes of the saved sheet.
    pub saved: usize,
}

/// Answers the fields of `input`, one after the other, on the sheet that `state` saves, and gives how many bytes of answers it
/// wrote. An empty `state` is a fresh sheet.
///
/// # Errors
///
/// The whole call is refused, and nothing is written, where `output` is too short or a field of `state` is not accepted. A field
/// of `input` that is refused is no error here: its answer says so.
pub fn answer(state: &[u8], input: &[u8], output: &mut [u8]) -> Result<usize, Refusal> {
    let written = result(call(state, input, output, None))?;
    Ok(written.answers)
}

/// The same as [`answer`], and saves the sheet after the fields to `saved`.
///
/// # Errors
///
/// As for [`answer`], and where `saved` is too short.
pub fn run(
    state: &[u8],
    input: &[u8],
    output: &mut [u8],
    saved: &mut [u8],
) -> Result<Written, Refusal> {
    result(call(state, input, output, Some(saved)))
}

/// Where the name of a case stands in a file of fields. `None` where the file has no name for the case, and for a case above 31.
///
/// It is in the last field with tag 60 for the case, as far as the fields of the file are whole and none is longer than 60,000.
pub fn name_place(file: &[u8], case: u8) -> Option<Range<usize>> {
    // SAFETY: the pointer and the length are those of a slice, so it is not null and valid for the length. The library only reads.
    let place = unsafe { raw::frames_name(file.as_ptr(), file.len(), case) };
    (place.len > 0).then(|| place.from..place.from + place.len)
}

fn result(ran: Ran) -> Result<Written, Refusal> {
    match Refusal::from_number(ran.refusal) {
        Some(refusal) => Err(refusal),
        None => Ok(Written {
            answers: ran.written,
            saved: ran.saved,
        }),
    }
}

fn call(state: &[u8], input: &[u8], output: &mut [u8], saved: Option<&mut [u8]>) -> Ran {
    let (s, i, o) = (state.as_ptr(), input.as_ptr(), output.as_mut_ptr());
    let (s_len, i_len, o_len) = (state.len(), input.len(), output.len());
    // SAFETY: each pointer and length is that of a slice, so it is not null and valid for the length; `output` and `saved` are
    // borrowed mutably, so they overlap nothing. The library writes to these two only, within their lengths.
    unsafe {
        match saved {
            None => raw::frames_answer(s, s_len, i, i_len, o, o_len),
            Some(saved) => {
                let (p, p_len) = (saved.as_mut_ptr(), saved.len());
                raw::frames_run(s, s_len, i, i_len, o, o_len, p, p_len)
            }
        }
    }
}
