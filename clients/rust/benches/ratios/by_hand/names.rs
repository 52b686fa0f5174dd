//! The drawing office's reader.

use std::ops::Range;

use super::split;

/// Where the name of a case stands in a file: the last tag 60 for the case among the whole fields.
pub fn name(file: &[u8], case: u8) -> Option<Range<usize>> {
    if case > 31 {
        return None;
    }
    let mut found = None;
    let mut rest = file;
    while let Some((tag, body, after)) = split(rest) {
        if tag == 0x60 && (2..=25).contains(&body.len()) && body[0] == case {
            let end = file.len() - after.len();
            found = Some(end + 1 - body.len()..end);
        }
        rest = after;
    }
    found
}
