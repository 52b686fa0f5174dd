//! Fields and answers as bytes: a tag, a length of two bytes and a body; numbers have the high byte first.

/// The tag and the body at the front of the bytes, and the bytes after them. `None` where the bytes are cut.
pub(crate) fn split(bytes: &[u8]) -> Option<(u8, &[u8], &[u8])> {
    let (&[tag, high, low], rest) = bytes.split_first_chunk()?;
    let len = u16::from_be_bytes([high, low]);
    let (body, rest) = rest.split_at_checked(usize::from(len))?;
    Some((tag, body, rest))
}

/// The next bytes, which are then taken off the front.
pub(crate) fn take<const N: usize>(bytes: &mut &[u8]) -> Option<[u8; N]> {
    let (front, rest) = bytes.split_first_chunk()?;
    *bytes = rest;
    Some(*front)
}
