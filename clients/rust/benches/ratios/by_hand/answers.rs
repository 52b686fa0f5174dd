//! Bytes written: those of each answer have a length that the compiler knows.

use super::extremes::Extreme;
use super::utilisation::Utilisation;

pub const ACCEPTED: [u8; 3] = [0x80, 0, 0];

pub fn refused(number: u8) -> [u8; 4] {
    [0x81, 0, 1, number]
}

#[inline(always)]
pub fn extremes((maximum, minimum): &(Extreme, Extreme)) -> [u8; 37] {
    let mut answer = [0; 37];
    answer[..3].copy_from_slice(&[0x86, 0, 34]);
    answer[3..20].copy_from_slice(&extreme(maximum));
    answer[20..].copy_from_slice(&extreme(minimum));
    answer
}

#[inline(always)]
fn extreme(x: &Extreme) -> [u8; 17] {
    let mut bytes = [0; 17];
    bytes[..8].copy_from_slice(&x.value.to_be_bytes());
    bytes[8] = x.row;
    bytes[9..13].copy_from_slice(&x.acting.to_be_bytes());
    bytes[13..].copy_from_slice(&x.low.to_be_bytes());
    bytes
}

#[inline(always)]
pub fn utilisation(x: &Utilisation) -> [u8; 29] {
    let mut answer = [0; 29];
    answer[..3].copy_from_slice(&[0x87, 0, 26]);
    answer[3..11].copy_from_slice(&x.numerator.to_be_bytes());
    answer[11..19].copy_from_slice(&x.denominator.to_be_bytes());
    answer[19] = u8::from(x.numerator <= x.denominator);
    answer[20] = x.row;
    answer[21..25].copy_from_slice(&x.acting.to_be_bytes());
    answer[25..].copy_from_slice(&x.low.to_be_bytes());
    answer
}

/// Writes bytes at a place and gives the place after them.
#[inline(always)]
pub fn put<const N: usize>(out: &mut [u8], at: usize, bytes: [u8; N]) -> usize {
    out[at..at + N].copy_from_slice(&bytes);
    at + N
}
