//! The same checker by hand: plain safe Rust, written for speed. It reads the same fields and writes the same bytes.
//!
//! The sheet is edited in place and holds the places of each kind as the bits of a word. One pass over the load cases serves the
//! maximum and the minimum of a component, and one the eight patterns of signs of a utilisation. A row of the standard is a formula
//! with constant factors. The combination is worked out for the governing row alone.

mod answers;
mod cases;
mod extremes;
mod names;
pub mod rows;
mod sheet;
mod utilisation;

use std::io::{self, Read, Write};

use answers::put;
use frames::bytes::{ANSWER, SAVED};
pub use names::name;
use sheet::{Asked, Refused};
pub use sheet::{Sheet, SETTINGS};

/// What a call did: the refusal of the whole call or 0, and how many bytes it wrote.
#[derive(Debug, PartialEq)]
pub struct Ran {
    pub refusal: Refused,
    pub written: usize,
    pub saved: usize,
}

/// How many fields the bytes hold. A cut field counts as one and is the last.
pub fn count(mut input: &[u8]) -> usize {
    let mut fields = 0;
    while !input.is_empty() {
        fields += 1;
        match split(input) {
            Some((_, _, rest)) => input = rest,
            None => break,
        }
    }
    fields
}

pub fn answer(state: &[u8], input: &[u8], output: &mut [u8]) -> Ran {
    let mut sheet = Sheet::fresh(SETTINGS);
    match answered(&mut sheet, state, input, output) {
        Ok(written) => ran(0, written, 0),
        Err(refusal) => ran(refusal, 0, 0),
    }
}

pub fn run(state: &[u8], input: &[u8], output: &mut [u8], saved: &mut [u8]) -> Ran {
    if saved.len() < SAVED {
        return ran(14, 0, 0);
    }
    let mut sheet = Sheet::fresh(SETTINGS);
    match answered(&mut sheet, state, input, output) {
        Ok(written) => ran(0, written, sheet.save(saved)),
        Err(refusal) => ran(refusal, 0, 0),
    }
}

pub fn ran(refusal: Refused, written: usize, saved: usize) -> Ran {
    Ran {
        refusal,
        written,
        saved,
    }
}

/// Answers the fields on the sheet that a state saves, which is read into a fresh one, and gives how many bytes it wrote.
fn answered(
    sheet: &mut Sheet,
    state: &[u8],
    input: &[u8],
    output: &mut [u8],
) -> Result<usize, Refused> {
    if output.len() < ANSWER * count(input) {
        return Err(14);
    }
    load(sheet, state)?;
    Ok(read(sheet, input, output))
}

/// Reads a saved sheet, all of whose fields must be accepted edits.
fn load(sheet: &mut Sheet, mut state: &[u8]) -> Result<(), Refused> {
    while !state.is_empty() {
        let (tag, body, rest) = split(state).ok_or(3)?;
        match sheet.take(tag, body)? {
            Asked::Nothing => state = rest,
            _ => return Err(1),
        }
    }
    Ok(())
}

/// Reads the fields, writes their answers and gives how many bytes it wrote.
fn read(sheet: &mut Sheet, mut input: &[u8], output: &mut [u8]) -> usize {
    let mut written = 0;
    while !input.is_empty() {
        let Some((tag, body, rest)) = split(input) else {
            return put(output, written, answers::refused(3));
        };
        written = match sheet.take(tag, body) {
            Ok(Asked::Nothing) => put(output, written, answers::ACCEPTED),
            Ok(Asked::Extremes { station, component }) => {
                let answer = answers::extremes(&sheet.extremes(station, component));
                put(output, written, answer)
            }
            Ok(Asked::Utilisation { station }) => {
                let answer = answers::utilisation(&sheet.utilisation(station));
                put(output, written, answer)
            }
            Err(number) => put(output, written, answers::refused(number)),
        };
        input = rest;
    }
    written
}

/// The tag, the body and what follows a whole field.
#[inline(always)]
fn split(input: &[u8]) -> Option<(u8, &[u8], &[u8])> {
    let (&[tag, high, low], rest) = input.split_first_chunk()?;
    let len = usize::from(u16::from_be_bytes([high, low]));
    if len > 60_000 {
        return None;
    }
    let (body, rest) = rest.split_at_checked(len)?;
    Some((tag, body, rest))
}

/// The argument with which this program is a service.
pub const SERVE: &str = "--serve";

/// Answers the fields of standard input, in blocks, until it ends or a field is cut.
pub fn serve() -> io::Result<()> {
    let mut sheet = Sheet::fresh(SETTINGS);
    let mut input = vec![0; 65_536];
    let mut output = vec![0; 8 * input.len()];
    let mut held = 0;
    loop {
        let got = io::stdin().read(&mut input[held..])?;
        held += got;
        let end = if got == 0 {
            held
        } else {
            whole(&input[..held])
        };
        let written = read(&mut sheet, &input[..end], &mut output);
        io::stdout().write_all(&output[..written])?;
        io::stdout().flush()?;
        if got == 0 {
            return Ok(());
        }
        input.copy_within(end..held, 0);
        held -= end;
    }
}

/// How many bytes the whole fields at the front have.
fn whole(input: &[u8]) -> usize {
    let mut rest = input;
    while let Some((_, _, after)) = split(rest) {
        rest = after;
    }
    input.len() - rest.len()
}
