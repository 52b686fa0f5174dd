//! The reference as a program, without the library: answers the fields of standard input, then writes the saved sheet after them.
//! `tests/reference` compares it with the model in Python.

#[allow(dead_code)]
mod combination;
#[allow(dead_code)]
mod reference;

use std::io::{self, Read, Write};

fn main() -> io::Result<()> {
    let mut input = Vec::new();
    io::stdin().read_to_end(&mut input)?;
    let mut sheet = reference::Sheet::fresh();
    let mut output = Vec::new();
    reference::read_list(&mut sheet, &input, |_, _, answer| {
        output.extend(answer.bytes());
    });
    output.extend(reference::save(&sheet));
    io::stdout().write_all(&output)
}
