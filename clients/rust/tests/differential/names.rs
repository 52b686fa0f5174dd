//! One file for the service and for the drawing office (SCOPE 9.7): without its names a file makes the same sheet, and the answers to its
//! other fields are the same.

use crate::reference::{fields, first_field, named};

/// The fields that a second file is without.
#[derive(Clone, Copy)]
pub enum LeftOut {
    /// Names: those that a reading accepts.
    Names,
    /// Those that are refused with 2 or 5 too.
    Whole,
    /// One that is cut, or longer than 60,000, too: it is the last of the file.
    Every,
}

impl LeftOut {
    pub const ALL: [LeftOut; 3] = [LeftOut::Names, LeftOut::Whole, LeftOut::Every];

    fn has(self, field: &[u8]) -> bool {
        match self {
            LeftOut::Names => named(field).is_some(),
            LeftOut::Whole => field[0] == 0x60 && first_field(field).is_some(),
            LeftOut::Every => field[0] == 0x60,
        }
    }
}

/// The file without these fields: all its other bytes, in their order.
pub fn without(file: &[u8], left_out: LeftOut) -> Vec<u8> {
    let mut fields = fields(file);
    fields.retain(|field| !left_out.has(field));
    fields.concat()
}

/// Compares the answers to a file with those to the file without these fields; returns how many were left out.
pub fn check(file: &[u8], first: &[u8], second: &[u8], left_out: LeftOut) -> Result<u64, String> {
    let (file, first) = (fields(file), fields(first));
    if first.len() != file.len() {
        let (fields, answers) = (file.len(), first.len());
        return Err(format!("{fields} fields have {answers} answers"));
    }
    let others = file.iter().zip(&first);
    let others = others.filter(|(field, _)| !left_out.has(field));
    let others: Vec<&[u8]> = others.map(|(_, answer)| *answer).collect();
    if others.concat() != second {
        return Err("the other fields are answered differently without names".into());
    }
    Ok((file.len() - others.len()) as u64)
}
