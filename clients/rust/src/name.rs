use std::fmt;

use crate::bytes;

/// A name of a load case, for drawings: 1 to 24 bytes of any value.
#[derive(Clone, Copy, PartialEq, Eq, Hash)]
pub struct CaseName {
    /// Those after the name are 0, so that equal names have equal bytes.
    bytes: [u8; CaseName::LONGEST],
    len: u8,
}

impl CaseName {
    /// How many bytes a name has at most.
    pub const LONGEST: usize = 24;

    /// The name with these bytes. `None` where there are none, or more than 24.
    pub fn new(name: &[u8]) -> Option<CaseName> {
        if name.is_empty() || name.len() > CaseName::LONGEST {
            return None;
        }
        let mut bytes = [0; CaseName::LONGEST];
        bytes[..name.len()].copy_from_slice(name);
        let len = name.len() as u8;
        Some(CaseName { bytes, len })
    }

    /// The bytes of the name.
    pub fn as_bytes(&self) -> &[u8] {
        &self.bytes[..usize::from(self.len)]
    }
}

impl fmt::Debug for CaseName {
    /// As a string, with escapes for bytes that are not printed.
    fn fmt(&self, f: &mut fmt::Formatter<'_>) -> fmt::Result {
        write!(f, "\"{}\"", self.as_bytes().escape_ascii())
    }
}

/// The name of a case in a file of fields, for drawings: that part of the file itself. `None` where the file has no name for the case,
/// and for a case above 31.
///
/// It is the name in the last [`Field::NameCase`](crate::Field::NameCase) for the case, as far as the fields of the file are whole; a
/// length above 60,000 ends them. Fields of every other tag are passed over, whether a sheet would accept them or not.
///
/// ```
/// use frames::{case_name, CaseName, Field, Kind, Sheet};
///
/// let mut file = Vec::new();
/// let mut name = |case, name: &str| {
///     let name = CaseName::new(name.as_bytes()).expect("1 to 24 bytes");
///     Field::NameCase { case, name }.encode(&mut file);
/// };
/// name(0, "Dead");
/// name(1, "Snow");
/// name(0, "Dead load");
/// Field::AddCase { case: 0, kind: Kind::Dead }.encode(&mut file);
/// assert_eq!(case_name(&file, 0), Some(&b"Dead load"[..]));
/// assert_eq!(case_name(&file, 1), Some(&b"Snow"[..]));
/// assert_eq!(case_name(&file, 2), None);
///
/// // The same file makes a sheet, which holds no names.
/// let sheet = Sheet::load(&file).unwrap();
/// assert_eq!(sheet.kind(0), Some(Kind::Dead));
/// assert_eq!(case_name(sheet.save(), 0), None);
/// ```
pub fn case_name(file: &[u8], case: u8) -> Option<&[u8]> {
    let place = bytes::name_place(file, case)?;
    Some(&file[place])
}
