//! Shrinks a failing list to a short one that still fails, and prints it.

use crate::reference::{fields, read_list, Sheet, PLACES, STATIONS};

/// What is tested with a list: a name, the check, and the answers for the printed report.
pub struct Subject<'a> {
    pub name: &'a str,
    pub check: &'a dyn Fn(&[u8]) -> Result<(), String>,
    pub answers: &'a dyn Fn(&[u8]) -> Vec<u8>,
}

type Fields = Vec<Vec<u8>>;

/// A list that fails, with the number of checks that shrinking may still use.
struct Shrinking<'a> {
    fields: Fields,
    subject: &'a Subject<'a>,
    checks_left: u32,
}

/// A short list that still fails.
pub fn shrink(list: &[u8], subject: &Subject) -> Vec<u8> {
    let mut shrinking = Shrinking {
        fields: fields(list).into_iter().map(<[u8]>::to_vec).collect(),
        subject,
        checks_left: 20_000,
    };
    loop {
        let before = shrinking.fields.clone();
        shrinking.drop_fields();
        shrinking.lower_places_and_stations();
        shrinking.shorten_bodies();
        shrinking.lower_numbers();
        if shrinking.fields == before {
            return shrinking.fields.concat();
        }
    }
}

impl Shrinking<'_> {
    /// Takes the candidate if it is different and still fails.
    fn take(&mut self, candidate: Fields) -> bool {
        if candidate == self.fields || self.checks_left == 0 {
            return false;
        }
        self.checks_left -= 1;
        let fails = (self.subject.check)(&candidate.concat()).is_err();
        if fails {
            self.fields = candidate;
        }
        fails
    }

    /// Drops runs of fields: halves first, then shorter runs, at last single fields.
    fn drop_fields(&mut self) {
        let mut run = self.fields.len().div_ceil(2);
        while run > 0 {
            let mut at = 0;
            while at < self.fields.len() {
                let end = (at + run).min(self.fields.len());
                let mut candidate = self.fields.clone();
                candidate.drain(at..end);
                if !self.take(candidate) {
                    at += run;
                }
            }
            run /= 2;
        }
    }

    /// Gives a case or a station a lower number in all fields at once.
    fn lower_places_and_stations(&mut self) {
        for (is_place, count) in [(true, PLACES), (false, STATIONS)] {
            for from in 1..count as u8 {
                for to in 0..from {
                    let candidate = renumbered(&self.fields, is_place, from, to);
                    if self.take(candidate) {
                        break;
                    }
                }
            }
        }
    }

    /// Halves bodies that are longer than any of tags 01 to 09.
    fn shorten_bodies(&mut self) {
        for at in 0..self.fields.len() {
            while self.fields[at].len() > 11 {
                let mut candidate = self.fields.clone();
                let field = &mut candidate[at];
                field.truncate(3 + (field.len() - 3) / 2);
                let length = field.len() as u16 - 3;
                field[1..3].copy_from_slice(&length.to_be_bytes());
                if !self.take(candidate) {
                    break;
                }
            }
        }
    }

    /// Lowers single numbers of bodies towards 0.
    fn lower_numbers(&mut self) {
        for at in 0..self.fields.len() {
            for (offset, width) in numbers(&self.fields[at]) {
                let mut lowered = true;
                while lowered {
                    lowered = lower_values(&self.fields[at], offset, width)
                        .into_iter()
                        .any(|field| {
                            let mut candidate = self.fields.clone();
                            candidate[at] = field;
                            self.take(candidate)
                        });
                }
            }
        }
    }
}

/// Where the numbers of a field lie: offset and width in bytes.
fn numbers(field: &[u8]) -> Vec<(usize, usize)> {
    let two_byte_numbers_from = match (field.first(), field.len()) {
        (Some(3), 11) => 5,
        (Some(5), 10) => 4,
        (Some(9), 5) => 3,
        _ => field.len().min(20),
    };
    let single = (3..two_byte_numbers_from).map(|offset| (offset, 1));
    let double = (two_byte_numbers_from..field.len().min(20)).step_by(2);
    single.chain(double.map(|offset| (offset, 2))).collect()
}

/// The field with the number at `offset` lowered towards 0: first by all of it, then by half of
/// it, and so on down to 1.
fn lower_values(field: &[u8], offset: usize, width: usize) -> Fields {
    let number = match width {
        1 => i64::from(field[offset]),
        _ => i64::from(i16::from_be_bytes([field[offset], field[offset + 1]])),
    };
    (0..16)
        .map(|halvings| number / (1 << halvings))
        .take_while(|step| *step != 0)
        .map(|step| {
            let mut changed = field.to_vec();
            let bytes = (number - step).to_be_bytes();
            changed[offset..offset + width].copy_from_slice(&bytes[8 - width..]);
            changed
        })
        .collect()
}

/// The fields with one case number, or one station number, replaced throughout.
fn renumbered(fields: &Fields, is_place: bool, from: u8, to: u8) -> Fields {
    let mut fields = fields.clone();
    for field in &mut fields {
        let offset = match (field.first(), is_place) {
            (Some(2..=4 | 0x60), true) | (Some(5..=7), false) => 3,
            (Some(3), false) => 4,
            _ => continue,
        };
        if field.get(offset) == Some(&from) {
            field[offset] = to;
        }
    }
    fields
}

/// Shrinks the list and prints it with the reference's answers and the subject's.
pub fn report(list: &[u8], reason: &str, subject: &Subject, seed: u64) {
    println!("difference: {} (seed {seed})", subject.name);
    println!("  as found: {reason}");
    let list = shrink(list, subject);
    let reason = (subject.check)(&list).err().unwrap_or_default();
    println!("  shrunk:   {reason}");
    let answers = (subject.answers)(&list);
    let mut rest = &answers[..];
    read_list(&mut Sheet::fresh(), &list, |_, field, expected| {
        println!("  field     {}", hexadecimal(field));
        println!("  expected  {}", hexadecimal(&expected.bytes()));
        let length = fields(rest).first().map_or(0, |answer| answer.len());
        let (got, after) = rest.split_at(length);
        rest = after;
        println!("  got       {}", hexadecimal(got));
    });
    if !rest.is_empty() {
        println!("  more      {}", hexadecimal(rest));
    }
}

pub fn hexadecimal(bytes: &[u8]) -> String {
    let shown: Vec<String> = bytes
        .iter()
        .take(40)
        .map(|byte| format!("{byte:02X}"))
        .collect();
    match bytes.len() {
        0..=40 => shown.join(" "),
        length => format!("{} ... ({length} bytes)", shown.join(" ")),
    }
}
