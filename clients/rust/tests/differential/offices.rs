//! Two offices on one sheet (SCOPE 9.5): with other effects and capacities at some stations, all answers for the other stations and all
//! answers to edits are byte for byte the same, the combinations named included.

use crate::random::Random;
use crate::reference::{fields, read_list, Answer, Sheet, STATIONS};

/// The stations whose effects and capacities a second list has otherwise.
#[derive(Clone, Copy)]
pub enum Varied {
    AllBut(u8),
    Only(u8),
}

impl Varied {
    fn has(self, station: u8) -> bool {
        match self {
            Varied::AllBut(kept) => station != kept,
            Varied::Only(varied) => station == varied,
        }
    }
}

/// Looks with an answer that two lists have: those that are the same, as they must be, and those at varied stations that differ.
#[derive(Clone, Copy, Default)]
pub struct Looks {
    pub same: u64,
    pub differing: u64,
}

impl Looks {
    pub fn add(&mut self, more: Looks) {
        self.same += more.same;
        self.differing += more.differing;
    }
}

/// The station that a tag 06 or 07 of the right length is for.
fn looked_at(field: &[u8]) -> Option<u8> {
    match field {
        [6, 0, 2, station, _] | [7, 0, 1, station] => Some(*station),
        _ => None,
    }
}

/// A station that the list looks at, or any station where it looks at none.
pub fn station(list: &[u8], random: &mut Random) -> u8 {
    let fields = fields(list);
    let stations: Vec<u8> = fields.iter().filter_map(|field| looked_at(field)).collect();
    if stations.is_empty() {
        return random.below(STATIONS as u64) as u8;
    }
    random.pick(&stations)
}

/// The list with other effects and capacities at the varied stations, in the fields that are accepted.
pub fn list(list: &[u8], varied: Varied, random: &mut Random) -> Vec<u8> {
    let mut second = Vec::new();
    read_list(&mut Sheet::fresh(), list, |_, field, answer| {
        let values = match (answer, field) {
            (Answer::Accepted, [3, 0, 8, _, station, ..]) if varied.has(*station) => {
                [0; 3].map(|_| effect(random))
            }
            (Answer::Accepted, [5, 0, 7, station, ..]) if varied.has(*station) => {
                [0; 3].map(|_| capacity(random))
            }
            _ => return second.extend(field),
        };
        second.extend(&field[..field.len() - 6]);
        second.extend(values.iter().flat_map(|value| value.to_be_bytes()));
    });
    second
}

fn effect(random: &mut Random) -> i16 {
    let limit = random.pick(&[1, 20, 500, 10_000]);
    random.between(-limit, limit) as i16
}

fn capacity(random: &mut Random) -> i16 {
    let limit = random.pick(&[1, 20, 500, 10_000]);
    random.between(1, limit) as i16
}

/// Compares the answers to a list with those to the list with other values at the varied stations.
pub fn check(list: &[u8], first: &[u8], second: &[u8], varied: Varied) -> Result<Looks, String> {
    let (list, first, second) = (fields(list), fields(first), fields(second));
    if [first.len(), second.len()] != [list.len(); 2] {
        let (fields, first, second) = (list.len(), first.len(), second.len());
        return Err(format!("{fields} fields have {first} and {second} answers"));
    }
    let mut looks = Looks::default();
    for (number, ((field, first), second)) in (1..).zip(list.iter().zip(&first).zip(&second)) {
        let is_varied = looked_at(field).is_some_and(|station| varied.has(station));
        if first != second && !is_varied {
            return Err(format!("field {number}: another answer by other stations"));
        }
        looks.differing += u64::from(first != second);
        looks.same += u64::from(!is_varied && matches!(first[0], 0x86 | 0x87));
    }
    Ok(looks)
}
