//! The pair of extremes (SCOPE 4.7): with the sign of every effect turned, the maximum is the former minimum with its sign turned,
//! and the reverse. Which combination an answer names is free.

use crate::compare::long;
use crate::reference::{fields, Sheet};

/// The sheet with the sign of every effect turned.
pub fn turned(sheet: &Sheet) -> Sheet {
    let mut turned = sheet.clone();
    for case in turned.places.iter_mut().flatten() {
        case.effects = case.effects.map(|effects| effects.map(|effect| -effect));
    }
    turned
}

/// The list with the sign of every effect turned. A field that is refused for its effects stays as it is.
pub fn turned_list(list: &[u8]) -> Vec<u8> {
    let fields = fields(list);
    fields
        .iter()
        .flat_map(|field| turned_field(field))
        .collect()
}

fn turned_field(field: &[u8]) -> Vec<u8> {
    let [3, 0, 8, case, station, effects @ ..] = field else {
        return field.to_vec();
    };
    let effects: Vec<i16> = effects
        .chunks_exact(2)
        .map(|bytes| i16::from_be_bytes([bytes[0], bytes[1]]))
        .collect();
    let within = |effect: &i16| (-10_000..=10_000).contains(effect);
    if effects.len() != 3 || !effects.iter().all(within) {
        return field.to_vec();
    }
    let mut turned = vec![3, 0, 8, *case, *station];
    turned.extend(effects.iter().flat_map(|effect| (-effect).to_be_bytes()));
    turned
}

/// Compares the answers to a list of so many fields with those that it gets with the sign of every effect turned; returns how many
/// of them are extremes.
pub fn check(count: usize, answers: &[u8], turned: &[u8]) -> Result<u64, String> {
    let (answers, turned) = (fields(answers), fields(turned));
    if (answers.len(), turned.len()) != (count, count) {
        let (answers, turned) = (answers.len(), turned.len());
        return Err(format!(
            "{count} fields have {answers} answers, turned {turned}"
        ));
    }
    for (number, (first, second)) in (1..).zip(answers.iter().zip(&turned)) {
        answer(first, second).map_err(|reason| format!("field {number}, turned: {reason}"))?;
    }
    let extremes = answers.iter().filter(|answer| answer[0] == 0x86);
    Ok(extremes.count() as u64)
}

/// Compares an answer with the one to the same field where the sign of every effect is turned.
fn answer(first: &[u8], second: &[u8]) -> Result<(), String> {
    let same = match (first, second) {
        ([0x86, 0, 34, a @ ..], [0x86, 0, 34, b @ ..]) if a.len() == 34 && b.len() == 34 => {
            return extremes(a, b);
        }
        // Numerator, denominator and verdict: a utilisation is of absolute values (SCOPE 4.5).
        ([0x87, 0, 26, a @ ..], [0x87, 0, 26, b @ ..]) if a.len() == 26 && b.len() == 26 => {
            a[..17] == b[..17]
        }
        _ => first == second,
    };
    if same {
        return Ok(());
    }
    Err("a different answer".into())
}

fn extremes(first: &[u8], second: &[u8]) -> Result<(), String> {
    let of = |body: &[u8]| (long(&body[..8]), long(&body[17..25]));
    let (maximum, minimum) = of(first);
    let (due, found) = ((-minimum, -maximum), of(second));
    if found == due {
        return Ok(());
    }
    Err(format!(
        "maximum and minimum are {found:?}, not {due:?}, which is {:?} turned",
        (maximum, minimum)
    ))
}
