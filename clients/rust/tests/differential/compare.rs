//! Compares answers with the reference's. Which combination an answer names is free, so that part
//! is checked by the definition (SCOPE 4); everything else is compared byte for byte.

use crate::combination::{admissible, factored_effects, numerator, open_rows, Combination};
use crate::reference::{read_list, Answer, Extreme, Sheet};

/// Compares the answers to a whole list that is read from `sheet` on.
pub fn list(sheet: &mut Sheet, input: &[u8], output: &[u8]) -> Result<(), String> {
    let mut result = Ok(());
    let mut rest = output;
    let mut number = 0;
    read_list(sheet, input, |sheet, field, expected| {
        number += 1;
        if result.is_err() {
            return;
        }
        let length = expected.bytes().len().min(rest.len());
        let (got, after) = rest.split_at(length);
        rest = after;
        result = answer(sheet, field, expected, got)
            .map_err(|reason| format!("field {number}: {reason}"));
    });
    result?;
    if !rest.is_empty() {
        return Err(format!("{} bytes after the last answer", rest.len()));
    }
    Ok(())
}

/// Compares one answer; `sheet` is the sheet after the field.
fn answer(sheet: &Sheet, field: &[u8], expected: &Answer, got: &[u8]) -> Result<(), String> {
    let bytes = expected.bytes();
    if got == bytes {
        return Ok(());
    }
    if got.len() != bytes.len() || got[..3] != bytes[..3] {
        return Err("a different answer".into());
    }
    let station = usize::from(field[3]);
    match expected {
        Answer::Extremes { maximum, minimum } => {
            let component = usize::from(field[4]);
            let (first, second) = got[3..].split_at(17);
            extreme(sheet, station, component, maximum, first)
                .map_err(|reason| format!("maximum: {reason}"))?;
            extreme(sheet, station, component, minimum, second)
                .map_err(|reason| format!("minimum: {reason}"))
        }
        Answer::Utilisation { numerator: top, .. } => {
            if got[3..20] != bytes[3..20] {
                return Err("a different numerator, denominator or verdict".into());
            }
            let capacities = sheet.capacities[station].ok_or("no capacity")?;
            let factored = checked(sheet, station, named(&got[20..]))?;
            reaches(numerator(factored, capacities), *top)
        }
        Answer::Accepted | Answer::Refused(_) => Err("a different answer".into()),
    }
}

/// Compares a maximum or minimum with its row, acting and low cases.
fn extreme(
    sheet: &Sheet,
    station: usize,
    component: usize,
    expected: &Extreme,
    got: &[u8],
) -> Result<(), String> {
    let (value, combination) = got.split_at(8);
    if long(value) != expected.value {
        return Err(format!("{}, not {}", long(value), expected.value));
    }
    let factored = checked(sheet, station, named(combination))?;
    reaches(factored[component], expected.value)
}

/// The factored effects of a named combination, which must be admissible.
fn checked(sheet: &Sheet, station: usize, named: Combination) -> Result<[i128; 3], String> {
    let Combination { row, acting, low } = named;
    let rows = open_rows(sheet);
    let row = rows
        .iter()
        .find(|open| open.number == row)
        .ok_or("the named row is not open")?;
    admissible(sheet, row, acting, low)?;
    Ok(factored_effects(sheet, row, acting, low, station))
}

fn reaches(reached: i128, stated: i128) -> Result<(), String> {
    if reached == stated {
        return Ok(());
    }
    Err(format!(
        "the named combination gives {reached}, not {stated}"
    ))
}

/// The combination in the last nine bytes of an answer: row, acting cases, low Hp cases.
fn named(bytes: &[u8]) -> Combination {
    let set = |at: usize| u32::from_be_bytes([0, 1, 2, 3].map(|offset| bytes[at + offset]));
    Combination {
        row: bytes[0],
        acting: set(1),
        low: set(5),
    }
}

pub fn long(bytes: &[u8]) -> i128 {
    let bytes = bytes.try_into().expect("eight bytes");
    i128::from(i64::from_be_bytes(bytes))
}

/// Checks the reference's own combinations, so that its answers are held to the same definition.
pub fn own_combinations(sheet: &Sheet, field: &[u8], answer: &Answer) -> Result<(), String> {
    let station = || usize::from(field[3]);
    match answer {
        Answer::Extremes { maximum, minimum } => {
            for end in [maximum, minimum] {
                let factored = checked(sheet, station(), end.combination)?;
                reaches(factored[usize::from(field[4])], end.value)?;
            }
            Ok(())
        }
        Answer::Utilisation {
            numerator: top,
            combination,
            ..
        } => {
            let capacities = sheet.capacities[station()].ok_or("no capacity")?;
            let factored = checked(sheet, station(), *combination)?;
            reaches(numerator(factored, capacities), *top)
        }
        Answer::Accepted | Answer::Refused(_) => Ok(()),
    }
}
