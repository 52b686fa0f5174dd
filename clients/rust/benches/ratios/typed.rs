//! One call of the typed `Sheet`: load, field and, for an edit, save. This is what the boundary itself costs.

use std::hint::black_box;
use std::mem::swap;

use frames::bytes::{answer, ANSWER, SAVED};
use frames::{Field, Sheet};

use crate::by_hand;
use crate::lists;
use crate::measure::{head, interleave, lane, row, time, Clock, Lane};

const CALLS: usize = 50;
const FIELDS: usize = 2_000;

pub fn report() {
    println!("### One typed call of the Rust `Sheet`\n");
    println!("A call loads the saved sheet, reads one field and, for an edit, saves the sheet. By hand does the same on the same bytes.\n");
    head(&[
        "call",
        "saved sheet",
        "proved",
        "by hand",
        "proved / by hand",
        "over the same field in a list",
    ]);
    for (places, stations) in [(8, 4), (8, 16), (32, 4), (32, 16)] {
        let sheet = lists::filled(places, stations);
        let with = format!("{places} places, {stations} stations");
        let edits = lists::effects(FIELDS, places, stations, 11);
        compare(&format!("set_effects, {with}"), &sheet, &edits);
        let extremes = lists::extremes(FIELDS, stations, 12);
        compare(&format!("extremes, {with}"), &sheet, &extremes);
        let utilisations = lists::utilisations(FIELDS, stations, 13);
        compare(&format!("utilisation, {with}"), &sheet, &utilisations);
    }
    println!();
}

fn compare(name: &str, sheet: &Sheet, fields: &[Field]) {
    let input = lists::bytes(fields);
    let mut output = vec![0; ANSWER * fields.len()];
    let list = lane(fields.len(), || {
        answer(black_box(sheet.save()), black_box(&input), &mut output).unwrap();
    });
    let calls = &fields[..CALLS];
    let lanes = vec![typed(sheet.clone(), calls), hand(sheet, calls), list];
    let rounds = interleave(Clock::Thread, 100, lanes);
    row(&[
        name,
        &format!("{} bytes", sheet.save().len()),
        &time(rounds.time(0).median),
        &time(rounds.time(1).median),
        &rounds.ratio(0, 1).shown(),
        &rounds.ratio(0, 2).shown(),
    ]);
}

fn typed(mut sheet: Sheet, fields: &[Field]) -> Lane<'_> {
    lane(fields.len(), move || {
        for field in fields {
            match *black_box(field) {
                Field::Extremes { station, component } => {
                    black_box(sheet.extremes(station, component).unwrap());
                }
                Field::Utilisation { station } => {
                    black_box(sheet.utilisation(station).unwrap());
                }
                Field::SetEffects {
                    case,
                    station,
                    effects,
                } => sheet.set_effects(case, station, effects).unwrap(),
                _ => unreachable!(),
            }
        }
    })
}

/// The same by hand on the same saved bytes.
fn hand<'a>(sheet: &Sheet, fields: &[Field]) -> Lane<'a> {
    let fields: Vec<_> = fields
        .iter()
        .map(|&f| (lists::is_look(f), lists::bytes(&[f])))
        .collect();
    let mut state = sheet.save().to_vec();
    let mut len = state.len();
    state.resize(SAVED, 0);
    let mut next = state.clone();
    let mut output = [0; ANSWER];
    lane(fields.len(), move || {
        for (look, field) in &fields {
            if *look {
                by_hand::answer(black_box(&state[..len]), field, &mut output);
            } else {
                len = by_hand::run(&state[..len], field, &mut output, &mut next).saved;
                swap(&mut state, &mut next);
            }
            black_box(&output);
        }
    })
}
