//! A sheet after 100,000 edits against the same sheet loaded fresh.

use std::hint::black_box;

use frames::bytes::{answer, run, ANSWER, SAVED};
use frames::{Field, Sheet};

use crate::lists;
use crate::measure::{head, interleave, lane, row, Clock};
use crate::service::{answered, Service};

const PLACES: u8 = 32;
const EDITS: usize = 100_000;
const FIELDS: usize = 10_000;

pub fn report() {
    println!("### After {EDITS} edits, against the same sheet loaded fresh\n");
    head(&["fields, 32 places filled", "time, after the edits / fresh"]);
    let edits = lists::edits(EDITS, PLACES, 41);
    let edited = edited(&edits);
    let fresh = Sheet::load(&edited).expect("a saved sheet");
    assert_eq!(fresh.save(), edited);
    let lists = [
        ("looks (06, 07)", lists::looks(FIELDS, 42)),
        ("edits", lists::edits(FIELDS, PLACES, 43)),
    ];
    for (name, fields) in &lists {
        in_library(&format!("{name}, library"), fields, &edited, fresh.save());
    }
    let (old, new) = (&mut Service::proved(), &mut Service::proved());
    let start = lists::filled(PLACES, 16);
    old.restore(&start);
    let input = lists::bytes(&edits);
    old.batch(&input, &mut vec![0; answered(start.save(), &input)]);
    new.restore(&fresh);
    for (name, fields) in &lists {
        in_service(&format!("{name}, `frames`"), fields, fresh.save(), old, new);
    }
    println!();
}

/// The saved bytes after the edits, which are made in lists of 1,000, each on what the one before saved.
fn edited(edits: &[Field]) -> Vec<u8> {
    let mut state = lists::filled(PLACES, 16).save().to_vec();
    let mut saved = [0; SAVED];
    let mut output = vec![0; ANSWER * 1_000];
    for list in edits.chunks(1_000) {
        let input = lists::bytes(list);
        let written = run(&state, &input, &mut output, &mut saved).expect("a saved sheet");
        state = saved[..written.saved].to_vec();
    }
    state
}

fn in_library(name: &str, fields: &[Field], edited: &[u8], fresh: &[u8]) {
    let input = lists::bytes(fields);
    let mut after = vec![0; ANSWER * fields.len()];
    let mut before = after.clone();
    let lanes = vec![
        lane(fields.len(), || {
            answer(black_box(edited), black_box(&input), &mut after).unwrap();
        }),
        lane(fields.len(), || {
            answer(black_box(fresh), black_box(&input), &mut before).unwrap();
        }),
    ];
    let rounds = interleave(Clock::Thread, 100, lanes);
    assert_eq!(after, before);
    row(&[name, &rounds.ratio(0, 1).shown()]);
}

fn in_service(name: &str, fields: &[Field], state: &[u8], old: &mut Service, new: &mut Service) {
    let input = lists::bytes(fields);
    let mut after = vec![0; answered(state, &input)];
    let mut before = after.clone();
    let lanes = vec![
        lane(fields.len(), || old.batch(&input, &mut after)),
        lane(fields.len(), || new.batch(&input, &mut before)),
    ];
    let rounds = interleave(Clock::Passed, 100, lanes);
    assert_eq!(after, before);
    row(&[name, &rounds.ratio(0, 1).shown()]);
}
