//! Lists of fields in one call: the proved library against plain Rust written for speed.

use std::hint::black_box;

use frames::bytes::{answer, ANSWER};
use frames::{Field, Sheet};

use crate::by_hand;
use crate::lists;
use crate::measure::{head, interleave, lane, row, time, Clock};

const FIELDS: usize = 10_000;

pub fn report() {
    println!("### One field, in a list of {FIELDS} in one call\n");
    println!("By hand is plain safe Rust in i64, written for speed.");
    println!("Both sides load the saved sheet, test the room for the answers and answer the list; nothing is subtracted.\n");
    head(&[
        "field",
        "proved",
        "by hand",
        "proved / by hand",
        "proved, in copies of the sheet",
    ]);
    for places in [8, 32] {
        let state = lists::filled(places, 16);
        let edits = lists::edits(FIELDS, places, 1);
        compare("edit (02, 03, 04, 05)", places, &state, &edits, 300);
        let effects = lists::effects(FIELDS, places, 16, 2);
        compare("edit (03)", places, &state, &effects, 300);
        let extremes = lists::extremes(FIELDS, 16, 3);
        compare("06, the extremes", places, &state, &extremes, 200);
        let utilisations = lists::utilisations(FIELDS, 16, 4);
        compare("07, the utilisation", places, &state, &utilisations, 100);
    }
    copied();
}

fn compare(name: &str, places: u8, state: &Sheet, fields: &[Field], rounds: usize) {
    let state = state.save();
    let input = lists::bytes(fields);
    let mut ours = vec![0; ANSWER * fields.len()];
    let mut theirs = ours.clone();
    let mut copies = Copies::new();
    let lanes = vec![
        lane(fields.len(), || {
            answer(black_box(state), black_box(&input), &mut ours).unwrap();
        }),
        lane(fields.len(), || {
            by_hand::answer(black_box(state), black_box(&input), &mut theirs);
        }),
        lane(FIELDS, || copies.make()),
    ];
    let rounds = interleave(Clock::Thread, rounds, lanes);
    assert_eq!(ours, theirs);
    row(&[
        &format!("{name}, {places} places filled"),
        &time(rounds.time(0).median),
        &time(rounds.time(1).median),
        &rounds.ratio(0, 1).shown(),
        &rounds.ratio(0, 2).shown(),
    ]);
}

/// A sheet that begins a cache line.
#[repr(align(64))]
struct Aligned(by_hand::Sheet);

/// Two sheets, one to copy over the other. They stand together, since their distance has an effect on the time.
struct Copies(Box<[Aligned; 2]>);

impl Copies {
    fn new() -> Copies {
        let sheet = by_hand::Sheet::fresh(by_hand::SETTINGS);
        Copies(Box::new([Aligned(sheet), Aligned(sheet)]))
    }

    fn make(&mut self) {
        let [from, to] = &mut *self.0;
        for _ in 0..FIELDS {
            black_box(&mut *to).0 = black_box(&*from).0;
        }
        black_box(to);
    }
}

fn copied() {
    let mut copies = Copies::new();
    let rounds = interleave(Clock::Thread, 300, vec![lane(FIELDS, || copies.make())]);
    let bytes = size_of::<by_hand::Sheet>();
    let time = time(rounds.time(0).median);
    println!("\nA copy of the sheet ({bytes} bytes): {time}.\n");
}
