//! The name of a case in a large file, found as the drawing office does it: one pass over the file.

use std::hint::black_box;

use frames::bytes::name_place;

use crate::by_hand;
use crate::lists;
use crate::measure::{head, interleave, lane, row, time, Clock};

const BYTES: usize = 10_000_000;
const ROUNDS: usize = 100;

/// The case whose name is looked for. The file has many names for each case.
pub const CASE: u8 = 7;

pub fn report() {
    println!("### The name of a case, in a file of 10 MB\n");
    println!("Seven fields in ten are effects (03), the others edits (02, 04, 05), looks (06, 07) and names (60).");
    println!("Each side goes over the whole file, since the last name for the case counts. The file is larger than the caches of a core.");
    println!("The copy is into a cleared buffer.\n");
    head(&[
        "file",
        "proved",
        "by hand",
        "proved / by hand",
        "proved, in copies of the file",
    ]);
    let file = lists::file(BYTES);
    let fields = by_hand::count(&file);
    let mut copy = vec![0; file.len()];
    let (mut ours, mut theirs) = (None, None);
    let lanes = vec![
        lane(1, || ours = name_place(black_box(&file), CASE)),
        lane(1, || theirs = by_hand::name(black_box(&file), CASE)),
        lane(1, || {
            copy.copy_from_slice(black_box(&file));
            black_box(&copy);
        }),
    ];
    let rounds = interleave(Clock::Thread, ROUNDS, lanes);
    assert!(ours.is_some(), "the file names case {CASE}");
    assert_eq!(ours, theirs);
    row(&[
        &format!("{fields} fields"),
        &time(rounds.time(0).median),
        &time(rounds.time(1).median),
        &rounds.ratio(0, 1).shown(),
        &rounds.ratio(0, 2).shown(),
    ]);
    let copied = time(rounds.time(2).median);
    println!("\nA copy of the file ({} bytes): {copied}.\n", file.len());
}
