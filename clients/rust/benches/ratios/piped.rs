//! The service through a pipe: fields a second in batches, the round trip of one look, and memory.

use frames::bytes::ANSWER;
use frames::{Component, Field};

use crate::lists;
use crate::measure::{head, interleave, lane, row, time, Clock};
use crate::service::{answered, Service};

const FIELDS: usize = 100_000;

pub fn report() {
    println!("### `frames` through a pipe\n");
    println!("A batch is written by one thread while another reads the answers. By hand is a service too, behind the same pipes.\n");
    let (proved, by_hand) = (&mut Service::proved(), &mut Service::by_hand());
    same_answers(proved, by_hand);
    proved.restore(&lists::filled(8, 16));
    by_hand.restore(&lists::filled(8, 16));
    head(&[
        "8 places filled",
        "proved",
        "by hand",
        "time, proved / by hand",
    ]);
    let edits = lists::edits(FIELDS / 5, 8, 21);
    batch("edits (02, 03, 04, 05), batched", &edits, proved, by_hand);
    let looks = lists::looks(FIELDS / 20, 22);
    batch("looks (06, 07), batched", &looks, proved, by_hand);
    let mixed = lists::mixed(FIELDS / 10, 8, 23);
    let name = "8 edits, a 06 and a 07 in ten, batched";
    batch(name, &mixed, proved, by_hand);
    round_trip(proved, by_hand);
    println!();
}

/// Both services give the same bytes for a list in which every refusal but 3 occurs.
fn same_answers(proved: &mut Service, by_hand: &mut Service) {
    let input = lists::with_refusals(20_000, 20);
    let mut ours = vec![0; answered(&[], &input)];
    let mut theirs = ours.clone();
    proved.batch(&input, &mut ours);
    by_hand.batch(&input, &mut theirs);
    assert_eq!(ours, theirs);
}

fn batch(name: &str, fields: &[Field], proved: &mut Service, by_hand: &mut Service) {
    let input = lists::bytes(fields);
    let mut ours = vec![0; answered(lists::filled(8, 16).save(), &input)];
    let mut theirs = ours.clone();
    let lanes = vec![
        lane(fields.len(), || proved.batch(&input, &mut ours)),
        lane(fields.len(), || by_hand.batch(&input, &mut theirs)),
    ];
    let rounds = interleave(Clock::Passed, 300, lanes);
    assert_eq!(ours, theirs);
    let rate = |lane| format!("{:.2} million/s", 1e3 / rounds.time(lane).median);
    row(&[name, &rate(0), &rate(1), &rounds.ratio(0, 1).shown()]);
}

fn round_trip(proved: &mut Service, by_hand: &mut Service) {
    let look = Field::Extremes {
        station: 3,
        component: Component::My,
    };
    let field = lists::bytes(&[look]);
    let (mut ours, mut theirs) = ([0; ANSWER], [0; ANSWER]);
    let lanes = vec![
        lane(1, || proved.ask(&field, &mut ours)),
        lane(1, || by_hand.ask(&field, &mut theirs)),
    ];
    let rounds = interleave(Clock::Passed, 10_000, lanes);
    assert_eq!(ours, theirs);
    row(&[
        "one 06, written and waited for",
        &time(rounds.time(0).median),
        &time(rounds.time(1).median),
        &rounds.ratio(0, 1).shown(),
    ]);
}

/// What the service holds after 10^5 fields and after 10^7.
pub fn memory() {
    println!("### Memory of `frames`\n");
    let mut service = Service::proved();
    service.restore(&lists::filled(32, 16));
    let fields = lists::mixed(FIELDS, 32, 31);
    let input = lists::bytes(&fields);
    let mut output = vec![0; answered(lists::filled(32, 16).save(), &input)];
    head(&["fields read", "VmRSS", "VmHWM"]);
    for turn in 1..=100 {
        service.batch(&input, &mut output);
        if turn == 1 || turn == 100 {
            row(&[
                &(turn * fields.len()).to_string(),
                &format!("{} kB", service.status("VmRSS")),
                &format!("{} kB", service.status("VmHWM")),
            ]);
        }
    }
    println!();
}
