//! Checks of the library's functions: answers, saved states, chains, refusals of a whole call, names in a file.

use frames::raw::{frames_answer, frames_count, frames_name, frames_run, Place, Ran};

use crate::compare;
use crate::lists::field;
use crate::names::{self, LeftOut};
use crate::offices::{self, Looks, Varied};
use crate::pair;
use crate::random::Random;
use crate::reference::{self, fields, Sheet, LONGEST_ANSWER, SAVED_ROOM, STATIONS};
use crate::shrink::hexadecimal;

type Check = Result<(), String>;

/// What a call returned, and the buffers after it.
struct Called {
    refusal: u8,
    written: usize,
    saved: usize,
    output: Vec<u8>,
    saved_to: Vec<u8>,
}

/// What a buffer holds before a call: no byte value is frequent, so that a write shows.
fn untouched(length: usize) -> Vec<u8> {
    (0..length)
        .map(|at| (at * 151 + at / 256 + 90) as u8)
        .collect()
}

fn call_run(state: &[u8], input: &[u8], output_length: usize, saved_length: usize) -> Called {
    let mut output = untouched(output_length);
    let mut saved_to = untouched(saved_length);
    // Each pointer and length is that of a slice; the two written ones are buffers of their own.
    let ran = unsafe {
        frames_run(
            state.as_ptr(),
            state.len(),
            input.as_ptr(),
            input.len(),
            output.as_mut_ptr(),
            output.len(),
            saved_to.as_mut_ptr(),
            saved_to.len(),
        )
    };
    called(ran, output, saved_to)
}

fn call_answer(state: &[u8], input: &[u8], output_length: usize) -> Called {
    let mut output = untouched(output_length);
    // Each pointer and length is that of a slice; the written one is a buffer of its own.
    let ran = unsafe {
        frames_answer(
            state.as_ptr(),
            state.len(),
            input.as_ptr(),
            input.len(),
            output.as_mut_ptr(),
            output.len(),
        )
    };
    called(ran, output, Vec::new())
}

fn call_name(file: &[u8], case: u8) -> Place {
    // The pointer and length are those of a slice.
    unsafe { frames_name(file.as_ptr(), file.len(), case) }
}

fn called(ran: Ran, output: Vec<u8>, saved_to: Vec<u8>) -> Called {
    Called {
        refusal: ran.refusal,
        written: ran.written,
        saved: ran.saved,
        output,
        saved_to,
    }
}

/// The least output length with which a run of the input is not refused.
fn output_length(input: &[u8]) -> usize {
    LONGEST_ANSWER * fields(input).len()
}

fn require(holds: bool, reason: impl FnOnce() -> String) -> Check {
    if holds {
        Ok(())
    } else {
        Err(reason())
    }
}

/// The bytes of a buffer after the first `used` must be as they were before the call.
fn require_untouched(what: &str, buffer: &[u8], used: usize) -> Check {
    require(used <= buffer.len(), || {
        format!("{what}: {used} bytes stated of {}", buffer.len())
    })?;
    require(buffer[used..] == untouched(buffer.len())[used..], || {
        format!("{what}: a byte after the first {used} was written")
    })
}

/// Compares a call that must not be refused; `start` is the sheet it starts from.
fn require_answers(called: &Called, start: &Sheet, input: &[u8], saves: bool) -> Check {
    require(called.refusal == 0, || {
        format!("the call was refused with {}", called.refusal)
    })?;
    require_untouched("output", &called.output, called.written)?;
    require_untouched("saved", &called.saved_to, called.saved)?;
    let mut sheet = start.clone();
    compare::list(&mut sheet, input, &called.output[..called.written])?;
    let expected = if saves {
        reference::save(&sheet)
    } else {
        Vec::new()
    };
    require(called.saved_to[..called.saved] == expected, || {
        "the saved sheet is different".into()
    })
}

/// Compares a call that must be refused with `number`.
fn require_refused(called: &Called, number: u8) -> Check {
    let got = (called.refusal, called.written, called.saved);
    require(got == (number, 0, 0), || {
        format!("the call returned {got:?}, not ({number}, 0, 0)")
    })?;
    require_untouched("output", &called.output, 0)?;
    require_untouched("saved", &called.saved_to, 0)
}

/// Compares `frames_run` with the reference, whatever is due.
fn check_run(state: &[u8], input: &[u8], output_length: usize, saved_length: usize) -> Check {
    let called = call_run(state, input, output_length, saved_length);
    match reference::start(state, input, output_length, saved_length) {
        Ok(start) => require_answers(&called, &start, input, true),
        Err(number) => require_refused(&called, number),
    }
    .map_err(|reason| {
        let lengths = format!("output {output_length}, saved {saved_length}");
        format!("frames_run, {lengths}, {}: {reason}", shown(state))
    })
}

/// Compares `frames_answer` with the reference, whatever is due.
fn check_answer(state: &[u8], input: &[u8], output_length: usize) -> Check {
    let called = call_answer(state, input, output_length);
    match reference::start(state, input, output_length, SAVED_ROOM) {
        Ok(start) => require_answers(&called, &start, input, false),
        Err(number) => require_refused(&called, number),
    }
    .map_err(|reason| {
        let lengths = format!("output {output_length}");
        format!("frames_answer, {lengths}, {}: {reason}", shown(state))
    })
}

fn shown(state: &[u8]) -> String {
    match state {
        [] => "state empty".into(),
        _ => format!("state {}", hexadecimal(state)),
    }
}

/// The answers of the library to a list on a fresh sheet, for a report.
pub fn answers(input: &[u8]) -> Vec<u8> {
    let mut called = call_run(&[], input, output_length(input), SAVED_ROOM);
    called.output.truncate(called.written);
    called.output
}

/// A list on a fresh sheet, with room left in both buffers.
pub fn check_list(input: &[u8]) -> Check {
    check_run(&[], input, output_length(input) + 50, SAVED_ROOM + 20)
}

/// `frames_answer` gives what `frames_run` gives, and `frames_count` the number of answers.
pub fn check_answer_and_count(input: &[u8]) -> Check {
    let length = output_length(input) + 50;
    let run = call_run(&[], input, length, SAVED_ROOM);
    let answer = call_answer(&[], input, length);
    require((answer.refusal, answer.saved) == (0, 0), || {
        format!(
            "frames_answer: {} and {} saved",
            answer.refusal, answer.saved
        )
    })?;
    require(
        run.written == answer.written && run.output == answer.output,
        || "frames_answer and frames_run write different bytes".into(),
    )?;
    // The pointer and length are those of a slice.
    let count = unsafe { frames_count(input.as_ptr(), input.len()) };
    require(count == fields(input).len(), || {
        format!("frames_count: {count}, not {}", fields(input).len())
    })
}

/// The list in pieces, each from the saved state of the one before, gives what one run gives.
pub fn check_chain(input: &[u8], seed: u64) -> Check {
    let mut random = Random::new(seed);
    let fields = fields(input);
    let mut cuts: Vec<usize> = (0..random.between(1, 6))
        .map(|_| random.below(fields.len() as u64 + 1) as usize)
        .collect();
    cuts.push(fields.len());
    cuts.sort_unstable();
    let (mut state, mut answers, mut from) = (Vec::new(), Vec::<u8>::new(), 0);
    for cut in cuts {
        let piece = fields[from..cut].concat();
        let called = call_run(&state, &piece, output_length(&piece), SAVED_ROOM);
        require(called.refusal == 0, || {
            format!("a piece of a chain was refused with {}", called.refusal)
        })?;
        require_untouched("output", &called.output, called.written)?;
        require_untouched("saved", &called.saved_to, called.saved)?;
        answers.extend(&called.output[..called.written]);
        state = called.saved_to[..called.saved].to_vec();
        from = cut;
    }
    let whole = call_run(&[], input, output_length(input), SAVED_ROOM);
    require(answers == whole.output[..whole.written], || {
        "a chain of runs answers differently from one run".into()
    })?;
    require(state == whole.saved_to[..whole.saved], || {
        "a chain of runs ends in a different state from one run".into()
    })
}

/// The list and the one with the sign of every effect turned, each on a fresh sheet; returns how many pairs of extremes there were.
pub fn check_turned_list(list: &[u8]) -> Result<u64, String> {
    let turned = answers(&pair::turned_list(list));
    pair::check(fields(list).len(), &answers(list), &turned)
}

/// The sheet after the list as a state, and the sheet with the sign of every effect turned, with looks at every station; returns how
/// many pairs of extremes there were.
pub fn check_turned_state(list: &[u8]) -> Result<u64, String> {
    let mut sheet = Sheet::fresh();
    reference::read_list(&mut sheet, list, |_, _, _| {});
    let states = [&sheet, &pair::turned(&sheet)].map(reference::save);
    let input = pair::turned_list(list);
    let called = call_run(&[], &input, output_length(&input), SAVED_ROOM);
    require(called.saved_to[..called.saved] == states[1], || {
        "the sheet saved after the turned list is not the turned sheet".into()
    })?;
    let looks = every_look();
    let [first, second] = states.map(|state| {
        let called = call_answer(&state, &looks, output_length(&looks));
        called.output[..called.written].to_vec()
    });
    pair::check(fields(&looks).len(), &first, &second)
        .map_err(|reason| format!("looks at the state after the list: {reason}"))
}

/// The list and one with other values at the varied stations, which is compared with the reference too.
fn check_varied(list: &[u8], varied: Varied, random: &mut Random) -> Result<Looks, String> {
    let second = offices::list(list, varied, random);
    check_list(&second)?;
    offices::check(list, &answers(list), &answers(&second), varied)
}

/// Other values at all stations but one, and at that one alone; returns the looks of each.
pub fn check_offices(list: &[u8], seed: u64) -> Result<[Looks; 2], String> {
    let mut random = Random::new(seed);
    let station = offices::station(list, &mut random);
    let others = check_varied(list, Varied::AllBut(station), &mut random)?;
    let own = check_varied(list, Varied::Only(station), &mut random)?;
    Ok([others, own])
}

/// How many cases of how many files had a name, and how many had none.
#[derive(Clone, Copy, Default)]
pub struct Names {
    pub files: u64,
    pub found: u64,
    pub none: u64,
}

impl Names {
    pub fn add(&mut self, more: Names) {
        self.files += more.files;
        self.found += more.found;
        self.none += more.none;
    }
}

/// Files with at most this many bytes are cut at each place, longer ones at some.
const CUT_EVERYWHERE: usize = 120;

/// The names in a file, and in the file cut at some places or at each.
pub fn check_names(file: &[u8], seed: u64) -> Result<Names, String> {
    let mut random = Random::new(seed);
    let lengths: Vec<usize> = match file.len() {
        length @ 0..=CUT_EVERYWHERE => (0..=length).collect(),
        length => {
            let cuts = [0; 3].map(|_| random.below(length as u64) as usize);
            [&cuts[..], &[length]].concat()
        }
    };
    let mut names = Names::default();
    for length in lengths {
        let found = names_found(&file[..length])
            .map_err(|reason| format!("the first {length} bytes: {reason}"))?;
        names.add(found);
    }
    Ok(names)
}

/// Compares `frames_name` with the reference, for every case that there is and every one that there is not.
fn names_found(file: &[u8]) -> Result<Names, String> {
    let mut found = 0;
    for case in 0..=u8::MAX {
        let Place { from, len } = call_name(file, case);
        let place = reference::name(file, case);
        let expected = place.unwrap_or_default();
        require((from, len) == (expected.start, expected.len()), || {
            let (start, length) = (expected.start, expected.len());
            format!("the name of case {case}: {len} bytes from {from}, not {length} from {start}")
        })?;
        found += u64::from(len > 0);
    }
    Ok(Names {
        files: 1,
        found,
        none: 256 - found,
    })
}

/// A file and the same without its names, and without other fields of tag 60: from a fresh sheet, and from the one that the file makes.
/// Returns how many fields were left out.
pub fn check_without_names(file: &[u8]) -> Result<u64, String> {
    let run = |state: &[u8], input: &[u8]| call_run(state, input, output_length(input), SAVED_ROOM);
    let fresh = run(&[], file);
    let made = fresh.saved_to[..fresh.saved].to_vec();
    let again = run(&made, file);
    let mut count = 0;
    for left_out in LeftOut::ALL {
        let without = names::without(file, left_out);
        require_no_names(&without)?;
        for (state, first) in [(&[][..], &fresh), (&made, &again)] {
            let second = run(state, &without);
            let [answers, others] = [first, &second].map(|called| &called.output[..called.written]);
            count += names::check(file, answers, others, left_out)?;
            let [sheet, same] = [first, &second].map(|called| &called.saved_to[..called.saved]);
            require(sheet == same, || {
                format!("another sheet without names, {}", shown(state))
            })?;
        }
    }
    Ok(count)
}

fn require_no_names(file: &[u8]) -> Check {
    match (0..=u8::MAX).find(|case| call_name(file, *case).len > 0) {
        Some(case) => Err(format!("a file without names has one for case {case}")),
        None => Ok(()),
    }
}

/// Tag 06 for each component and tag 07, at each station; without capacities tag 07 is refused.
pub fn every_look() -> Vec<u8> {
    let at = |station: u8| {
        let extremes = [0, 1, 2].map(|component| field(6, &[station, component]));
        [extremes.concat(), field(7, &[station])].concat()
    };
    (0..STATIONS as u8).flat_map(at).collect()
}

/// Good states that the list makes: the saved sheet, and the list's accepted edits.
fn good_states(list: &[u8]) -> [Vec<u8>; 2] {
    let mut sheet = Sheet::fresh();
    let mut edits = Vec::new();
    reference::read_list(&mut sheet, list, |_, field, answer| {
        if matches!(answer, reference::Answer::Accepted) {
            edits.extend(field);
        }
    });
    [reference::save(&sheet), edits]
}

/// A state that may be refused: a good one that is cut, or has one more field.
fn doubtful_state(list: &[u8], random: &mut Random) -> Vec<u8> {
    let [mut state, _] = good_states(list);
    let fields = fields(list);
    match random.below(6) {
        0 => state.extend(field(6, &[random.below(18) as u8, random.below(4) as u8])),
        1 => state.extend(field(7, &[random.below(18) as u8])),
        2 => state.truncate(random.below(state.len() as u64) as usize),
        3 => {
            let tag = random.pick(&[0, 1, 2, 3, 4, 5, 6, 7, 8, 9, 10, 0x60]);
            state.extend(field(tag, &[40, 40][..]));
        }
        4 => state.extend([random.below(10) as u8, 0xFF, 0xFF, 1]),
        _ if !fields.is_empty() => state.extend(random.pick(&fields)),
        _ => state.push(1),
    }
    if random.chance(30) {
        state.extend(field(0x7F, &[]));
    }
    state
}

/// Runs from good and bad states; returns how many of the states were refused.
pub fn check_states(list: &[u8], seed: u64) -> Result<u64, String> {
    let mut random = Random::new(seed);
    let start = random.below(fields(list).len() as u64 + 1) as usize;
    let input = fields(list)[start..].concat();
    let (output, saved) = (output_length(&input) + 9, SAVED_ROOM + 9);
    for state in good_states(list) {
        check_run(&state, &input, output, saved)?;
        check_answer(&state, &input, output)?;
    }
    let mut refused = 0;
    for state in [list.to_vec(), doubtful_state(list, &mut random)] {
        check_run(&state, &input, output, saved)?;
        check_answer(&state, &input, output)?;
        refused += u64::from(reference::load(&state).is_err());
    }
    Ok(refused)
}

/// Buffers that are exactly long enough or too short, with a good and with a bad state; returns
/// how many calls were refused with 14.
pub fn check_buffers(list: &[u8], seed: u64) -> Result<u64, String> {
    let mut random = Random::new(seed);
    let exact = output_length(list);
    let bad_state = doubtful_state(list, &mut random);
    let mut refused = 0;
    for state in [&[][..], &bad_state, &[0x7F, 0, 0]] {
        let any = random.below(SAVED_ROOM as u64) as usize;
        for saved in [SAVED_ROOM, SAVED_ROOM - 1, any] {
            for output in [exact, exact.saturating_sub(1)] {
                check_run(state, list, output, saved)?;
                check_answer(state, list, output)?;
                let due = reference::start(state, list, output, saved).err() == Some(14);
                refused += u64::from(due);
            }
        }
    }
    Ok(refused)
}
