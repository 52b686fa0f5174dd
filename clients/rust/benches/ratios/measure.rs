//! Interleaved rounds: in each round every lane runs once, so that a busy machine reaches all of them.

use std::sync::OnceLock;
use std::time::Instant;

/// What a round is timed with.
#[derive(Clone, Copy)]
pub enum Clock {
    /// The time that this thread was on a processor, so that what else runs on the machine is not counted.
    Thread,
    /// The time that passed, for what waits on another process.
    Passed,
}

#[repr(C)]
struct Timespec {
    seconds: i64,
    nanoseconds: i64,
}

extern "C" {
    fn clock_gettime(clock: i32, time: *mut Timespec) -> i32;
}

const CLOCK_THREAD_CPUTIME_ID: i32 = 3;

impl Clock {
    /// Nanoseconds from a start that does not change.
    fn now(self) -> f64 {
        static START: OnceLock<Instant> = OnceLock::new();
        match self {
            Clock::Passed => START.get_or_init(Instant::now).elapsed().as_nanos() as f64,
            Clock::Thread => {
                let mut time = Timespec {
                    seconds: 0,
                    nanoseconds: 0,
                };
                // SAFETY: the C library writes the time to the structure, which is laid out as on 64-bit Linux.
                let failed = unsafe { clock_gettime(CLOCK_THREAD_CPUTIME_ID, &mut time) };
                assert_eq!(failed, 0, "the clock of a thread");
                time.seconds as f64 * 1e9 + time.nanoseconds as f64
            }
        }
    }
}

/// One of the things compared: a piece of work, and how many units (fields, copies, looks) it does.
pub struct Lane<'a> {
    pub units: usize,
    pub work: Box<dyn FnMut() + 'a>,
}

pub fn lane<'a>(units: usize, work: impl FnMut() + 'a) -> Lane<'a> {
    Lane {
        units,
        work: Box::new(work),
    }
}

/// Nanoseconds a unit, by lane and round.
pub struct Rounds {
    times: Vec<Vec<f64>>,
}

/// The median of the rounds, with the tenth and the ninetieth percentile.
#[derive(Clone, Copy)]
pub struct Spread {
    pub median: f64,
    pub low: f64,
    pub high: f64,
}

/// Runs the lanes in turn. The first round is not counted, and every second round goes backwards, so that no lane always follows
/// the same one.
pub fn interleave(clock: Clock, rounds: usize, mut lanes: Vec<Lane>) -> Rounds {
    let mut times = vec![Vec::with_capacity(rounds); lanes.len()];
    for round in 0..=rounds {
        for step in 0..lanes.len() {
            let at = match round % 2 {
                0 => step,
                _ => lanes.len() - 1 - step,
            };
            let start = clock.now();
            (lanes[at].work)();
            let time = clock.now() - start;
            if round > 0 {
                times[at].push(time / lanes[at].units as f64);
            }
        }
    }
    Rounds { times }
}

impl Rounds {
    /// Nanoseconds a unit.
    pub fn time(&self, lane: usize) -> Spread {
        spread(self.times[lane].clone())
    }

    /// One lane over another, by round.
    pub fn ratio(&self, lane: usize, over: usize) -> Spread {
        let pairs = self.times[lane].iter().zip(&self.times[over]);
        spread(pairs.map(|(a, b)| a / b).collect())
    }
}

pub fn spread(mut values: Vec<f64>) -> Spread {
    values.sort_by(f64::total_cmp);
    let last = values.len() - 1;
    Spread {
        median: values[last / 2],
        low: values[last / 10],
        high: values[last - last / 10],
    }
}

impl Spread {
    /// A ratio with its spread.
    pub fn shown(&self) -> String {
        let digits = if self.median < 10.0 { 2 } else { 0 };
        format!(
            "{:.digits$} ({:.digits$} to {:.digits$})",
            self.median, self.low, self.high
        )
    }
}

/// A time in the unit that suits it.
pub fn time(nanoseconds: f64) -> String {
    match nanoseconds {
        n if n < 100.0 => format!("{n:.1} ns"),
        n if n < 10_000.0 => format!("{n:.0} ns"),
        n if n < 10_000_000.0 => format!("{:.1} µs", n / 1e3),
        n => format!("{:.1} ms", n / 1e6),
    }
}

/// One row of a Markdown table.
pub fn row(cells: &[&str]) {
    println!("| {} |", cells.join(" | "));
}

pub fn head(cells: &[&str]) {
    row(cells);
    println!("|{}", "---|".repeat(cells.len()));
}
