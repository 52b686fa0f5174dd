//! The proved library and the service against code written by hand, in ratios. `cargo bench --bench ratios` prints Markdown.
//!
//! An argument runs one part: library, instructions, typed, names, enumerated, piped, aged or memory. The program fails where the two
//! give different bytes, and where the library passes a bound on its instructions.

mod aged;
mod agreement;
mod bounds;
mod by_hand;
mod enumerated;
mod instructions;
mod library;
mod lists;
mod machine;
mod measure;
mod names;
mod piped;
mod service;
mod typed;

use std::process::ExitCode;

enum Part {
    Report(fn()),
    /// One that gives whether it passed.
    Test(fn() -> bool),
}

use Part::{Report, Test};

const PARTS: [(&str, Part); 8] = [
    ("library", Report(library::report)),
    ("instructions", Test(instructions::report)),
    ("typed", Report(typed::report)),
    ("names", Report(names::report)),
    ("enumerated", Report(enumerated::report)),
    ("piped", Report(piped::report)),
    ("aged", Report(aged::report)),
    ("memory", Report(piped::memory)),
];

fn main() -> ExitCode {
    let arguments: Vec<String> = std::env::args().skip(1).collect();
    match arguments.first().map(String::as_str) {
        Some(by_hand::SERVE) => by_hand::serve().expect("pipes"),
        Some(instructions::COUNTED) => instructions::run(&arguments[1..]),
        _ => return report(&arguments),
    }
    ExitCode::SUCCESS
}

fn report(arguments: &[String]) -> ExitCode {
    let asked = |name: &str| arguments.iter().any(|argument| argument == name);
    let all = !PARTS.iter().any(|(name, _)| asked(name));
    let mut passed = true;
    machine::report();
    agreement::report();
    println!();
    for (name, part) in PARTS {
        match part {
            _ if !all && !asked(name) => {}
            Report(report) => report(),
            Test(test) => passed &= test(),
        }
    }
    if passed {
        return ExitCode::SUCCESS;
    }
    println!("FAILED: a test above did not pass.");
    ExitCode::FAILURE
}
