//! Drives the `frames` program through a pipe.

use std::io::{self, ErrorKind, Read, Write};
use std::path::PathBuf;
use std::process::{Child, ChildStdin, Command, Stdio};
use std::thread;

use crate::boundary::every_look;
use crate::compare;
use crate::names::{self, LeftOut};
use crate::offices::{self, Looks, Varied};
use crate::pair;
use crate::random::Random;
use crate::reference::{fields, first_field, load, Sheet};

/// A fresh sheet: between two lists it makes the second start as in a process of its own.
const FRESH: [u8; 6] = [1, 0, 3, 1, 0, 0];

/// The number of fields with which a process is taken as full.
const FIELDS_OF_A_PROCESS: usize = 10_000;

#[derive(Clone)]
pub struct Program {
    path: PathBuf,
}

impl Program {
    pub fn find() -> Result<Program, String> {
        let default = || {
            [env!("CARGO_MANIFEST_DIR"), "../../crates/frames/out/frames"]
                .iter()
                .collect()
        };
        let path = std::env::var_os("FRAMES_PROGRAM").map_or_else(default, PathBuf::from);
        if !path.is_file() {
            return Err(format!("no program at {}", path.display()));
        }
        Ok(Program { path })
    }

    /// Feeds the input in pieces of random lengths and reads everything that is written.
    pub fn answers(&self, input: &[u8], seed: u64) -> Result<Vec<u8>, String> {
        let mut child = Command::new(&self.path)
            .stdin(Stdio::piped())
            .stdout(Stdio::piped())
            .spawn()
            .map_err(|error| format!("starting the program: {error}"))?;
        let output = exchange(&mut child, input, seed);
        let status = child.wait().map_err(|error| error.to_string())?;
        if status.code().is_none() {
            return Err(format!("the program was ended by a signal: {status}"));
        }
        output.map_err(|error| format!("the pipe: {error}"))
    }

    /// Compares the answers to a list in a process of its own.
    pub fn check(&self, input: &[u8], seed: u64) -> Result<(), String> {
        let output = self.answers(input, seed)?;
        compare::list(&mut Sheet::fresh(), input, &output)
    }

    /// A list and the one with the sign of every effect turned, each in a process of its own; returns how many pairs of extremes
    /// there were.
    pub fn check_turned(&self, input: &[u8], seed: u64) -> Result<u64, String> {
        let output = self.answers(input, seed)?;
        let turned = self.answers(&pair::turned_list(input), seed)?;
        pair::check(fields(input).len(), &output, &turned)
    }

    /// A list and one with other values at all stations but one, each in a process of its own; the second is compared with the reference
    /// too. Returns the looks.
    pub fn check_offices(&self, input: &[u8], seed: u64) -> Result<Looks, String> {
        let mut random = Random::new(seed);
        let varied = Varied::AllBut(offices::station(input, &mut random));
        let second = offices::list(input, varied, &mut random);
        let output = self.answers(&second, seed)?;
        compare::list(&mut Sheet::fresh(), &second, &output)?;
        offices::check(input, &self.answers(input, seed)?, &output, varied)
    }

    /// A file and the same without its names, or without every field of tag 60, each in a process of its own, with looks at every station at
    /// its end. Returns how many fields were left out.
    pub fn check_without_names(&self, input: &[u8], seed: u64) -> Result<u64, String> {
        let left_out = LeftOut::ALL[(seed % 3) as usize];
        let file = [input, &every_look()].concat();
        let second = names::without(&file, left_out);
        let [first, second] = [&file, &second].map(|input| self.answers(input, seed));
        names::check(&file, &first?, &second?, left_out)
    }
}

/// Writes in one thread and reads in another, so that neither waits for the other.
fn exchange(child: &mut Child, input: &[u8], seed: u64) -> io::Result<Vec<u8>> {
    let to_program = child.stdin.take().expect("the input is piped");
    let mut from_program = child.stdout.take().expect("the output is piped");
    thread::scope(|scope| {
        let writer = scope.spawn(move || write_in_pieces(to_program, input, seed));
        let mut output = Vec::new();
        from_program.read_to_end(&mut output)?;
        match writer.join().expect("the writing thread ends") {
            // After a refusal 3 the program stops, whatever is left in the pipe.
            Err(error) if error.kind() != ErrorKind::BrokenPipe => Err(error),
            _ => Ok(output),
        }
    })
}

/// Writes pieces of random lengths, so that they end anywhere within a field.
fn write_in_pieces(mut to_program: ChildStdin, input: &[u8], seed: u64) -> io::Result<()> {
    let mut random = Random::new(seed);
    let longest = random.pick(&[7, 100, 4_096, 30_000]);
    let longest = longest.max(input.len() as u64 / 500);
    let mut rest = input;
    while !rest.is_empty() {
        let length = rest.len().min(1 + random.below(longest) as usize);
        let (piece, after) = rest.split_at(length);
        to_program.write_all(piece)?;
        rest = after;
    }
    Ok(())
}

/// Lists that one process answers one after the other.
#[derive(Default)]
pub struct Batch {
    pub lists: Vec<Vec<u8>>,
    fields: usize,
}

impl Batch {
    /// Adds a list; true if the process takes no more, because it is full or stops at a refusal 3.
    pub fn add(&mut self, list: &[u8]) -> bool {
        let starts_fresh =
            first_field(list).is_some_and(|field| field[0] == 1 && load(field).is_ok());
        let start: &[u8] = if self.lists.is_empty() || starts_fresh {
            &[]
        } else {
            &FRESH
        };
        self.lists.push([start, list].concat());
        let fields = fields(list);
        self.fields += fields.len();
        let stops = fields
            .last()
            .is_some_and(|last| first_field(last).is_none());
        stops || self.fields >= FIELDS_OF_A_PROCESS
    }

    pub fn input(&self) -> Vec<u8> {
        self.lists.concat()
    }

    pub fn is_empty(&self) -> bool {
        self.lists.is_empty()
    }
}
