//! A service behind two pipes: the proved program, or this one run again to serve by hand.

use std::env;
use std::io::{Read, Write};
use std::path::PathBuf;
use std::process::{exit, Child, ChildStdin, ChildStdout, Command, Stdio};
use std::thread;

use frames::bytes::ANSWER;
use frames::Sheet;

use crate::by_hand;

pub struct Service {
    child: Child,
    to: Option<ChildStdin>,
    from: ChildStdout,
}

/// The program from FRAMES_PROGRAM, or from crates/frames of the repository.
fn program() -> PathBuf {
    match env::var_os("FRAMES_PROGRAM") {
        Some(path) => PathBuf::from(path),
        None => PathBuf::from(env!("CARGO_MANIFEST_DIR")).join("../../crates/frames/out/frames"),
    }
}

impl Service {
    pub fn proved() -> Service {
        let path = program();
        if !path.is_file() {
            eprintln!("{} is missing.", path.display());
            eprintln!("Build it with `rt run </dev/null` in crates/frames of the repository,");
            eprintln!("or set FRAMES_PROGRAM to its path.");
            exit(1);
        }
        Service::start(Command::new(path))
    }

    pub fn by_hand() -> Service {
        let mut command = Command::new(env::current_exe().expect("the path of this program"));
        command.arg(by_hand::SERVE);
        Service::start(command)
    }

    fn start(mut command: Command) -> Service {
        command.stdin(Stdio::piped()).stdout(Stdio::piped());
        let mut child = command.spawn().expect("the service starts");
        Service {
            to: child.stdin.take(),
            from: child.stdout.take().expect("a pipe"),
            child,
        }
    }

    /// Writes all the fields while it reads all the answers.
    pub fn batch(&mut self, input: &[u8], output: &mut [u8]) {
        let to = self.to.as_mut().expect("a pipe");
        thread::scope(|scope| {
            scope.spawn(|| to.write_all(input).expect("the service reads"));
            self.from.read_exact(output).expect("the service answers");
        });
    }

    /// Gives the service a sheet in place of its own.
    pub fn restore(&mut self, sheet: &Sheet) {
        let accepted = [0x80, 0, 0].repeat(by_hand::count(sheet.save()));
        let mut output = vec![0; accepted.len()];
        self.batch(sheet.save(), &mut output);
        assert_eq!(output, accepted);
    }

    /// Writes one field and waits for its answer.
    pub fn ask(&mut self, field: &[u8], answer: &mut [u8]) {
        let to = self.to.as_mut().expect("a pipe");
        to.write_all(field).expect("the service reads");
        self.from.read_exact(answer).expect("the service answers");
    }

    /// A number of /proc/PID/status, in kB.
    pub fn status(&self, name: &str) -> u64 {
        let path = format!("/proc/{}/status", self.child.id());
        let status = std::fs::read_to_string(path).expect("the service runs");
        let line = status.lines().find(|line| line.starts_with(name));
        let number = line.and_then(|line| line.split_whitespace().nth(1));
        number.and_then(|n| n.parse().ok()).expect("a number of kB")
    }
}

impl Drop for Service {
    fn drop(&mut self) {
        self.to = None;
        self.child.wait().expect("the service ends with its input");
    }
}

/// How many bytes of answers a service that has read `state` gives to the fields, found by hand.
pub fn answered(state: &[u8], input: &[u8]) -> usize {
    let mut output = vec![0; ANSWER * by_hand::count(input)];
    by_hand::answer(state, input, &mut output).written
}
