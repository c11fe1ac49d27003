//! The built program, driven through pipes, byte for byte.

use super::Coverage;
use crate::gen::bytes::{input, of_length};
use crate::gen::map::all_linked_mixed;
use crate::model::text::{output, INPUT_LIMIT};
use crate::model::MOST_CLASSES;
use crate::rng::{for_cases, Rng};
use std::io::{Read, Write};
use std::path::{Path, PathBuf};
use std::process::{ChildStdin, Command, ExitStatus, Stdio};
use std::thread;
use std::time::Duration;

/// The most pieces that are followed by a pause: the program must meet short reads, and the test must end.
const PAUSES: usize = 12;

pub struct Program {
    path: PathBuf,
}

/// What a run leaves on standard output and standard error, and how it ended.
pub struct Left {
    pub output: Vec<u8>,
    pub error: String,
    pub status: ExitStatus,
}

impl Program {
    pub fn at(path: impl AsRef<Path>) -> Program {
        let path = path.as_ref().to_path_buf();
        assert!(path.is_file(), "no program at {}", path.display());
        Program { path }
    }

    pub fn command(&self) -> Command {
        Command::new(&self.path)
    }

    /// The program as a shell starts it, which first does something, and then redirects a stream, as by `>&-`.
    pub fn under(&self, first: &str, redirection: &str) -> Command {
        let mut shell = Command::new("sh");
        shell.args(["-c", &format!("{first} exec \"$0\" {redirection}")]).arg(&self.path);
        shell
    }

    /// What the program prints for an input that arrives in pieces; it says nothing on standard error.
    pub fn output(&self, input: &[u8], piece: usize) -> Vec<u8> {
        let left = run(&mut self.command(), input, piece);
        assert!(left.status.code().is_some(), "a signal ended the program: {}", left.status);
        assert_eq!(left.error, "");
        left.output
    }
}

/// Runs a command on an input that arrives in pieces.
pub fn run(command: &mut Command, input: &[u8], piece: usize) -> Left {
    command.stdin(Stdio::piped()).stdout(Stdio::piped()).stderr(Stdio::piped());
    let mut child = command.spawn().unwrap_or_else(|error| panic!("{command:?}: {error}"));
    let (stdin, mut stdout) = (child.stdin.take().unwrap(), child.stdout.take().unwrap());
    let mut stderr = child.stderr.take().unwrap();
    let (mut output, mut error) = (Vec::new(), String::new());
    thread::scope(|scope| {
        scope.spawn(|| deliver(stdin, input, piece));
        scope.spawn(|| stderr.read_to_string(&mut error).expect("standard error is read"));
        stdout.read_to_end(&mut output).expect("standard output is read");
    });
    let status = child.wait().expect("the program ends");
    Left { output, error, status }
}

/// Writes the input piece by piece. A program that has read enough to refuse may close its end.
fn deliver(mut stdin: ChildStdin, input: &[u8], piece: usize) {
    for (index, bytes) in input.chunks(piece).enumerate() {
        if stdin.write_all(bytes).is_err() {
            return;
        }
        if index < PAUSES && bytes.len() < input.len() {
            thread::sleep(Duration::from_micros(200));
        }
    }
}

fn piece(rng: &mut Rng, input: &[u8]) -> usize {
    let small = if input.len() < 2_000 { 1 + rng.index(40) } else { 500 + rng.index(5_000) };
    if rng.chance(60) {
        input.len().max(1)
    } else {
        small
    }
}

fn compare(program: &Program, rng: &mut Rng, input: &[u8], seen: &mut Coverage) {
    let piece = piece(rng, input);
    let (given, due) = (program.output(input, piece), output(input));
    let shown = String::from_utf8_lossy(&given);
    assert!(given == due.as_bytes(), "{} bytes in pieces of {piece}:\n{shown}\ninstead of\n{due}", input.len());
    seen.note("program", refused(&due));
}

/// The number in a line of refusal, or 0.
fn refused(text: &str) -> u8 {
    let number = text.strip_prefix("refused ").and_then(|rest| rest.split_whitespace().next());
    number.map_or(0, |number| number.parse().expect("a number follows"))
}

/// Inputs good and damaged.
pub fn inputs(program: &Program, count: u64) {
    let mut seen = Coverage::default();
    for_cases(count, |rng| {
        let input = input(rng);
        compare(program, rng, &input, &mut seen);
    });
    seen.require("program", (0..=10).chain([16, 17]));
}

/// Exactly 65,536 bytes are accepted, here with the longest output; one more is 17.
pub fn length_limit(program: &Program) {
    for_cases(2, |rng| {
        for (length, number) in [(INPUT_LIMIT, 0), (INPUT_LIMIT + 1, 17)] {
            let mut seen = Coverage::default();
            let map = all_linked_mixed(rng, MOST_CLASSES);
            let input = of_length(rng, &map, length);
            compare(program, rng, &input, &mut seen);
            seen.require("program", [number]);
        }
    });
}
