//! The built program against the model, and on streams that fail. TALLY_PROGRAM says where it is, if not where `rt run` builds it.

use conformance::compare::program::{inputs, length_limit, run, Left, Program};
use conformance::compare::tree;
use conformance::edges;
use conformance::model::map::{stored, Map, LOT_LIMIT};
use conformance::model::text::output;
use conformance::model::{CLASSES, MOST_CLASSES, PLACES};
use std::path::{Path, PathBuf};
use std::process::{Command, ExitStatus, Stdio};
use std::sync::OnceLock;
use std::{env, fs};

/// How many bytes a call moves at most, where calls are made to fail.
const PIECE: usize = 16;

/// Errors, as errno numbers them and the C library words them.
const INTERRUPTED: u32 = 4;
const ERRORS: [(u32, &str); 4] = [
    (5, "Input/output error"),
    (11, "Resource temporarily unavailable"),
    (28, "No space left on device"),
    (32, "Broken pipe"),
];

fn in_repository(path: &str) -> PathBuf {
    Path::new(concat!(env!("CARGO_MANIFEST_DIR"), "/../..")).join(path)
}

fn tally() -> Program {
    let built = in_repository("crates/tally/out/tally");
    Program::at(env::var_os("TALLY_PROGRAM").map_or(built, PathBuf::from))
}

/// Document 01's example, one station with all classes, and an input that is refused.
fn samples() -> [Vec<u8>; 3] {
    let example = fs::read(in_repository("examples/triangle.bin")).expect("the example is read");
    let alone = Map { counts: [[u32::MAX - 1; CLASSES]; PLACES], ..Map::empty(1, MOST_CLASSES, LOT_LIMIT - 1) };
    [example, [vec![0; 2], stored(&alone)].concat(), vec![7; 40]]
}

/// The program with the calls that fail that tests/faults.c is told.
fn with_faults(faults: &str) -> Command {
    static SHIM: OnceLock<PathBuf> = OnceLock::new();
    let shim = SHIM.get_or_init(|| {
        let shim = Path::new(env!("CARGO_TARGET_TMPDIR")).join("faults.so");
        let mut gcc = Command::new("gcc");
        gcc.args(["-std=c11", "-Wall", "-Wextra", "-Werror", "-O2", "-shared", "-fPIC", "-o"]).arg(&shim);
        let status = gcc.arg(in_repository("tests/rust/tests/faults.c")).status().expect("gcc runs");
        assert!(status.success(), "{gcc:?}: {status}");
        shim
    });
    let mut command = tally().command();
    command.env("LD_PRELOAD", shim).env("PIECE", PIECE.to_string()).env("FAULTS", faults);
    command
}

/// A run leaves just these bytes on standard output and this text on standard error, and ends by itself.
fn leaves(left: Left, printed: &[u8], said: &str, what: &str) {
    assert_eq!(String::from_utf8_lossy(&left.output), String::from_utf8_lossy(printed), "{what}");
    assert_eq!(left.error, said, "{what}");
    assert_eq!(left.status.code(), Some(0), "{what}: {}", left.status);
}

/// How many calls move so many bytes.
fn pieces(bytes: usize) -> usize {
    bytes.div_ceil(PIECE)
}

#[test]
fn examples() {
    let program = tally();
    edges::program(|input| program.output(input, 5));
}

#[test]
fn inputs_good_and_damaged() {
    inputs(&tally(), 2_000);
}

#[test]
fn longest_input() {
    length_limit(&tally());
}

#[test]
fn streams_that_fail() {
    let broken = [
        (">&-", "tally: standard output: Bad file descriptor\n"),
        (">/dev/full", "tally: standard output: No space left on device\n"),
        ("</", "tally: standard input: Is a directory\n"),
        ("<&-", "tally: standard input: Bad file descriptor\n"),
    ];
    for input in samples() {
        for (redirection, said) in broken {
            leaves(run(&mut tally().under("", redirection), &input, PIECE), b"", said, redirection);
        }
    }
}

/// How a command ends whose standard output is a pipe that nobody reads any more, and what it says.
fn unread(command: &mut Command) -> (ExitStatus, String) {
    command.stdin(Stdio::piped()).stdout(Stdio::piped()).stderr(Stdio::piped());
    let mut child = command.spawn().expect("the program runs");
    drop(child.stdout.take());
    // the input ends here, so that nothing was written before
    drop(child.stdin.take());
    let left = child.wait_with_output().expect("the program ends");
    (left.status, String::from_utf8(left.stderr).expect("text"))
}

/// The wakes tell the parents, and these what the answers brought.
#[test]
fn tree_behind_the_lines() {
    let program = tally();
    tree::lines(|input| program.output(input, input.len()), 300);
}

/// The write fails, whether the signal is ignored before or not.
#[test]
fn nobody_reads() {
    for first in ["", "trap '' PIPE;"] {
        let (status, said) = unread(&mut tally().under(first, ""));
        assert_eq!((status.code(), said.as_str()), (Some(0), "tally: standard output: Broken pipe\n"), "{first}");
    }
}

#[test]
fn a_read_that_fails() {
    for input in samples() {
        // each that brings bytes, and the one that finds the end
        for nth in 1..=pieces(input.len()) + 1 {
            for (error, text) in ERRORS {
                let faults = format!("read {nth} {error}");
                let said = format!("tally: standard input: {text}\n");
                leaves(run(&mut with_faults(&faults), &input, input.len()), b"", &said, &faults);
            }
        }
    }
}

#[test]
fn a_write_that_fails() {
    for input in samples() {
        let due = output(&input);
        for nth in 1..=pieces(due.len()) {
            let before = &due.as_bytes()[..(nth - 1) * PIECE];
            for (error, text) in ERRORS.into_iter().chain([(0, "Nothing taken")]) {
                let faults = format!("write {nth} {error}");
                let said = format!("tally: standard output: {text}\n");
                leaves(run(&mut with_faults(&faults), &input, input.len()), before, &said, &faults);
            }
        }
        // what only closing tells is past the program's end: the output stands
        leaves(run(&mut with_faults("close 1 5"), &input, input.len()), due.as_bytes(), "", "close");
    }
}

#[test]
fn calls_interrupted_or_cut_short() {
    for input in samples() {
        let due = output(&input);
        let last = pieces(input.len()).max(pieces(due.len())) + 2;
        for call in ["read", "write"] {
            for nth in 1..=last {
                let faults = format!("{call} {nth} {INTERRUPTED} {call} {} {INTERRUPTED}", nth + 1);
                leaves(run(&mut with_faults(&faults), &input, input.len()), due.as_bytes(), "", &faults);
            }
        }
    }
}
