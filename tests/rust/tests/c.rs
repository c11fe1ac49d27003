//! The library from C: the header under strict flags, as C and as C++, the test programs of tests/c, and the worked
//! examples of examples/c with what documents 01 and 02 imply that they print.

#[cfg(feature = "meet")]
use conformance::edges::TWO_CLASSES_SHEET;
use std::collections::BTreeSet;
use std::fs;
use std::path::{Path, PathBuf};
use std::process::Command;

const STRICT: [&str; 5] = ["-Wall", "-Wextra", "-Werror", "-pedantic", "-O2"];
const C: [&str; 4] = ["gcc", "-std=c11", "-x", "c"];
const CPP: [&str; 4] = ["g++", "-std=c++17", "-x", "c++"];

/// Set by the build script.
const ARCHIVE_FOLDER: &str = env!("TALLY_ARCHIVE_FOLDER");

fn in_repository(path: &str) -> PathBuf {
    Path::new(concat!(env!("CARGO_MANIFEST_DIR"), "/../..")).join(path)
}

fn archive() -> PathBuf {
    Path::new(ARCHIVE_FOLDER).join("libcapi.a")
}

/// What a command prints; it must succeed.
fn printed(command: &mut Command) -> String {
    let output = command.output().unwrap_or_else(|error| panic!("{command:?}: {error}"));
    let said = String::from_utf8_lossy(&output.stderr);
    assert!(output.status.success(), "{command:?}: {}\n{said}", output.status);
    String::from_utf8(output.stdout).expect("text")
}

/// What a program prints, built by a compiler against the header and linked with the archive.
fn run_as([compiler, language @ ..]: [&str; 4], source: &str, more_flags: &[&str]) -> String {
    let program = Path::new(env!("CARGO_TARGET_TMPDIR")).join(format!("{source}-{compiler}").replace(['/', '.'], "-"));
    let mut build = Command::new(compiler);
    build.args(STRICT).args(more_flags).arg("-I").arg(in_repository("include"));
    build.args(language).arg(in_repository(source)).args(["-x", "none"]);
    printed(build.arg("-L").arg(ARCHIVE_FOLDER).arg("-lcapi").arg("-o").arg(&program));
    printed(&mut Command::new(program))
}

fn run(source: &str, more_flags: &[&str]) -> String {
    run_as(C, source, more_flags)
}

/// The functions that the header declares: the names before an opening parenthesis.
fn declared() -> BTreeSet<String> {
    let header = fs::read_to_string(in_repository("include/tally.h")).expect("the header is read");
    let is_part_of_name = |c: char| c.is_ascii_alphanumeric() || c == '_';
    let names = header.split('(').map(|before| before.rsplit(|c| !is_part_of_name(c)).next().unwrap_or(""));
    names.filter(|name| name.starts_with("tally_")).map(String::from).collect()
}

/// The archive's symbols, each with nm's letter for its kind.
fn symbols() -> Vec<(String, char)> {
    let listing = printed(Command::new("nm").arg("--format=posix").arg(archive()));
    // a line for each symbol, after one that names the object
    let symbol = |line: &str| {
        let mut fields = line.split(' ');
        Some((fields.next()?.into(), fields.next()?.chars().next()?))
    };
    listing.lines().skip(1).filter_map(symbol).collect()
}

#[test]
fn header_stands_alone() {
    assert_eq!(run("tests/c/header.c", &["-ffreestanding"]), "");
    assert_eq!(run_as(CPP, "tests/c/header.c", &[]), "");
}

#[test]
fn header_declares_what_the_archive_exports() {
    let exported = symbols().into_iter().filter(|&(_, kind)| kind == 'T').map(|(name, _)| name);
    assert_eq!(exported.collect::<BTreeSet<_>>(), declared());
}

/// Code and constants only: it keeps no variable, and calls no more than gcc expects of a machine without a C library.
#[test]
fn archive_needs_no_c_library() {
    let given = ["memcpy", "memmove", "memset", "memcmp"];
    for (name, kind) in symbols() {
        assert!("TtRr".contains(kind) || given.contains(&name.as_str()), "{name} is of kind {kind}");
    }
}

#[test]
fn one_station() {
    assert_eq!(run("tests/c/station.c", &[]), "");
}

#[cfg(feature = "map")]
#[test]
fn maps() {
    assert_eq!(run("tests/c/map.c", &[]), "");
}

#[cfg(feature = "meet")]
#[test]
fn stations_that_meet() {
    assert_eq!(run("tests/c/meet.c", &[]), "");
}

#[cfg(feature = "meet")]
#[test]
fn sheets() {
    assert_eq!(run("tests/c/sheet.c", &[]), "");
}

#[cfg(feature = "mail")]
#[test]
fn stations_with_mail() {
    assert_eq!(run("tests/c/mail.c", &[]), "");
}

/// "Bytes of stack that no call takes more than", by kind of call: every one that the header declares is measured.
#[cfg(feature = "mail")]
#[test]
fn stack() {
    let measured = run("tests/c/stack.c", &["-Wl,-z,now"]);
    let calls: Vec<Vec<&str>> = measured.lines().map(|line| line.split(' ').collect()).collect();
    assert_eq!(calls.iter().map(|call| call[0].to_string()).collect::<BTreeSet<_>>(), declared());
    for call in calls {
        let [bytes, most] = [call[1], call[2]].map(|figure| figure.parse::<usize>().expect("a number of bytes"));
        assert!(bytes <= most, "{} takes {bytes} bytes of stack, and the header says {most}", call[0]);
    }
}

/// Station 1 in document 01's second order of the triangle, wake 0 1, wake 1 2, .., answer 2 1, answer 1 0, with three
/// classes, in the last of which stations 1 and 2 have no reading: answer 2 1 11 0 3 0 0 1, answer 1 0 18 0 4 0 0 2.
#[test]
fn example_controller() {
    let life = "\
take start from 0: parent 0, waits 1, holds 7 0 1 0 0 1
send start to 2
take start from 200: refused 12
take answer 11 0 3 0 0 200 from 2: refused 12
take answer 11 0 3 0 0 1 from 2: parent 0, waits 0, holds 18 0 4 0 0 2
send answer 18 0 4 0 0 2 to 0
";
    assert_eq!(run("examples/c/controller.c", &[]), life);
}

/// Document 01's example of the program and its closing line; then its second order, where station 1 woke station 2, with
/// all readings, without that of station 1, and with a second class, which counts 100, 101 and 102; last with a desk that
/// hangs on station 2.
#[cfg(feature = "meet")]
#[test]
fn example_desk() {
    let lots = "\
refused 5
wake 0 1
wake 0 2
pass 1 2
pass 2 1
answer 1 0 7 0
answer 2 0 11 0
report 0 23 0
refused 14
lot 42 steps 7 links 3
run: steps 7, at rest 1, station 2 hung on 1, reported 23 0
run: steps 7, at rest 1, station 2 hung on 1, reported 16 1
run: steps 7, at rest 1, station 2 hung on 1, reported 16 1 303 0
run: steps 9, at rest 1, station 2 hung on 3, reported 16 1 303 0
";
    assert_eq!(run("examples/c/desk.c", &[]), lots);
}

/// Document 02, request 7: the triangle with a second class, in which station 1 has no reading. Before its report the desk is
/// not finished.
#[cfg(feature = "meet")]
#[test]
fn example_sheet() {
    let sheet = [&["before the report: refused 21"], &TWO_CLASSES_SHEET[..], &[""]].concat();
    assert_eq!(run("examples/c/sheet.c", &[]), sheet.join("\n"));
}

/// Document 02, request 8: after the report of document 01's second order two tells, along the parents, and 23 on both heads,
/// which sent up 18 and 11.
#[cfg(feature = "meet")]
#[test]
fn example_displays() {
    let told = "\
report 23
tell 0 1
tell 1 2
head 1 shows 23, and sent up 18
head 2 shows 23, and sent up 11
then: refused 14
";
    assert_eq!(run("examples/c/displays.c", &[]), told);
}
