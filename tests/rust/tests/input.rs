//! `tools/make-input`: what it makes of a description, with one count a station or several, and its one line for anything
//! that is no description. No library is needed.

use conformance::gen::call::draws;
use conformance::gen::map::accepted;
use conformance::model::map::{stored, Map};
use conformance::model::{set, text};
use conformance::rng::for_cases;
use std::fs;
use std::path::{Path, PathBuf};
use std::process::{Command, Output};

fn in_repository(path: &str) -> PathBuf {
    Path::new(concat!(env!("CARGO_MANIFEST_DIR"), "/../..")).join(path)
}

fn make_input(description: &Path) -> Output {
    Command::new(in_repository("tools/make-input")).arg(description).output().expect("make-input runs")
}

fn bytes(description: &Path) -> Vec<u8> {
    let made = make_input(description);
    assert!(made.status.success(), "{}", String::from_utf8_lossy(&made.stderr));
    made.stdout
}

/// A description in a file of its own.
fn described(name: &str, lines: &str) -> PathBuf {
    let path = Path::new(env!("CARGO_TARGET_TMPDIR")).join(name);
    fs::write(&path, lines).expect("the description is written");
    path
}

/// The words of numbers, with something between them.
fn listed<T: ToString>(numbers: impl IntoIterator<Item = T>, between: &str) -> String {
    numbers.into_iter().map(|number| number.to_string()).collect::<Vec<_>>().join(between)
}

fn lines(draws: &[u16], map: &Map) -> String {
    let mut lines = format!("draws {}\nlot {}\ndesk {}\n", listed(draws, " "), map.lot, map.desk);
    for (i, &neighbours) in map.sets().iter().enumerate() {
        let (counts, names) = (listed(map.counts_of(i), ","), listed(set::members(neighbours), " "));
        lines += &format!("station {counts} {names}\n");
    }
    lines
}

#[test]
fn any_accepted_map() {
    for_cases(12, |rng| {
        let map = accepted(rng);
        let draws = draws(rng, 7);
        let due: Vec<u8> = draws.iter().flat_map(|draw| draw.to_le_bytes()).chain(stored(&map)).collect();
        assert_eq!(bytes(&described("any.txt", &lines(&draws, &map))), due);
    });
}

#[test]
fn examples() {
    let triangle = fs::read(in_repository("examples/triangle.bin")).expect("the example is read");
    assert_eq!(bytes(&in_repository("examples/triangle.txt")), triangle);
    let three_classes = "\
wake 0 1
wake 0 2
pass 1 2
pass 2 1
answer 1 0 7 0 1 0 0 1
answer 2 0 11 0 3 0 0 1
report 0 23 0 4 1 2 2
lot 281474976710655 steps 7 links 3
";
    assert_eq!(text::output(&bytes(&in_repository("examples/three_classes.txt"))), three_classes);
    let desk = "\
wake 5 4
wake 4 2
wake 2 0
wake 0 1
wake 4 3
pass 1 2
pass 2 1
answer 1 0 7 0
answer 0 2 12 0
answer 2 4 23 0
answer 3 4 0 0
answer 4 5 23 0
report 5 23 0
lot 42 steps 13 links 6
";
    assert_eq!(text::output(&bytes(&in_repository("examples/desk.txt"))), desk);
}

#[test]
fn no_description() {
    let wrong = [
        ("station 5,6 1\nstation 7 0\n", "2: each station has as many counts as the first, 2, not 1"),
        ("station 1,2,3,4,5,6,7,8,9\n", "1: a station has 1 to 8 counts, not 9"),
        ("station 5,,6\n", "1: a count is a number from 0 to 4294967295, not ''"),
        ("station 5,4294967296\n", "1: a count is a number from 0 to 4294967295, not '4294967296'"),
        ("station 5,6 1,2\n", "1: a neighbour is a number from 0 to 63, not '1,2'"),
        ("station\n", "1: a station has a count"),
        ("lot 42\n", "1: no station"),
        ("desk 256\nstation 5\n", "1: the desk is a number from 0 to 255, not '256'"),
        ("desk\n", "1: the desk is one number, not 0"),
        ("desk 0\ndesk 1\n", "2: a second desk"),
        ("desk -1\n", "1: the desk is a number from 0 to 255, not '-1'"),
        ("desks 1\n", "1: a line starts with draws, zeros, lot, desk or station, not 'desks'"),
        ("lot 281474976710656\n", "1: the lot is a number from 0 to 281474976710655, not '281474976710656'"),
    ];
    for (lines, what) in wrong {
        let path = described("wrong.txt", lines);
        let made = make_input(&path);
        assert_eq!(made.stdout, b"", "{lines}");
        assert_eq!(String::from_utf8_lossy(&made.stderr), format!("make-input: {}:{what}\n", path.display()));
        assert!(!made.status.success(), "{lines}");
    }
}
