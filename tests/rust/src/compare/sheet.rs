//! Sheets: answers, and every byte of every lent buffer; what a reported lot's lines add up to.

use super::Coverage;
use crate::calls::{Model, SheetCalls};
use crate::gen::sheet::{lot, reported};
use crate::model::aggregate::SUM;
use crate::model::map::{accept, Map, LOT_LIMIT};
use crate::model::meet::{Meet, CARRYING, WITHOUT};
use crate::model::net::{Config, Net};
use crate::model::refusal::number;
use crate::model::sheet::{is_reported, length, LINE};
use crate::model::MOST_CLASSES;
use crate::rng::{for_cases, Rng};

/// Bytes on either side of a lent buffer, which no call may touch.
const MARGIN: usize = 8;

/// No buffer is longer than the longest sheet and something more, whatever a refused map says.
const LONGEST: usize = 521 * LINE + LINE;

/// What may be amiss, in the order of the tests: each with each other must be met.
fn amiss(map: &Map, net: &Meet, room: usize) -> [bool; 6] {
    let formed = net.is_well_formed();
    [
        accept(map).is_err(),
        map.lot >= LOT_LIMIT,
        !formed,
        net.config != Config::of(map, SUM),
        formed && !is_reported(net),
        room < length(map),
    ]
}

/// One call, against the model's.
fn compare(subject: &impl SheetCalls, rng: &mut Rng, map: &Map, net: &Meet, room: usize) -> u8 {
    let before = rng.bytes(room + 2 * MARGIN);
    let (mut given, mut due) = (before.clone(), before);
    let expected = Model.sheet(map, net, &mut due[MARGIN..MARGIN + room]);
    assert_eq!(
        subject.sheet(map, net, &mut given[MARGIN..MARGIN + room]),
        expected,
        "{map:?} and {net:?} in {room} bytes"
    );
    assert!(given == due, "the buffer of {room} bytes for {map:?} and {net:?}");
    number(&expected)
}

pub fn sheets(subject: &impl SheetCalls, count: u64) {
    let mut seen = Coverage::default();
    for_cases(count, |rng| {
        let (map, net) = lot(rng);
        let needed = length(&map).min(LONGEST);
        let room = rng.pick(&[0, needed - LINE, needed - 1, needed, needed, needed, needed + 1, needed + 50]);
        let number = compare(subject, rng, &map, &net, room);
        seen.note("sheet", number);
        match number {
            0 => {
                seen.note("classes on a sheet", map.classes);
                seen.note("opening on a sheet", net.carrying);
            }
            11 => seen.note("opening out of form", net.carrying.min(CARRYING + 1)),
            _ => {}
        }
        let amiss = amiss(&map, &net, room);
        for (second, _) in amiss.iter().enumerate().filter(|test| *test.1) {
            for (first, _) in amiss[..second].iter().enumerate().filter(|test| *test.1) {
                seen.note("amiss together", (10 * first + second) as u8);
            }
        }
    });
    seen.require("sheet", [0, 2, 3, 7, 8, 9, 10, 11, 15, 18, 19, 20, 21]);
    seen.require("classes on a sheet", 1..=MOST_CLASSES);
    seen.require("opening on a sheet", [WITHOUT, CARRYING]);
    seen.require("opening out of form", [WITHOUT, CARRYING, CARRYING + 1]);
    // a net out of form has no desk to ask
    let pairs = (0..6).flat_map(|second| (0..second).map(move |first| 10 * first + second));
    seen.require("amiss together", pairs.filter(|&pair| pair != 24));
}

/// Buffers of every length around the needed one.
pub fn rooms(subject: &impl SheetCalls, count: u64) {
    for_cases(count, |rng| {
        let (map, net) = reported(rng);
        let needed = length(&map);
        for room in (0..3).chain(needed - LINE - 1..=needed + LINE + 1) {
            let number = compare(subject, rng, &map, &net, room);
            assert_eq!(number, if room < needed { 15 } else { 0 }, "{room} bytes for {needed}");
        }
    });
}

/// A number of columns of a line; blanks and hyphens show 0.
fn shown(line: &str, columns: std::ops::Range<usize>) -> u64 {
    line[columns].trim().parse().unwrap_or(0)
}

/// "The lines above add up to them."
pub fn sums(subject: &impl SheetCalls, count: u64) {
    for_cases(count, |rng| {
        let (map, net) = reported(rng);
        let mut bytes = vec![0; length(&map)];
        assert_eq!(subject.sheet(&map, &net, &mut bytes), Ok(bytes.len() as u32), "the sheet of {map:?}");
        let text = String::from_utf8(bytes).expect("text");
        let lines: Vec<&str> = text.lines().collect();
        let (k, classes) = (usize::from(map.k), usize::from(map.classes));
        assert!(lines.len() == 1 + k * classes + classes && lines.iter().all(|line| line.len() == 40), "{text}");
        assert_eq!(shown(lines[0], 0..15), map.lot, "{text}");
        for class in 0..classes {
            let above = || (0..k).map(|i| lines[1 + classes * i + class]);
            let last = lines[1 + classes * k + class];
            assert_eq!(above().map(|line| shown(line, 5..15)).sum::<u64>(), shown(last, 5..17), "{text}");
            let hyphens = above().filter(|line| &line[5..15] == "----------").count();
            assert_eq!(hyphens as u64, shown(last, 18..20), "{text}");
        }
    });
}
