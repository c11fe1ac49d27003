//! Maps: results, maps, and every byte of every lent buffer.

use super::Coverage;
use crate::calls::{MapCalls, Model};
use crate::gen::{bytes, map};
use crate::model::map::Map;
use crate::model::refusal::number;
use crate::model::MOST_CLASSES;
use crate::rng::{for_cases, Rng};

/// The desks that must be met: 0, 1, the last station, and the last of 64.
const DESKS: [(u8, fn(&Map) -> bool); 4] = [
    (0, |map| map.desk == 0),
    (1, |map| map.desk == 1),
    (2, |map| map.desk > 1 && map.desk + 1 == map.k),
    (3, |map| map.desk == 63),
];

/// Bytes on either side of a lent buffer, which no call may touch.
const MARGIN: usize = 8;

pub fn reading(subject: &impl MapCalls, count: u64) {
    let mut seen = Coverage::default();
    for_cases(count, |rng| {
        let lent = bytes::lent(rng);
        let before = map::handed_over(rng);
        let (mut given, mut due) = (before, before);
        let expected = Model.read(&lent, &mut due);
        assert_eq!(subject.read(&lent, &mut given), expected, "reading {lent:?}");
        assert_eq!(given, due, "the map of {lent:?}");
        seen.note("read", number(&expected));
        if expected.is_ok() {
            seen.note("classes read", due.classes);
            seen.note("long lots read", (due.lot >> 32 > 0).into());
            DESKS.iter().filter(|desk| desk.1(&due)).for_each(|desk| seen.note("desk read", desk.0));
        }
    });
    seen.require("read", (0..=10).chain([19]));
    seen.require("desk read", DESKS.map(|desk| desk.0));
    seen.require("classes read", 1..=MOST_CLASSES);
    seen.require("long lots read", 0..=1);
}

pub fn handing_over(subject: &impl MapCalls, count: u64) {
    let mut seen = Coverage::default();
    for_cases(count, |rng| {
        let map = map::handed_over(rng);
        let accepted = Model.accept(&map);
        assert_eq!(subject.accept(&map), accepted, "accepting {map:?}");
        assert_eq!(subject.links(&map), Model.links(&map), "links of {map:?}");
        seen.note("accept", number(&accepted));
        write(subject, rng, &map, &mut seen);
    });
    seen.require("accept", [0, 2, 3, 7, 8, 9, 10, 19]);
    seen.require("write", [0, 2, 3, 7, 8, 9, 10, 15, 18, 19]);
    seen.require("classes written", 1..=MOST_CLASSES);
}

/// Writes into a buffer of some length; what it fills reads back.
fn write(subject: &impl MapCalls, rng: &mut Rng, map: &Map, seen: &mut Coverage) {
    let needed = map.stored_length();
    let length = rng.pick(&[0, needed - 1, needed, needed, needed + 1, needed + 50]);
    let before = rng.bytes(length + 2 * MARGIN);
    let (mut given, mut due) = (before.clone(), before);
    let expected = Model.write(map, &mut due[MARGIN..MARGIN + length]);
    let buffer = &mut given[MARGIN..MARGIN + length];
    assert_eq!(subject.write(map, buffer), expected, "writing {map:?} into {length} bytes");
    if expected.is_ok() {
        let mut back = Map::empty(0, 0, 0);
        assert_eq!(subject.read(&buffer[..needed], &mut back), Ok(()), "reading back {map:?}");
        assert_eq!(back, map.trimmed(), "what was written reads back");
        seen.note("classes written", map.classes);
    }
    assert_eq!(given, due, "the buffer for {map:?}");
    seen.note("write", number(&expected));
}
