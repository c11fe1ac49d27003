//! All five events: result, values, whole record, and what is given.

use super::{Coverage, DESK_ALONE, NONE_ALONE, NONE_IN_FORM, WAY_ALONE};
use crate::calls::{Model, StationCalls};
use crate::gen::station::{event, events, extreme_events, extremes, process};
use crate::model::aggregate::{is_class_count, Aggregate, GREATEST, LEAST, NONE, NUMBER, SUM};
use crate::model::net::Config;
use crate::model::refusal::number;
use crate::model::station::{Event, Process};
use crate::model::MOST_STATIONS;
use crate::rng::for_cases;

/// One event on the subject and on the model.
fn compare(subject: &impl StationCalls, process: Process, event: Event, seen: &mut Coverage) -> Process {
    let (mut left, mut due) = (process, process);
    let (expected, given_due) = Model.event(&mut due, event);
    let (answer, given) = subject.event(&mut left, event);
    assert_eq!((answer, left), (expected, due), "{event:?} on {process:?}");
    assert_eq!(given, given_due, "given for {event:?} on {process:?}");
    let number = number(&answer);
    if process.desk >= MOST_STATIONS && (Process { desk: 0, ..process }).is_well_formed() {
        seen.note(DESK_ALONE, number);
    }
    seen.note(name(event), number);
    let looked_at = match event {
        _ if answer.is_ok() => left.station.held,
        Event::TakeAnswer(gathered) if number == 12 => gathered,
        _ => process.station.held,
    };
    let Process { classes, desk, way, .. } = process;
    if way > NUMBER && (Process { way: SUM, ..process }).is_well_formed() {
        seen.note(WAY_ALONE, number);
    }
    if let (Event::TakeAnswer(gathered), true, 0 | 12) = (event, is_class_count(classes), number) {
        if gathered.cells(classes).any(|cell| cell.sum == NONE) {
            seen.note(if number == 0 { NONE_IN_FORM } else { NONE_ALONE }, way);
        }
    }
    seen.note_excess(&looked_at, Config { k: MOST_STATIONS, classes, desk, way }, number);
    left
}

fn name(event: Event) -> &'static str {
    match event {
        Event::TakeStart(_) => "take start",
        Event::SendStart(_) => "send start",
        Event::TakeAnswer(_) => "take answer",
        Event::SendAnswer => "send answer",
        Event::Report => "report",
    }
}

fn require_all(seen: &Coverage) {
    let events = events(0, Aggregate::default());
    for event in events {
        seen.require(name(event), [0, 11, 13]);
    }
    for event in &events[..3] {
        seen.require(name(*event), [12]);
    }
    seen.require_excesses(&[0, 11, 12]);
    seen.require(DESK_ALONE, [11]);
    seen.require(WAY_ALONE, [11]);
    seen.require(NONE_ALONE, [SUM, NUMBER]);
    seen.require(NONE_IN_FORM, [GREATEST, LEAST]);
}

/// Every field of the record, and every argument, at its extremes.
pub fn at_extremes(subject: &impl StationCalls) {
    let mut seen = Coverage::default();
    let events = extreme_events();
    for process in extremes() {
        for &event in &events {
            compare(subject, process, event, &mut seen);
        }
    }
    require_all(&seen);
}

/// Lists of events, each on the record that the last one left.
pub fn lists(subject: &impl StationCalls, count: u64) {
    let mut seen = Coverage::default();
    for_cases(count, |rng| {
        let mut record = process(rng);
        for _ in 0..8 {
            let event = event(rng, &record);
            record = compare(subject, record, event, &mut seen);
        }
    });
    require_all(&seen);
    seen.require_each_class();
}
