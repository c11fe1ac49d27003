//! One station: the record is lent to each event, which alters it there.

use super::lending::{lend_mut, LaidOut, Packed};
use super::Library;
use crate::calls::StationCalls;
use crate::model::aggregate;
use crate::model::refusal::Refusal;
use crate::model::station::{self as model, Event};
use crate::model::CLASSES;

#[derive(Clone, Copy)]
#[repr(C)]
pub struct Aggregate {
    sums: [u64; CLASSES],
    missing: [u8; CLASSES],
}

#[derive(Clone, Copy)]
#[repr(C)]
pub struct Station {
    held: Aggregate,
    unstarted: u64,
    parent: u8,
    waits: u8,
    state: u8,
}

#[repr(C)]
struct Given {
    answer: Packed,
    held: Aggregate,
}

#[derive(Clone, Copy)]
#[repr(C)]
pub struct Process {
    own: u8,
    classes: u8,
    desk: u8,
    way: u8,
    station: Station,
}

extern "C" {
    fn tally_process_take_start(process: *mut Process, from: u8) -> Packed;
    fn tally_process_send_start(process: *mut Process, to: u8) -> Packed;
    fn tally_process_take_answer(process: *mut Process, answer: Aggregate) -> Packed;
    fn tally_process_send_answer(process: *mut Process) -> Given;
    fn tally_process_report(process: *mut Process) -> Given;
}

impl LaidOut for aggregate::Aggregate {
    type Layout = Aggregate;

    fn lay_out(&self) -> Aggregate {
        let aggregate::Aggregate { sums, missing } = *self;
        Aggregate { sums, missing }
    }

    fn take_back(layout: &Aggregate) -> aggregate::Aggregate {
        let Aggregate { sums, missing } = *layout;
        aggregate::Aggregate { sums, missing }
    }
}

impl LaidOut for model::Station {
    type Layout = Station;

    fn lay_out(&self) -> Station {
        let model::Station { held, unstarted, parent, waits, state } = *self;
        Station { held: held.lay_out(), unstarted, parent, waits, state }
    }

    fn take_back(layout: &Station) -> model::Station {
        let Station { held, unstarted, parent, waits, state } = *layout;
        model::Station { held: LaidOut::take_back(&held), unstarted, parent, waits, state }
    }
}

impl LaidOut for model::Process {
    type Layout = Process;

    fn lay_out(&self) -> Process {
        let model::Process { own, classes, desk, way, station } = self;
        Process { own: *own, classes: *classes, desk: *desk, way: *way, station: station.lay_out() }
    }

    fn take_back(layout: &Process) -> model::Process {
        let Process { own, classes, desk, way, station } = layout;
        model::Process { own: *own, classes: *classes, desk: *desk, way: *way, station: LaidOut::take_back(station) }
    }
}

/// An answer and a report come with the parent.
fn parent(Given { answer, held }: Given) -> (Result<Option<u8>, Refusal>, aggregate::Aggregate) {
    (answer.given().map(|value| Some(value.try_into().expect("a parent"))), LaidOut::take_back(&held))
}

/// The other events come with nothing.
fn nothing(answer: Packed) -> (Result<Option<u8>, Refusal>, aggregate::Aggregate) {
    (answer.done().map(|()| None), aggregate::Aggregate::default())
}

impl StationCalls for Library {
    fn event(&self, process: &mut model::Process, event: Event) -> (Result<Option<u8>, Refusal>, aggregate::Aggregate) {
        lend_mut(process, |process| unsafe {
            match event {
                Event::TakeStart(from) => nothing(tally_process_take_start(process, from)),
                Event::SendStart(to) => nothing(tally_process_send_start(process, to)),
                Event::TakeAnswer(gathered) => nothing(tally_process_take_answer(process, gathered.lay_out())),
                Event::SendAnswer => parent(tally_process_send_answer(process)),
                Event::Report => parent(tally_process_report(process)),
            }
        })
    }
}
