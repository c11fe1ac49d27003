//! One station: what may go wrong with missing numbers and with classes, in the record, handed over, and given, with the size of a
//! set that is counted over part of its word, and with the desk.

use super::is_caught;
use conformance::calls::{Model, StationCalls};
use conformance::compare::station::{at_extremes, lists};
use conformance::model::aggregate::{Aggregate, Cell, MOST_MISSING};
use conformance::model::net::Config;
use conformance::model::refusal::{Cause, Refusal};
use conformance::model::station::{Event, Process, ASLEEP};
use conformance::model::{set, CLASSES, MOST_CLASSES, MOST_STATIONS};

/// Enough lists to meet each fault.
const LISTS: u64 = 5_000;

#[derive(Clone, Copy, PartialEq, Debug)]
enum Fault {
    Nothing,
    RecordUnbounded,
    MostInTheRecordRefused,
    HandedOverUnbounded,
    MostHandedOverRefused,
    TooManyHandedOverOutOfForm,
    MissingNotAdded,
    JoinedUpToTheBound,
    LastClassUnbounded,
    PastCBounded,
    LastClassNotJoined,
    PastCJoined,
    PastCCleared,
    PastCGiven,
    GivenWhenRefused,
    NineClassesInForm,
    HalfAWordCounted,
    LastStationUncounted,
    DeskStillZero,
    DeskUntested,
    OwnParentRefused,
}

const FAULTS: [Fault; 20] = [
    Fault::RecordUnbounded,
    Fault::MostInTheRecordRefused,
    Fault::HandedOverUnbounded,
    Fault::MostHandedOverRefused,
    Fault::TooManyHandedOverOutOfForm,
    Fault::MissingNotAdded,
    Fault::JoinedUpToTheBound,
    Fault::LastClassUnbounded,
    Fault::PastCBounded,
    Fault::LastClassNotJoined,
    Fault::PastCJoined,
    Fault::PastCCleared,
    Fault::PastCGiven,
    Fault::GivenWhenRefused,
    Fault::NineClassesInForm,
    Fault::HalfAWordCounted,
    Fault::LastStationUncounted,
    Fault::DeskStillZero,
    Fault::DeskUntested,
    Fault::OwnParentRefused,
];

impl Fault {
    /// What the guards see of something held or handed over.
    fn seen(self, mut gathered: Aggregate, handed_over: bool, classes: u8) -> Aggregate {
        for missing in &mut gathered.missing {
            match (self, handed_over) {
                (Fault::RecordUnbounded, false) | (Fault::HandedOverUnbounded, true) => *missing = 0,
                (Fault::MostInTheRecordRefused, false) | (Fault::MostHandedOverRefused, true)
                    if *missing == MOST_MISSING =>
                {
                    *missing += 1
                }
                _ => {}
            }
        }
        if self == Fault::LastClassUnbounded && (1..=MOST_CLASSES).contains(&classes) {
            gathered.put(usize::from(classes) - 1, Cell::default());
        }
        gathered
    }

    /// What a count of the set goes over.
    fn counted(self, set: u64) -> u64 {
        match self {
            Fault::HalfAWordCounted => set & u64::from(u32::MAX),
            Fault::LastStationUncounted => set & (u64::MAX >> 1),
            _ => set,
        }
    }

    /// Whether the guards let an event pass.
    fn admit(self, process: &Process, event: Event) -> Result<Option<u8>, Refusal> {
        let mut process = *process;
        let event = match event {
            Event::TakeAnswer(gathered) => Event::TakeAnswer(self.seen(gathered, true, process.classes)),
            _ => event,
        };
        process.station.held = self.seen(process.station.held, false, process.classes);
        process.classes = match (self, process.classes) {
            (Fault::PastCBounded, 1..=MOST_CLASSES) | (Fault::NineClassesInForm, 9) => MOST_CLASSES,
            (_, classes) => classes,
        };
        match self {
            Fault::DeskStillZero if process.desk < MOST_STATIONS => process.desk = 0,
            Fault::DeskUntested => process.desk = process.desk.min(MOST_STATIONS - 1),
            Fault::OwnParentRefused if process.station.parent == process.own => return Err(Cause::OutOfForm.alone()),
            _ => {}
        }
        Model.event(&mut process, event).0.map_err(|refusal| match (self, refusal.number) {
            (Fault::TooManyHandedOverOutOfForm, 12) => Cause::OutOfForm.alone(),
            _ => refusal,
        })
    }

    /// What becomes of an event that passed, by what the record held before it.
    fn spoil(self, event: Event, classes: u8, before: &Aggregate, held: &mut Aggregate, given: &mut Aggregate) {
        let (past_c, last) = (classes.into()..CLASSES, usize::from(classes) - 1);
        match (self, event) {
            (Fault::MissingNotAdded, _) => held.missing = before.missing,
            (Fault::JoinedUpToTheBound, _) => {
                held.missing[..=last].iter_mut().for_each(|missing| *missing = (*missing).min(MOST_MISSING))
            }
            (Fault::LastClassNotJoined, _) => held.put(last, before.cell(last)),
            (Fault::PastCJoined, Event::TakeAnswer(gathered)) => {
                past_c.for_each(|class| held.sums[class] = held.sums[class].wrapping_add(gathered.sums[class]))
            }
            (Fault::PastCCleared, _) => past_c.for_each(|class| held.put(class, Cell::default())),
            (Fault::PastCGiven, Event::SendAnswer | Event::Report) => *given = *held,
            _ => {}
        }
    }
}

/// An event without its guards, and what it gives.
fn make(process: &mut Process, event: Event) -> Aggregate {
    let Process { classes, desk, way, .. } = *process;
    let station = &mut process.station;
    match event {
        Event::TakeStart(from) => station.take_start(from),
        Event::SendStart(to) => station.send_start(to),
        Event::TakeAnswer(gathered) => station.take_answer(&gathered, Config { k: MOST_STATIONS, classes, desk, way }),
        Event::SendAnswer | Event::Report => return station.finish(classes).gathered,
    }
    Aggregate::default()
}

impl StationCalls for Fault {
    fn event(&self, process: &mut Process, event: Event) -> (Result<Option<u8>, Refusal>, Aggregate) {
        let before = *process;
        let verdict = self.admit(process, event);
        let mut given = Aggregate::default();
        if verdict.is_ok() && process.classes <= MOST_CLASSES {
            given = make(process, event);
            self.spoil(event, before.classes, &before.station.held, &mut process.station.held, &mut given);
            if before.station.state == ASLEEP {
                process.station.waits = set::size(self.counted(before.station.unstarted)).saturating_sub(1);
            }
        }
        if *self == Fault::GivenWhenRefused && verdict.is_err() {
            given = before.station.held;
        }
        (verdict, given)
    }
}

#[test]
fn the_faultless_passes() {
    lists(&Fault::Nothing, LISTS);
}

#[test]
fn comparisons_catch_every_fault() {
    for fault in FAULTS {
        assert!(is_caught(|| at_extremes(&fault)), "{fault:?} passes at the extremes");
        assert!(is_caught(|| lists(&fault, LISTS)), "{fault:?} passes");
    }
}
