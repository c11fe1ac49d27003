//! Stations that meet: document 01's hollow programs and wrong turns, and those of missing readings, against the
//! comparisons and against demand 3.

use super::faulty::{self, demand_3, Fault as _};
use super::is_caught;
use conformance::calls::{Model, NetCalls};
use conformance::compare::net::{hostile, lists};
use conformance::model::aggregate::{Aggregate, Cell, MOST_MISSING, NO_READING};
use conformance::model::map::Map;
use conformance::model::meet::{Meet, ANSWER, PASS, REPORT, WAKE};
use conformance::model::net::{Net, Run, Step};
use conformance::model::refusal::{Cause, Refusal};
use conformance::model::{set, CLASSES};

/// Enough lists, and enough nets, to meet each fault.
const LISTS: u64 = 40;
const NETS: u64 = 1_000;

#[derive(Clone, Copy, Default, PartialEq, Debug)]
enum Fault {
    #[default]
    Nothing,
    StepAlwaysRefused,
    StepLeavesTheNet,
    StepMakesTheWholeWave,
    AlwaysAtRest,
    TotalFixedBeforehand,
    StepCountMadeUp,
    WaitsCountedWithoutTheParent,
    StartTakenAsNewParent,
    NoStartToTheActive,
    AnswerBeforeTheStarts,
    NoReadingAddedToTheSum,
    MissingKeptBack,
    MissingAddedAtTheReport,
    MissingUnbounded,
    MostMissingOutOfForm,
}

const FAULTS: [Fault; 13] = [
    Fault::StepAlwaysRefused,
    Fault::StepLeavesTheNet,
    Fault::StepMakesTheWholeWave,
    Fault::AlwaysAtRest,
    Fault::TotalFixedBeforehand,
    Fault::StepCountMadeUp,
    Fault::WaitsCountedWithoutTheParent,
    Fault::StartTakenAsNewParent,
    Fault::NoStartToTheActive,
    Fault::AnswerBeforeTheStarts,
    Fault::NoReadingAddedToTheSum,
    Fault::MissingKeptBack,
    Fault::MissingAddedAtTheReport,
];

/// Of the form, which few lists from a fresh net come near to.
const FORM_FAULTS: [Fault; 2] = [Fault::MissingUnbounded, Fault::MostMissingOutOfForm];

impl faulty::Fault<Meet> for Fault {
    fn is_well_formed(self, net: &Meet) -> bool {
        let mut seen = net.clone();
        for missing in seen.stations.iter_mut().flat_map(|station| &mut station.held.missing) {
            match self {
                Fault::MissingUnbounded => *missing = 0,
                Fault::MostMissingOutOfForm if *missing == MOST_MISSING => *missing += 1,
                _ => {}
            }
        }
        seen.is_well_formed()
    }

    fn is_allowed(self, net: &Meet, step: Step) -> bool {
        match (self, step.kind) {
            (Fault::NoStartToTheActive, PASS) => false,
            (Fault::AnswerBeforeTheStarts, ANSWER) => {
                let mut started = net.clone();
                started.stations[usize::from(step.sender)].unstarted = 0;
                started.is_allowed(step)
            }
            _ => net.is_allowed(step),
        }
    }

    fn make(self, net: &mut Meet, step: Step) {
        let desk = net.config.desk;
        let missing_before = net.stations[usize::from(step.receiver)].held.missing;
        net.make(step);
        let receiver = &mut net.stations[usize::from(step.receiver)];
        match (self, step.kind) {
            (Fault::WaitsCountedWithoutTheParent, WAKE) => {
                receiver.waits = set::size(receiver.unstarted).saturating_sub(1);
            }
            (Fault::StartTakenAsNewParent, PASS) if step.receiver != desk => receiver.parent = step.sender,
            (Fault::TotalFixedBeforehand, REPORT) => receiver.held = Aggregate::of([Cell { sum: 23, missing: 0 }]),
            (Fault::MissingKeptBack, ANSWER) => receiver.held.missing = missing_before,
            (Fault::MissingAddedAtTheReport, REPORT) => receiver.held.sums[0] += u64::from(missing_before[0]),
            _ => {}
        }
    }
}

impl NetCalls<Meet> for Fault {
    fn fresh(&self, map: &Map, way: u8, net: &mut Meet) -> Result<(), Refusal> {
        Model.fresh(map, way, net)?;
        if *self == Fault::NoReadingAddedToTheSum {
            for held in net.stations.iter_mut().map(|station| &mut station.held) {
                let cells = (0..CLASSES).map(|class| match held.cell(class) {
                    Cell { missing: 1, .. } => Cell { sum: NO_READING.into(), missing: 0 },
                    cell => cell,
                });
                *held = Aggregate::of(cells);
            }
        }
        Ok(())
    }

    fn step(&self, net: &mut Meet, step: Step) -> Result<Step, Refusal> {
        match self {
            Fault::StepAlwaysRefused => Err(Cause::NotAllowed.alone()),
            Fault::StepLeavesTheNet => self.on(&mut net.clone(), |faulty| faulty.step(step)),
            Fault::StepMakesTheWholeWave => {
                let made = self.on(net, |faulty| faulty.step(step));
                self.run(net, &[0; 4_033]);
                made
            }
            _ => self.on(net, |faulty| faulty.step(step)),
        }
    }

    fn draw(&self, net: &mut Meet, draw: u16) -> Result<Step, Refusal> {
        match self {
            Fault::AlwaysAtRest => Err(Cause::NothingAllowed.alone()),
            _ => self.on(net, |faulty| faulty.draw(draw)),
        }
    }

    fn run(&self, net: &mut Meet, draws: &[u16]) -> Run {
        match self {
            Fault::AlwaysAtRest => Run { refusal: None, steps: 0, at_rest: true },
            Fault::StepCountMadeUp => Run { steps: draws.len() as u32, ..self.on(net, |faulty| faulty.run(draws)) },
            _ => self.on(net, |faulty| faulty.run(draws)),
        }
    }
}

#[test]
fn the_faultless_passes() {
    lists(&Fault::Nothing, LISTS);
    hostile(&Fault::Nothing, NETS);
    demand_3(&Fault::Nothing, LISTS);
}

#[test]
fn comparison_catches_every_fault() {
    for fault in FAULTS {
        assert!(is_caught(|| lists(&fault, LISTS)), "{fault:?} passes");
    }
    for fault in FORM_FAULTS {
        assert!(is_caught(|| hostile(&fault, NETS)), "{fault:?} passes");
    }
}

/// A step that always says 13 makes no wrong step: only the comparison stops it.
#[test]
fn demand_3_catches_every_other_fault() {
    for fault in FAULTS.into_iter().filter(|&fault| fault != Fault::StepAlwaysRefused) {
        assert!(is_caught(|| demand_3(&fault, LISTS)), "{fault:?} passes");
    }
}
