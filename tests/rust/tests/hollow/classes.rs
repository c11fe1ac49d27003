//! Classes, in either kind of net: one left out, one too many, and what stands past c looked at or altered.

use super::faulty::{self, Faults};
use conformance::calls::{Model, NetCalls};
use conformance::model::aggregate::Cell;
use conformance::model::mail::Mail;
use conformance::model::map::Map;
use conformance::model::meet::Meet;
use conformance::model::net::{Net, Step};
use conformance::model::refusal::Refusal;
use conformance::model::{CLASSES, MOST_CLASSES};

#[derive(Clone, Copy, Default, PartialEq, Debug)]
enum Fault {
    #[default]
    Nothing,
    LastNotJoined,
    AllJoinedAsTheFirst,
    PastCAdded,
    PastCCleared,
    LastUnbounded,
    OnlyTheFirstBounded,
    PastCBounded,
    NineInForm,
    NoneInForm,
    LastNotOpened,
    PastCNotOpened,
    ClassCountNotOpened,
}

fn faults() -> Faults<Fault> {
    Faults {
        nets: 1_000,
        lists: 40,
        of_steps: vec![
            Fault::LastNotJoined,
            Fault::AllJoinedAsTheFirst,
            Fault::PastCAdded,
            Fault::PastCCleared,
            Fault::LastUnbounded,
            Fault::OnlyTheFirstBounded,
            Fault::PastCBounded,
            Fault::NineInForm,
            Fault::NoneInForm,
        ],
        of_openings: vec![Fault::LastNotOpened, Fault::PastCNotOpened, Fault::ClassCountNotOpened],
        against_demand_3: vec![Fault::LastNotJoined, Fault::AllJoinedAsTheFirst, Fault::LastNotOpened],
    }
}

impl<N: Net> faulty::Fault<N> for Fault {
    fn is_well_formed(self, net: &N) -> bool {
        let (mut seen, classes) = (net.clone(), net.config().classes);
        seen.config_mut().classes = match self {
            Fault::LastUnbounded if classes > 1 => classes - 1,
            Fault::OnlyTheFirstBounded if classes <= MOST_CLASSES => classes.min(1),
            Fault::PastCBounded if classes > 0 => classes.max(MOST_CLASSES),
            Fault::NineInForm if classes == MOST_CLASSES + 1 => MOST_CLASSES,
            Fault::NoneInForm if classes == 0 => 1,
            _ => classes,
        };
        seen.is_well_formed()
    }

    fn make(self, net: &mut N, step: Step) {
        let (receiver, classes) = (usize::from(step.receiver), net.config().classes);
        let before = net.stations()[receiver].held;
        if classes > MOST_CLASSES {
            return; // there are no rules for so many: passing for a net in form is fault enough
        }
        net.make(step);
        let held = &mut net.stations_mut()[receiver].held;
        if *held == before {
            return;
        }
        let past_c = classes.into()..CLASSES;
        let last = usize::from(classes) - 1;
        match self {
            Fault::LastNotJoined => held.put(last, before.cell(last)),
            Fault::AllJoinedAsTheFirst => (1..=last).for_each(|class| held.put(class, held.cell(0))),
            Fault::PastCAdded => held.sums[past_c].iter_mut().for_each(|sum| *sum = sum.wrapping_add(1)),
            Fault::PastCCleared => past_c.for_each(|class| held.put(class, Cell::default())),
            _ => {}
        }
    }

    fn fresh(self, map: &Map, way: u8, net: &mut N) -> Result<(), Refusal> {
        let before = net.clone();
        Model.fresh(map, way, net)?;
        let past_c = map.classes.into()..CLASSES;
        for (station, was) in net.stations_mut().iter_mut().zip(before.stations()) {
            match self {
                Fault::LastNotOpened => station.held.put(past_c.start - 1, Cell::default()),
                Fault::PastCNotOpened => past_c.clone().for_each(|class| station.held.put(class, was.held.cell(class))),
                _ => {}
            }
        }
        if self == Fault::ClassCountNotOpened {
            net.config_mut().classes = before.config().classes;
        }
        Ok(())
    }
}

#[test]
fn stations_that_meet() {
    faults().are_told_apart::<Meet>();
}

#[test]
fn stations_with_mail() {
    faults().are_told_apart::<Mail>();
}
