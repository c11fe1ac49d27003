//! The desk, in either kind of net: station 0 left in its place in one rule or another, and a desk that is no station.

use super::faulty::{self, Faults};
use conformance::calls::{Model, NetCalls};
use conformance::model::mail::Mail;
use conformance::model::map::Map;
use conformance::model::meet::Meet;
use conformance::model::net::{Net, Step};
use conformance::model::refusal::Refusal;
use conformance::model::station::{ACTIVE, ASLEEP};
use conformance::model::PLACES;

#[derive(Clone, Copy, Default, PartialEq, Debug)]
enum Fault {
    #[default]
    Nothing,
    ReportStillAtZero,
    ReportAtZeroToo,
    ZeroNeverAnswers,
    OwnParentRefused,
    OwnParentOfZero,
    DeskOfKInForm,
    ZeroOpenedActive,
    ParentsOpenedZero,
    DeskNotOpened,
    FirstStartsAtZero,
}

fn faults() -> Faults<Fault> {
    Faults {
        nets: 1_000,
        lists: 40,
        of_steps: vec![
            Fault::ReportStillAtZero,
            Fault::ReportAtZeroToo,
            Fault::ZeroNeverAnswers,
            Fault::OwnParentRefused,
            Fault::OwnParentOfZero,
            Fault::DeskOfKInForm,
        ],
        of_openings: vec![Fault::ZeroOpenedActive, Fault::ParentsOpenedZero, Fault::DeskNotOpened],
        against_demand_3: vec![Fault::ZeroNeverAnswers, Fault::OwnParentRefused, Fault::ZeroOpenedActive],
    }
}

/// The net with the desk at station 0.
fn at_zero<N: Net>(net: &N) -> N {
    let mut seen = net.clone();
    seen.config_mut().desk = 0;
    seen
}

impl<N: Net> faulty::Fault<N> for Fault {
    fn is_well_formed(self, net: &N) -> bool {
        let (k, desk) = (net.k(), net.config().desk);
        match self {
            Fault::OwnParentRefused => net.is_well_formed() && net.stations()[usize::from(desk)].parent != desk,
            Fault::OwnParentOfZero if desk < k => at_zero(net).is_well_formed(),
            Fault::DeskOfKInForm if desk == k && usize::from(k) < PLACES => at_zero(net).is_well_formed(),
            _ => net.is_well_formed(),
        }
    }

    fn is_in_range(self, net: &N, step: Step) -> bool {
        match self {
            Fault::ReportStillAtZero => at_zero(net).is_in_range(step),
            Fault::ReportAtZeroToo => net.is_in_range(step) || at_zero(net).is_in_range(step),
            _ => net.is_in_range(step),
        }
    }

    fn is_allowed(self, net: &N, step: Step) -> bool {
        match self {
            Fault::ZeroNeverAnswers => at_zero(net).is_allowed(step),
            _ => net.is_allowed(step),
        }
    }

    fn make(self, net: &mut N, step: Step) {
        let desk = net.config().desk;
        if self == Fault::ZeroNeverAnswers && step.kind != N::REPORT {
            net.config_mut().desk = 0;
        }
        net.make(step);
        net.config_mut().desk = desk;
    }

    fn fresh(self, map: &Map, way: u8, net: &mut N) -> Result<(), Refusal> {
        let before = net.config();
        Model.fresh(map, way, net)?;
        if self == Fault::FirstStartsAtZero {
            let stations = *net.stations();
            Model.fresh(&Map { desk: 0, ..*map }, way, net)?;
            *net.stations_mut() = stations;
            net.config_mut().desk = map.desk;
        }
        match self {
            Fault::ZeroOpenedActive => {
                net.stations_mut()[usize::from(map.desk)].state = ASLEEP;
                net.stations_mut()[0].state = ACTIVE;
            }
            Fault::ParentsOpenedZero => net.stations_mut().iter_mut().for_each(|station| station.parent = 0),
            Fault::DeskNotOpened => net.config_mut().desk = before.desk,
            _ => {}
        }
        Ok(())
    }
}

#[test]
fn stations_that_meet() {
    faults().are_told_apart::<Meet>();
}

#[test]
fn stations_with_mail() {
    let with_mail = vec![Fault::FirstStartsAtZero];
    faults().are_told_apart::<Mail>();
    Faults { of_steps: vec![], of_openings: with_mail.clone(), against_demand_3: with_mail, ..faults() }
        .are_caught::<Mail>();
}
