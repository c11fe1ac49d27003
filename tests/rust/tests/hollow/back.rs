//! Totals carried back: wrong turns of tells, against the comparisons and against demand 3.

use super::faulty::{self, demand_3, Under};
use super::is_caught;
use conformance::compare::net::{hostile, lists};
use conformance::model::aggregate::Aggregate;
use conformance::model::meet::{Back, REPORT, TELL, TOLD};
use conformance::model::net::{Net, Step};
use conformance::model::station::{ACTIVE, FINISHED};

/// Enough lists, and enough nets, to meet each fault.
const LISTS: u64 = 40;
const NETS: u64 = 2_000;

#[derive(Clone, Copy, Default, PartialEq, Debug)]
enum Fault {
    #[default]
    Nothing,
    NeverTold,
    ToldBeforeTheReport,
    ToldByTheDeskAlone,
    ToldAgain,
    ToldByAnyThatKnows,
    OwnSumTold,
    OneClassTold,
    ToldOverItsOwnSum,
    ToldDeskInForm,
    ToldWhileWaiting,
    KeptUnbounded,
}

const FAULTS: [Fault; 7] = [
    Fault::NeverTold,
    Fault::ToldBeforeTheReport,
    Fault::ToldByTheDeskAlone,
    Fault::ToldAgain,
    Fault::OwnSumTold,
    Fault::OneClassTold,
    Fault::ToldByAnyThatKnows,
];

/// Of what demand 3 does not ask: the own sum under a told station.
const SUM_FAULTS: [Fault; 1] = [Fault::ToldOverItsOwnSum];

/// Of the form, which no list from a fresh net comes near to.
const FORM_FAULTS: [Fault; 3] = [Fault::ToldDeskInForm, Fault::ToldWhileWaiting, Fault::KeptUnbounded];

impl faulty::Fault<Back> for Fault {
    fn kinds(self, net: &Back) -> u8 {
        match self {
            Fault::NeverTold => REPORT,
            _ => net.kinds(),
        }
    }

    fn is_well_formed(self, net: &Back) -> bool {
        let mut seen = net.clone();
        let desk = usize::from(seen.0.config.desk);
        match self {
            Fault::ToldDeskInForm => {
                if let Some(station) = seen.0.stations.get_mut(desk).filter(|station| station.state == TOLD) {
                    station.state = FINISHED;
                }
            }
            Fault::ToldWhileWaiting => {
                for station in seen.0.stations.iter_mut().filter(|station| station.state == TOLD) {
                    station.waits = 0;
                }
            }
            Fault::KeptUnbounded => seen.0.kept = [Aggregate::default(); 64],
            _ => {}
        }
        seen.is_well_formed()
    }

    fn is_allowed(self, net: &Back, step: Step) -> bool {
        let mut seen = net.clone();
        if step.kind == TELL {
            let (desk, sender, receiver) =
                (usize::from(net.0.config.desk), usize::from(step.sender), usize::from(step.receiver));
            let stations = &mut seen.0.stations;
            match self {
                Fault::ToldBeforeTheReport if stations[desk].state == ACTIVE => stations[desk].state = FINISHED,
                Fault::ToldByTheDeskAlone if sender != desk => return false,
                Fault::ToldAgain if receiver != desk && stations[receiver].state == TOLD => {
                    stations[receiver].state = FINISHED;
                }
                Fault::ToldByAnyThatKnows => stations[receiver].parent = step.sender,
                _ => {}
            }
        }
        seen.is_allowed(step)
    }

    fn make(self, net: &mut Back, step: Step) {
        let own = net.0.stations[usize::from(step.sender)].held;
        net.make(step);
        if step.kind != TELL {
            return;
        }
        let receiver = usize::from(step.receiver);
        let (known, station) = (&mut net.0.kept[receiver], &mut net.0.stations[receiver]);
        match self {
            Fault::OwnSumTold => *known = own.given(net.0.config.classes),
            Fault::OneClassTold => *known = known.given(1),
            Fault::ToldOverItsOwnSum => station.held = *known,
            _ => {}
        }
    }
}

#[test]
fn the_faultless_passes() {
    lists(&Under(Fault::Nothing), LISTS);
    hostile(&Under(Fault::Nothing), NETS);
    demand_3(&Under(Fault::Nothing), LISTS);
}

#[test]
fn comparison_catches_every_fault() {
    for fault in FAULTS.into_iter().chain(SUM_FAULTS) {
        assert!(is_caught(|| lists(&Under(fault), LISTS)), "{fault:?} passes");
    }
    for fault in FORM_FAULTS {
        assert!(is_caught(|| hostile(&Under(fault), NETS)), "{fault:?} passes");
    }
}

/// Demand 3 says how many are told and what they then know, not by whom: a tell over no link passes it.
#[test]
fn demand_3_catches_every_other_fault() {
    for fault in FAULTS.into_iter().filter(|&fault| fault != Fault::ToldByAnyThatKnows) {
        assert!(is_caught(|| demand_3(&Under(fault), LISTS)), "{fault:?} passes");
    }
}
