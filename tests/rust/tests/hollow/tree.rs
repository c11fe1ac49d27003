//! The tree behind a total: faults in the parents and in what goes up, of which demand 3 sees only some.

use super::faulty::{self, demand_3, Under};
use super::is_caught;
use conformance::compare::tree::waves;
use conformance::gen::net::Sample;
use conformance::model::mail::Mail;
use conformance::model::meet::Meet;
use conformance::model::net::{Net, Step};
use conformance::model::station::{ASLEEP, FINISHED};

/// Enough waves to meet each fault.
const WAVES: u64 = 60;

#[derive(Clone, Copy, Default, PartialEq, Debug)]
enum Fault {
    #[default]
    Nothing,
    OldParentKeptOnWaking,
    ParentForgottenAtTheEnd,
    AnswersAddedAtTheDesk,
}

impl<N: Net> faulty::Fault<N> for Fault {
    fn make(self, net: &mut N, step: Step) {
        let before = net.clone();
        let brought = net.brought(step);
        net.make(step);
        let (desk, config) = (net.config().desk, net.config());
        match self {
            Fault::Nothing => {}
            Fault::OldParentKeptOnWaking => {
                for (station, before) in net.stations_mut().iter_mut().zip(before.stations()) {
                    if before.state == ASLEEP {
                        station.parent = before.parent;
                    }
                }
            }
            Fault::ParentForgottenAtTheEnd => {
                for station in net.stations_mut().iter_mut().filter(|station| station.state == FINISHED) {
                    station.parent = desk;
                }
            }
            Fault::AnswersAddedAtTheDesk => {
                if let Some(brought) = brought {
                    let receiver = usize::from(step.receiver);
                    net.stations_mut()[receiver].held = before.stations()[receiver].held;
                    net.stations_mut()[usize::from(desk)].held.join(&brought, config);
                }
            }
        }
    }
}

fn passes<N: Sample>() {
    waves::<N>(&Under(Fault::Nothing), WAVES);
}

fn catches<N: Sample>(fault: Fault) {
    assert!(is_caught(|| waves::<N>(&Under(fault), WAVES)), "{fault:?} passes");
}

#[test]
fn the_faultless_passes() {
    passes::<Meet>();
    passes::<Mail>();
}

#[test]
fn parents_are_checked() {
    for fault in [Fault::OldParentKeptOnWaking, Fault::ParentForgottenAtTheEnd] {
        catches::<Meet>(fault);
        catches::<Mail>(fault);
    }
}

/// With mail a receiver may post in the step that brings it an answer, so this fault is of stations that meet.
#[test]
fn what_goes_up_is_checked() {
    catches::<Meet>(Fault::AnswersAddedAtTheDesk);
}

/// The desk's total says nothing of who hung on whom.
#[test]
fn demand_3_sees_no_tree() {
    demand_3::<Meet>(&Under(Fault::ParentForgottenAtTheEnd), WAVES);
    demand_3::<Meet>(&Under(Fault::AnswersAddedAtTheDesk), WAVES);
    demand_3::<Mail>(&Under(Fault::ParentForgottenAtTheEnd), WAVES);
}
