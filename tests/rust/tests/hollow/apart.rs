//! Steps far apart: rules that look or write elsewhere than at the step's two stations, and conditions less than the request's.

use super::faulty::{self, Under};
use super::is_caught;
use conformance::calls::Model;
use conformance::compare::apart::{ends, listings, pairs};
use conformance::gen::net::Sample;
use conformance::model::apart::{have_none_in_common, Asked, FAR_APART};
use conformance::model::meet::{Back, Meet, ANSWER, WAKE};
use conformance::model::net::{Net, Step};
use conformance::model::station::{ACTIVE, FINISHED};

/// Enough nets to meet each fault, and enough lists.
const NETS: u64 = 400;
const LISTS: u64 = 200;

#[derive(Clone, Copy, Default, PartialEq, Debug)]
enum Fault {
    #[default]
    Nothing,
    HighestActiveAsParent,
    DeskRemembersTheLastWoken,
    AnswersWhileAnEvenNumberIsFinished,
    HalfOfTheStationsActive,
}

const FAULTS: [Fault; 4] = [
    Fault::HighestActiveAsParent,
    Fault::DeskRemembersTheLastWoken,
    Fault::AnswersWhileAnEvenNumberIsFinished,
    Fault::HalfOfTheStationsActive,
];

/// How many stations below k are in a state.
fn in_state<N: Net>(net: &N, state: u8) -> usize {
    net.stations()[..net.k().into()].iter().filter(|station| station.state == state).count()
}

impl<N: Net> faulty::Fault<N> for Fault {
    fn is_well_formed(self, net: &N) -> bool {
        let is_few = || 2 * in_state(net, ACTIVE) <= usize::from(net.k());
        net.is_well_formed() && (self != Fault::HalfOfTheStationsActive || is_few())
    }

    fn is_allowed(self, net: &N, step: Step) -> bool {
        let is_turn = || step.kind != ANSWER || in_state(net, FINISHED) % 2 == 0;
        net.is_allowed(step) && (self != Fault::AnswersWhileAnEvenNumberIsFinished || is_turn())
    }

    fn make(self, net: &mut N, step: Step) {
        let highest = (0..net.k()).rev().find(|&i| net.stations()[usize::from(i)].state == ACTIVE);
        net.make(step);
        let desk = usize::from(net.config().desk);
        match (self, step.kind) {
            (Fault::HighestActiveAsParent, WAKE) => {
                net.stations_mut()[usize::from(step.receiver)].parent = highest.expect("the sender is active");
            }
            (Fault::DeskRemembersTheLastWoken, WAKE) => net.stations_mut()[desk].parent = step.receiver,
            _ => {}
        }
    }
}

fn passes<N: Sample>() {
    pairs::<N>(&Under(Fault::Nothing), FAR_APART, NETS);
    listings::<N>(&Under(Fault::Nothing), LISTS);
    ends::<N>(&Under(Fault::Nothing), LISTS);
}

fn catches<N: Sample>(fault: Fault) {
    assert!(is_caught(|| drop(pairs::<N>(&Under(fault), FAR_APART, NETS))), "{fault:?} passes");
}

fn is_enough<N: Sample>(asked: Asked) -> bool {
    !is_caught(|| drop(pairs::<N>(&Model, asked, NETS)))
}

#[test]
fn the_faultless_passes() {
    passes::<Meet>();
    passes::<Back>();
}

#[test]
fn rules_that_look_elsewhere_are_caught() {
    for fault in FAULTS {
        catches::<Meet>(fault);
        catches::<Back>(fault);
    }
}

/// Listings show effects that look or write elsewhere, too.
#[test]
fn listings_are_compared() {
    for fault in [Fault::HighestActiveAsParent, Fault::DeskRemembersTheLastWoken] {
        assert!(is_caught(|| listings::<Meet>(&Under(fault), LISTS)), "{fault:?} passes");
        assert!(is_caught(|| ends::<Meet>(&Under(fault), LISTS)), "{fault:?} passes");
    }
}

/// Each condition is needed: apart by the senders alone, by the receivers alone, and steps that leave the form.
#[test]
fn every_condition_is_needed() {
    let by_sender: fn(Step, Step) -> bool = |s, t| s.sender != t.sender;
    let by_receiver: fn(Step, Step) -> bool = |s, t| s.receiver != t.receiver;
    for apart in [by_sender, by_receiver] {
        assert!(!is_enough::<Meet>(Asked { apart, ..FAR_APART }));
        assert!(!is_enough::<Back>(Asked { apart, ..FAR_APART }));
    }
    assert!(!is_enough::<Meet>(Asked { apart: have_none_in_common, form: false }));
    assert!(!is_enough::<Back>(Asked { apart: have_none_in_common, form: false }));
}
