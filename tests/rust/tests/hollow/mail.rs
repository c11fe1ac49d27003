//! Stations with mail: what may go wrong with boxes that are read from words and written to words, class by class.

use super::faulty::{self, Faults};
use conformance::calls::{Model, NetCalls};
use conformance::model::aggregate::{MOST_MISSING, SUM_LIMIT};
use conformance::model::mail::{Mail, Message, Outbox, DELIVERY};
use conformance::model::map::Map;
use conformance::model::net::{Config, Net, Step};
use conformance::model::refusal::Refusal;
use conformance::model::station::{ASLEEP, FINISHED};
use conformance::model::{set, CLASSES, MOST_CLASSES, PLACES};

/// The words of what answers bring: the missing numbers, or the sums of a class.
#[derive(Clone, Copy, PartialEq, Debug)]
enum Plane {
    Missing,
    Sums(usize),
}

const PLANES: [Plane; 3] = [Plane::Missing, Plane::Sums(0), Plane::Sums(CLASSES - 1)];

impl Plane {
    /// By receiver.
    fn of(self, outbox: &mut Outbox) -> &mut [u64; PLACES] {
        match self {
            Plane::Missing => &mut outbox.missing,
            Plane::Sums(class) => &mut outbox.sums[class],
        }
    }

    /// Whether what a word brings is out of form, of missing numbers that of the first class.
    fn is_beyond(self, word: u64) -> bool {
        match self {
            Plane::Missing => word as u8 > MOST_MISSING,
            Plane::Sums(_) => word >= SUM_LIMIT,
        }
    }
}

/// Where a word stands that no call may look at: beside no answer, where both bits are set, or for no box.
#[derive(Clone, Copy, PartialEq, Debug)]
enum Stray {
    BesideNothing,
    BesideAStart,
    PastK,
    ToItself,
}

const STRAYS: [Stray; 4] = [Stray::BesideNothing, Stray::BesideAStart, Stray::PastK, Stray::ToItself];

impl Stray {
    /// By k, sender, receiver, and the bits for a start and an answer.
    fn is_at(self, k: u8, sender: u8, receiver: u8, start: bool, answer: bool) -> bool {
        let exists = sender < k && receiver < k && sender != receiver;
        match self {
            Stray::BesideNothing => exists && !start && !answer,
            Stray::BesideAStart => exists && start && answer,
            Stray::PastK => sender < k && receiver >= k && !start && answer,
            Stray::ToItself => sender < k && sender == receiver && !start && answer,
        }
    }
}

#[derive(Clone, Copy, Default, PartialEq, Debug)]
enum Fault {
    #[default]
    Nothing,
    EmptyingClearsOneSet,
    EmptyingClears(Plane),
    StartPostedBesideTheAnswer,
    StartPostedOver(Plane),
    AnswerPostedBesideTheStart,
    AnswerPostedWithout(Plane),
    PastCPosted,
    PastCLeftByThePost,
    MissingPastCLeftByThePost,
    BothReadAsTheAnswer,
    MissingReadFromAllBytes,
    MissingReadFromTheTop,
    OutOfForm(Stray, Plane),
    AnswerUnbounded(Plane),
    DeliveryToItself,
    SetTrimmedToK,
    WordPastKCleared,
    FreshLeaves(Plane),
    RefusedFreshClearsTheSets,
}

fn faults() -> Faults<Fault> {
    let mut of_steps = vec![
        Fault::EmptyingClearsOneSet,
        Fault::StartPostedBesideTheAnswer,
        Fault::AnswerPostedBesideTheStart,
        Fault::PastCPosted,
        Fault::PastCLeftByThePost,
        Fault::MissingPastCLeftByThePost,
        Fault::BothReadAsTheAnswer,
        Fault::MissingReadFromAllBytes,
        Fault::MissingReadFromTheTop,
        Fault::DeliveryToItself,
        Fault::SetTrimmedToK,
        Fault::WordPastKCleared,
    ];
    for plane in PLANES {
        of_steps.extend([Fault::EmptyingClears(plane), Fault::StartPostedOver(plane)]);
        of_steps.extend([Fault::AnswerPostedWithout(plane), Fault::AnswerUnbounded(plane)]);
        of_steps.extend(STRAYS.map(|stray| Fault::OutOfForm(stray, plane)));
    }
    let of_openings = PLANES.map(Fault::FreshLeaves).into_iter().chain([Fault::RefusedFreshClearsTheSets]).collect();
    Faults { nets: 1_000, lists: 40, of_steps, of_openings, against_demand_3: vec![] }
}

/// The net with its words changed.
fn changed(net: &Mail, change: impl Fn(&mut Outbox)) -> Mail {
    let mut changed = net.clone();
    changed.outboxes.iter_mut().for_each(change);
    changed
}

/// The net as it is read where the answer goes before the start.
fn answers_first(net: &Mail) -> Mail {
    changed(net, |outbox| outbox.starts &= !outbox.answers)
}

fn has_stray(net: &Mail, stray: Stray, plane: Plane) -> bool {
    (0..).zip(net.outboxes.clone()).any(|(sender, mut outbox)| {
        let Outbox { starts, answers, .. } = outbox;
        (0..).zip(plane.of(&mut outbox)).any(|(receiver, &mut word)| {
            let (start, answer) = (set::contains(starts, receiver), set::contains(answers, receiver));
            plane.is_beyond(word) && stray.is_at(net.config.k, sender, receiver, start, answer)
        })
    })
}

impl faulty::Fault<Mail> for Fault {
    fn is_well_formed(self, net: &Mail) -> bool {
        match self {
            Fault::BothReadAsTheAnswer => answers_first(net).is_well_formed(),
            Fault::MissingReadFromAllBytes => {
                changed(net, |outbox| outbox.missing = outbox.missing.map(|word| word.min(255))).is_well_formed()
            }
            Fault::MissingReadFromTheTop => {
                changed(net, |outbox| outbox.missing = outbox.missing.map(u64::swap_bytes)).is_well_formed()
            }
            Fault::AnswerUnbounded(plane) => changed(net, |outbox| plane.of(outbox).fill(0)).is_well_formed(),
            Fault::OutOfForm(stray, plane) => net.is_well_formed() && !has_stray(net, stray, plane),
            _ => net.is_well_formed(),
        }
    }

    fn is_allowed(self, net: &Mail, step: Step) -> bool {
        match self {
            Fault::BothReadAsTheAnswer => answers_first(net).is_allowed(step),
            Fault::DeliveryToItself if step.kind == DELIVERY && step.sender == step.receiver => {
                net.outboxes[usize::from(step.sender)].mailbox(step.receiver) == Some(Message::Start)
                    && net.stations[usize::from(step.receiver)].state == ASLEEP
            }
            _ => net.is_allowed(step),
        }
    }

    fn make(self, net: &mut Mail, step: Step) {
        let before = net.clone();
        let (sender, receiver) = (usize::from(step.sender), usize::from(step.receiver));
        if self == Fault::BothReadAsTheAnswer {
            net.outboxes[sender].starts &= !(before.outboxes[sender].answers & set::singleton(step.receiver));
        }
        net.make(step);
        if sender == receiver {
            return;
        }
        let (was_from, mut was_to) = (before.outboxes[sender], before.outboxes[receiver]);
        let (Config { k, classes, .. }, held) = (net.config, net.stations[receiver].held);
        let parent = net.stations[receiver].parent;
        let at_parent = usize::from(parent);
        let [from, to] = net.outboxes.get_disjoint_mut([sender, receiver]).expect("different stations");
        let posted = to.starts & !was_to.starts;
        let answered = net.stations[receiver].state == FINISHED;
        match self {
            Fault::EmptyingClearsOneSet if set::contains(was_from.starts, step.receiver) => {
                from.answers = was_from.answers
            }
            Fault::EmptyingClears(plane) => plane.of(from)[receiver] = 0,
            Fault::StartPostedBesideTheAnswer => to.answers |= was_to.answers & posted,
            Fault::StartPostedOver(plane) => set::members(posted).for_each(|r| plane.of(to)[usize::from(r)] = 0),
            Fault::AnswerPostedBesideTheStart if set::contains(to.answers, parent) => to.starts |= was_to.starts,
            Fault::AnswerPostedWithout(plane) => plane.of(to)[at_parent] = plane.of(&mut was_to)[at_parent],
            Fault::PastCPosted if answered => to.put(parent, &held),
            Fault::PastCLeftByThePost if answered => {
                (classes.into()..CLASSES).for_each(|class| to.sums[class][at_parent] = was_to.sums[class][at_parent])
            }
            Fault::MissingPastCLeftByThePost if answered && classes < MOST_CLASSES => {
                to.missing[at_parent] |= was_to.missing[at_parent] & u64::MAX << (8 * classes)
            }
            Fault::SetTrimmedToK => from.starts &= u64::MAX >> (64 - k),
            Fault::WordPastKCleared => net.outboxes.iter_mut().skip(k.into()).for_each(|outbox| outbox.answers = 0),
            _ => {}
        }
    }

    fn fresh(self, map: &Map, way: u8, net: &mut Mail) -> Result<(), Refusal> {
        let before = net.clone();
        let opened = Model.fresh(map, way, net);
        for (outbox, mut was) in net.outboxes.iter_mut().zip(before.outboxes) {
            match self {
                Fault::FreshLeaves(plane) => *plane.of(outbox) = *plane.of(&mut was),
                Fault::RefusedFreshClearsTheSets if opened.is_err() => outbox.starts = 0,
                _ => {}
            }
        }
        opened
    }
}

#[test]
fn the_faultless_passes() {
    faults().spare_the_faultless::<Mail>();
}

#[test]
fn comparison_catches_every_fault() {
    faults().are_caught::<Mail>();
}
