//! The model against the claims of document 01, and the comparisons against the model: they must find no fault in it,
//! and their cases must meet every refusal.

use conformance::calls::Model;
use conformance::compare::{apart, map, net, program, sheet, station, tree};
use conformance::edges;
use conformance::gen::aggregate;
use conformance::gen::net::any;
use conformance::model::aggregate::{Aggregate, Cell, GREATEST, LEAST, NONE};
use conformance::model::mail::{Mail, Message, Outbox};
use conformance::model::meet::{Back, Meet, ANSWER, PASS, REPORT, WAKE};
use conformance::model::net::{Net, Step};
use conformance::model::set;
use conformance::model::station::{ACTIVE, ASLEEP, FINISHED};
use conformance::model::text::output;
use conformance::rng::for_cases;

#[test]
fn demand_3_holds_for_stations_that_meet() {
    net::lists::<Meet>(&Model, 200);
    net::full_run::<Meet>(&Model);
    net::every_class_count::<Meet>(&Model);
}

#[test]
fn demand_3_holds_for_stations_with_mail() {
    net::lists::<Mail>(&Model, 200);
    net::full_run::<Mail>(&Model);
    net::every_class_count::<Mail>(&Model);
}

#[test]
fn demand_3_holds_with_totals_carried_back() {
    net::lists::<Back>(&Model, 200);
    net::full_run::<Back>(&Model);
    net::every_class_count::<Back>(&Model);
}

#[test]
fn both_kinds_report_the_same() {
    net::kinds_agree::<Meet, Mail>(&Model, &Model, 200);
    net::kinds_agree::<Meet, Back>(&Model, &Model, 200);
}

#[test]
fn parents_say_what_went_up() {
    tree::waves::<Meet>(&Model, 300);
    tree::waves::<Mail>(&Model, 300);
    tree::lines(|input| output(input).into_bytes(), 300);
}

#[test]
fn steps_far_apart_change_places() {
    apart::law::<Meet>(&Model, 2_000, 200);
    apart::law::<Back>(&Model, 2_000, 200);
}

#[test]
fn cases_meet_every_refusal() {
    station::at_extremes(&Model);
    station::lists(&Model, 5_000);
    map::reading(&Model, 5_000);
    map::handing_over(&Model, 5_000);
    net::freshness::<Meet>(&Model, 500);
    net::freshness::<Mail>(&Model, 500);
    net::hostile::<Meet>(&Model, 2_000);
    net::freshness::<Back>(&Model, 500);
    net::hostile::<Back>(&Model, 2_000);
    net::hostile::<Mail>(&Model, 2_000);
    sheet::sheets(&Model, 3_000);
}

#[test]
fn pipes_carry_the_model_s_program() {
    let program = program::Program::at(env!("CARGO_BIN_EXE_tally-model"));
    edges::program(|input| program.output(input, 3));
    program::inputs(&program, 300);
    program::length_limit(&program);
}

/// "A post replaces what a box held", whatever the words were, and leaves every other box.
#[test]
fn a_post_is_what_the_box_holds() {
    for_cases(500, |rng| {
        let net: Mail = any(rng);
        let (before, receiver) = (rng.pick(&net.outboxes), rng.station(64));
        for message in [Message::Start, Message::Answer(aggregate::any(rng))] {
            let mut outbox = before;
            outbox.post(receiver, message);
            assert_eq!(outbox.mailbox(receiver), Some(message));
            for other in (0..64).filter(|&other| other != receiver) {
                assert_eq!(outbox.mailbox(other), before.mailbox(other));
            }
        }
    });
}

/// Class by class: the missing numbers in the bytes of a word from the lowest on, the sums each in a word. A start leaves
/// them, and an answer writes them all.
#[test]
fn words_by_class() {
    let mut outbox = Outbox { answers: 1 << 5, ..Outbox::EMPTY };
    outbox.missing[5] = 0x0102_0304_0506_0740;
    outbox.sums[1][5] = 11;
    let waits = Aggregate { sums: [0, 11, 0, 0, 0, 0, 0, 0], missing: [64, 7, 6, 5, 4, 3, 2, 1] };
    assert_eq!(outbox.mailbox(5), Some(Message::Answer(waits)));
    outbox.post(5, Message::Start);
    assert_eq!((outbox.missing[5], outbox.sums[1][5]), (0x0102_0304_0506_0740, 11));
    let posted = [Cell { sum: 7, missing: 128 }, Cell { sum: 0, missing: 2 }];
    outbox.post(5, Message::Answer(Aggregate::of(posted)));
    assert_eq!((outbox.missing[5], outbox.sums.map(|sums| sums[5])), (0x0280, [7, 0, 0, 0, 0, 0, 0, 0]));
}

/// "Each step .. equals Figure 2": on any net in form, reachable or not, the same steps are allowed and do the same.
#[test]
fn steps_equal_figure_2() {
    for_cases(500, |rng| {
        let net: Meet = any(rng);
        if !net.is_well_formed() {
            return;
        }
        let stations = 0..net.config.k;
        let steps = stations
            .clone()
            .flat_map(|j| stations.clone().flat_map(move |i| (1..=REPORT).map(move |kind| (kind, j, i))));
        for (kind, j, i) in steps.filter(|&(kind, j, i)| kind != REPORT || [j, i] == [net.config.desk; 2]) {
            let step = Step { kind, sender: j, receiver: i };
            let mut met = net.clone();
            let accepted = met.step(step).is_ok();
            assert_eq!(accepted.then_some(met), figure_2(&net, step), "{step:?}");
        }
    });
}

/// The summands of Figure 2 in document 001, as printed, with the desk for station 0: i receives, j sends; none where the
/// guard is false.
fn figure_2(net: &Meet, step: Step) -> Option<Meet> {
    let (j, i) = (step.sender, step.receiver);
    let (sender, receiver) = (net.stations[usize::from(j)], net.stations[usize::from(i)]);
    let mut next = net.clone();
    let (to_sender, to_receiver) = (usize::from(j), usize::from(i));
    let done = sender.unstarted == 0 && sender.waits == 0 && sender.state == ACTIVE;
    let starts = set::contains(sender.unstarted, i) && sender.state == ACTIVE && i != j;
    let guard = match step.kind {
        REPORT => {
            next.stations[usize::from(net.config.desk)].state = FINISHED;
            done
        }
        WAKE => {
            next.stations[to_sender].unstarted = set::without(sender.unstarted, i);
            next.stations[to_receiver].unstarted = set::without(receiver.unstarted, j);
            next.stations[to_receiver].parent = j;
            next.stations[to_receiver].waits = set::size(receiver.unstarted).saturating_sub(1);
            next.stations[to_receiver].state = ACTIVE;
            receiver.state == ASLEEP && starts
        }
        PASS => {
            next.stations[to_sender].unstarted = set::without(sender.unstarted, i);
            next.stations[to_receiver].waits = receiver.waits.saturating_sub(1);
            receiver.state == ACTIVE && starts
        }
        ANSWER => {
            let (held, given) = (&mut next.stations[to_receiver].held, sender.held);
            for class in 0..usize::from(net.config.classes) {
                held.sums[class] = match (net.config.way, held.sums[class], given.sums[class]) {
                    (GREATEST | LEAST, NONE, sum) | (GREATEST | LEAST, sum, NONE) => sum,
                    (GREATEST, mine, theirs) => mine.max(theirs),
                    (LEAST, mine, theirs) => mine.min(theirs),
                    (_, mine, theirs) => mine + theirs,
                };
                held.missing[class] += given.missing[class];
            }
            next.stations[to_receiver].waits = receiver.waits.saturating_sub(1);
            next.stations[to_sender].state = FINISHED;
            done && receiver.state == ACTIVE && sender.parent == i && j != net.config.desk && j != i
        }
        _ => false,
    };
    guard.then_some(next)
}
