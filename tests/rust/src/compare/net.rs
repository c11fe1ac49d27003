//! Nets of either kind: answer, values and whole net after every call, and demand 3 on every list from a fresh net.

use super::{Coverage, DESK_ALONE, NONE_ALONE, NONE_IN_FORM, WAY_ALONE};
use crate::calls::{Call, Model, NetCalls, Reply};
use crate::gen::aggregate::{way, way_handed_over, WAYS};
use crate::gen::call;
use crate::gen::map::{accepted, accepted_of, all_linked_mixed, handed_over};
use crate::gen::net::{any, junk, Sample};
use crate::model::aggregate::{in_use, Aggregate, GREATEST, LEAST, NONE, NUMBER, SUM};
use crate::model::demand::{check_run_formula, Record};
use crate::model::map::{Map, LOT_LIMIT};
use crate::model::net::Net;
use crate::model::refusal::number;
use crate::model::{MOST_CLASSES, MOST_STATIONS, PLACES};
use crate::rng::{for_cases, Rng};

/// One call on the subject and on the model.
fn compare<N: Net>(subject: &impl NetCalls<N>, net: &mut N, call: &Call, seen: &mut Coverage) -> Reply {
    let mut due = net.clone();
    let expected = Model.call(&mut due, call);
    if is_out_by_its_desk(net) {
        seen.note(DESK_ALONE, expected.number());
    }
    note_way(net, expected.number(), seen);
    let reply = subject.call(net, call);
    assert_eq!(reply, expected, "{call:?}");
    assert_same(net, &due, call);
    note(call, &reply, net, seen);
    reply
}

/// Whether another desk would bring the net into form.
fn is_out_by_its_desk<N: Net>(net: &N) -> bool {
    let mut other = net.clone();
    other.config_mut().desk = 0;
    net.config().desk >= net.k() && other.is_well_formed()
}

/// Whether another way would bring the net into form, and, of a net with a none, whether it is in form and would be without.
fn note_way<N: Net>(net: &N, number: u8, seen: &mut Coverage) {
    let mut other = net.clone();
    other.config_mut().way = SUM;
    if net.config().way > NUMBER && other.is_well_formed() {
        seen.note(WAY_ALONE, number);
    }
    let mut other = net.clone();
    let below = usize::from(net.k()).min(PLACES);
    for station in &mut other.stations_mut()[..below] {
        let classes = net.config().classes.min(MOST_CLASSES);
        for sum in &mut station.held.sums[in_use(classes)] {
            *sum = if *sum == NONE { 0 } else { *sum };
        }
    }
    match (net.is_well_formed(), other.is_well_formed()) {
        _ if other == *net => {}
        (true, _) => seen.note(NONE_IN_FORM, net.config().way),
        (false, true) => seen.note(NONE_ALONE, net.config().way),
        _ => {}
    }
}

/// Whole nets agree; the first place that does not is shown.
fn assert_same<N: Net>(given: &N, due: &N, after: &impl std::fmt::Debug) {
    for (own, (given, due)) in given.stations().iter().zip(due.stations()).enumerate() {
        assert_eq!(given, due, "station {own} after {after:?}");
    }
    for (sender, (given, due)) in given.outboxes().iter().zip(due.outboxes()).enumerate() {
        assert_eq!((given.starts, given.answers), (due.starts, due.answers), "sets of sender {sender} after {after:?}");
        let receivers = if given == due { 0 } else { MOST_STATIONS };
        for receiver in 0..receivers {
            let (given, due) = (given.gathered(receiver), due.gathered(receiver));
            assert_eq!(given, due, "words from {sender} to {receiver} after {after:?}");
        }
    }
    assert_eq!(given.config(), due.config(), "k, c, desk and way after {after:?}");
    assert!(given == due, "the net after {after:?}");
}

fn note<N: Net>(call: &Call, reply: &Reply, net: &N, seen: &mut Coverage) {
    match reply {
        Reply::Step(Ok(step)) => seen.note("kind", step.kind),
        Reply::Draw(Ok(step)) => seen.note("kind drawn", step.kind),
        Reply::Run(run) if run.at_rest => seen.note("run to rest", 0),
        _ => {}
    }
    note_excess(reply, net, seen);
    let name = match call {
        Call::Step(_) => "step",
        Call::Draw(_) => "draw",
        Call::Run(_) => "run",
    };
    seen.note(name, reply.number());
}

/// By what a call that made a step left the form: a step or a draw with 0, a run with 11.
fn note_excess<N: Net>(reply: &Reply, net: &N, seen: &mut Coverage) {
    let was_in_form = match reply {
        Reply::Step(result) | Reply::Draw(result) => result.is_ok(),
        Reply::Run(run) => run.steps > 0,
    };
    let stations = if was_in_form { &net.stations()[..net.k().into()] } else { &[] };
    for station in stations {
        seen.note_excess(&station.held, net.config(), reply.number());
    }
}

/// The fresh net of a map handed over, to join counts a way handed over, laid over anything.
fn fresh<N: Sample>(subject: &impl NetCalls<N>, rng: &mut Rng, map: &Map, way: u8, seen: &mut Coverage) -> N {
    let mut given: N = junk(rng);
    let mut due = given.clone();
    let expected = Model.fresh(map, way, &mut due);
    assert_eq!(subject.fresh(map, way, &mut given), expected, "the fresh net of {map:?}, way {way}");
    assert_same(&given, &due, map);
    seen.note("fresh", number(&expected));
    if expected.is_ok() {
        seen.note("classes opened", map.classes);
        seen.note("ways opened", way);
        seen.note("unstorable lots opened", (map.lot >= LOT_LIMIT).into());
    }
    given
}

/// Fresh nets of maps good and bad.
pub fn freshness<N: Sample>(subject: &impl NetCalls<N>, count: u64) {
    let mut seen = Coverage::default();
    for_cases(count, |rng| {
        let (map, way) = (handed_over(rng), way_handed_over(rng));
        fresh(subject, rng, &map, way, &mut seen);
    });
    seen.require("fresh", [0, 2, 3, 7, 8, 9, 10, 12, 19]);
    seen.require("ways opened", WAYS);
    seen.require("classes opened", 1..=MOST_CLASSES);
    seen.require("unstorable lots opened", 0..=1);
}

/// Draws of a run on any net: enough for what a run keeps from step to step to go wrong.
const LONGEST_RUN: usize = 40;

/// Calls on nets that a caller may hand over, in form or not.
pub fn hostile<N: Sample>(subject: &impl NetCalls<N>, count: u64) {
    let mut seen = Coverage::default();
    for_cases(count, |rng| {
        let mut net: N = any(rng);
        for _ in 0..4 {
            let call = call::any(rng, &net, LONGEST_RUN);
            compare(subject, &mut net, &call, &mut seen);
        }
    });
    seen.require("step", [0, 11, 12, 13]);
    seen.require("draw", [0, 11, 14]);
    seen.require("run", [0, 11]);
    seen.require_excesses(&[0, 11]);
    seen.require_each_class();
    seen.require(DESK_ALONE, [11]);
    seen.require(WAY_ALONE, [11]);
    seen.require(NONE_ALONE, [SUM, NUMBER]);
    seen.require(NONE_IN_FORM, [GREATEST, LEAST]);
    require_kinds::<N>(&seen);
}

fn require_kinds<N: Net>(seen: &Coverage) {
    seen.require("kind", 1..=N::LAST);
    seen.require("kind drawn", 1..=N::LAST);
    seen.require("run to rest", [0]);
}

/// Lists of calls from fresh nets of accepted maps; demand 3 holds on each.
pub fn lists<N: Sample>(subject: &impl NetCalls<N>, count: u64) {
    let mut seen = Coverage::default();
    for_cases(count, |rng| {
        let (map, way) = (accepted(rng), way(rng));
        let net: N = fresh(subject, rng, &map, way, &mut seen);
        list(subject, rng, &map, net, |net, call| compare(subject, net, call, &mut seen));
    });
    seen.require("step", [0, 12, 13]);
    seen.require("draw", [0, 14]);
    seen.require("ways opened", WAYS);
    require_kinds::<N>(&seen);
}

/// One list: some calls; in half of the lists then a run with draws enough for all, and some calls more. Demand 3 is
/// checked from what `make` gives for each call.
pub fn list<N: Sample>(
    subject: &impl NetCalls<N>,
    rng: &mut Rng,
    map: &Map,
    mut net: N,
    mut make: impl FnMut(&mut N, &Call) -> Reply,
) {
    let whole = Record::full::<N>(map);
    let count = rng.index(whole + 3);
    check_run_formula(subject, map, &net, &call::draws(rng, count));
    let mut record = Record::new::<N>(map);
    let mut enter = |rng: &mut Rng, call: Option<Call>| {
        let call = call.unwrap_or_else(|| call::any(rng, &net, whole / 4 + 2));
        let before = net.clone();
        let reply = make(&mut net, &call);
        record.enter(subject, &before, &call, &reply, &net);
    };
    (0..rng.below(30)).for_each(|_| enter(rng, None));
    if rng.chance(50) {
        let draws = call::draws(rng, whole);
        enter(rng, Some(Call::Run(draws)));
        (0..rng.below(6)).for_each(|_| enter(rng, None));
    }
    record.close(subject, &net);
}

/// One full run on 64 stations all linked, with one class and with eight, and demand 3 on it.
pub fn full_run<N: Sample>(subject: &impl NetCalls<N>) {
    for_cases(1, |rng| {
        for (classes, way) in [(1, SUM), (MOST_CLASSES, LEAST)] {
            let map = all_linked_mixed(rng, classes);
            whole_wave(subject, rng, &map, way);
        }
    });
}

/// A full run for every class count and way, on the smallest maps and on 64 stations, and demand 3 on it.
pub fn every_class_count<N: Sample>(subject: &impl NetCalls<N>) {
    for_cases(1, |rng| {
        for classes in 1..=MOST_CLASSES {
            for k in [1, 2, MOST_STATIONS] {
                let map = accepted_of(rng, k, classes);
                WAYS.into_iter().for_each(|way| whole_wave(subject, rng, &map, way));
            }
        }
    });
}

fn whole_wave<N: Sample>(subject: &impl NetCalls<N>, rng: &mut Rng, map: &Map, way: u8) {
    let mut seen = Coverage::default();
    let mut net: N = fresh(subject, rng, map, way, &mut seen);
    let before = net.clone();
    let call = Call::Run(call::draws(rng, Record::full::<N>(map) + 1));
    let reply = compare(subject, &mut net, &call, &mut seen);
    let mut record = Record::new::<N>(map);
    record.enter(subject, &before, &call, &reply, &net);
    record.close(subject, &net);
}

/// Both kinds of net report the same for the same map and way, in any order of steps.
pub fn kinds_agree<A: Sample, B: Sample>(left: &impl NetCalls<A>, right: &impl NetCalls<B>, count: u64) {
    for_cases(count, |rng| {
        let (map, way) = (accepted(rng), way(rng));
        let (left, right) = (reported(left, rng, &map, way), reported(right, rng, &map, way));
        assert_eq!(left, right, "what is reported for {map:?}, way {way}");
    });
}

/// What a whole wave in a random order reports.
fn reported<N: Sample>(subject: &impl NetCalls<N>, rng: &mut Rng, map: &Map, way: u8) -> Aggregate {
    let mut net: N = junk(rng);
    subject.fresh(map, way, &mut net).expect("the map is accepted");
    let draws = call::draws(rng, Record::full::<N>(map));
    assert!(subject.run(&mut net, &draws).at_rest, "a whole wave comes to rest");
    net.stations()[usize::from(map.desk)].held
}
