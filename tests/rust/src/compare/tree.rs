//! The tree behind a total: complete waves, step by step, and what went by against what the parents alone say in the end.

use crate::calls::NetCalls;
use crate::gen::aggregate::way;
use crate::gen::call;
use crate::gen::map::{accepted, all_linked_mixed};
use crate::gen::net::{junk, Sample};
use crate::model::aggregate::{Aggregate, Cell, SUM};
use crate::model::demand::Record;
use crate::model::map::{stored, Map};
use crate::model::net::{Net, Step};
use crate::model::station::ASLEEP;
use crate::model::tree::Tree;
use crate::model::{set, MOST_CLASSES};
use crate::rng::{for_cases, runs_one_case, Rng};
use std::collections::BTreeSet;

/// What went up: from whom and to whom, and what it brought.
type Sent = (u8, u8, Aggregate);

/// Waves on maps of every shape, and on 64 stations all linked. Some chain is longer than the least number of hops.
pub fn waves<N: Sample>(subject: &impl NetCalls<N>, count: u64) {
    let mut detours = 0;
    for_cases(count, |rng| {
        let map = accepted(rng);
        detours += usize::from(wave(subject, rng, &map));
    });
    assert!(detours > 0 || runs_one_case(), "no tree but least-hop ones arose");
}

pub fn largest<N: Sample>(subject: &impl NetCalls<N>) {
    for_cases(1, |rng| {
        let map = all_linked_mixed(rng, MOST_CLASSES);
        wave(subject, rng, &map);
    });
}

/// One wave, and the tells after it where totals are carried back; whether a neighbour of the desk hangs on another station.
fn wave<N: Sample>(subject: &impl NetCalls<N>, rng: &mut Rng, map: &Map) -> bool {
    let mut net: N = junk(rng);
    let way = way(rng);
    subject.fresh(map, way, &mut net).expect("the map is accepted");
    let mut sent = Vec::new();
    for draw in call::draws(rng, Record::full::<N>(map)) {
        let before = net.clone();
        let step = subject.draw(&mut net, draw).expect("a full run makes 2m + 1 steps, and its tells");
        sent.extend(went_by(&before, step, &net).map(|brought| (step.sender, step.receiver, brought)));
        assert_parents_stay(&before, &net);
    }
    let tree = Tree::of(map, &net);
    check(map, way, &tree, &sent);
    for station in 0..map.k {
        let held = net.stations()[usize::from(station)].held;
        assert_eq!(held.given(map.classes), tree.total(station, way), "station {station} holds the total of its tree");
    }
    let mut near = set::members(map.neighbours[usize::from(map.desk)]);
    near.any(|station| tree.parent(station) != map.desk)
}

/// What an answer brought: by the rules of its kind of net, and as much as its receiver gained.
fn went_by<N: Net>(before: &N, step: Step, after: &N) -> Option<Aggregate> {
    let receiver = usize::from(step.receiver);
    let mut due = before.stations()[receiver].held;
    let brought = before.brought(step);
    if let Some(brought) = &brought {
        due.join(brought, before.config());
    }
    assert_eq!(after.stations()[receiver].held, due, "a receiver gains what the answer brings: {step:?}");
    brought
}

/// After waking a parent never changes.
fn assert_parents_stay<N: Net>(before: &N, after: &N) {
    for (own, (before, after)) in before.stations().iter().zip(after.stations()).enumerate() {
        assert!(before.state == ASLEEP || before.parent == after.parent, "the parent of {own} changed");
    }
}

/// The claims of request 6, of the parents after the report and of what went up before.
fn check(map: &Map, way: u8, tree: &Tree, sent: &[Sent]) {
    assert!(tree.has_neighbours_as_parents(), "each station but the desk has a neighbour as parent");
    for station in 0..map.k {
        assert!(tree.way(station).is_some(), "parents lead from {station} to the desk in at most k − 1 hops");
    }
    assert_eq!(tree.total(map.desk, way), map.total(way), "the desk's is the total of all");
    let senders: BTreeSet<u8> = sent.iter().map(|&(sender, _, _)| sender).collect();
    let others = (0..map.k).filter(|&station| station != map.desk).collect();
    assert_eq!((senders, sent.len()), (others, usize::from(map.k) - 1), "each station but the desk answers, once");
    for (sender, receiver, brought) in sent {
        assert_eq!(*receiver, tree.parent(*sender), "an answer of {sender} goes to its parent");
        assert_eq!(*brought, tree.total(*sender, way), "an answer of {sender} brings the total of its tree");
    }
}

/// The same from a program's lines alone: a wake tells a parent, an answer what went up.
pub fn lines(output: impl Fn(&[u8]) -> Vec<u8>, count: u64) {
    for_cases(count, |rng| {
        let map = accepted(rng);
        let draws = call::draws(rng, Record::whole(&map));
        let input = [draws.iter().flat_map(|draw| draw.to_le_bytes()).collect(), stored(&map)].concat();
        let text = String::from_utf8(output(&input)).expect("lines are text");
        let mut parents = vec![map.desk; map.k.into()];
        let mut sent = Vec::new();
        for line in text.lines() {
            let (kind, rest) = line.split_once(' ').expect("a line has words");
            let numbers: Vec<u64> = rest.split(' ').filter_map(|word| word.parse().ok()).collect();
            match kind {
                "wake" => parents[numbers[1] as usize] = numbers[0] as u8,
                "answer" => sent.push((numbers[0] as u8, numbers[1] as u8, shown(&numbers[2..]))),
                "report" => assert_eq!(shown(&numbers[1..]), map.total(SUM), "{line}"),
                _ => {}
            }
        }
        check(&map, SUM, &Tree::from_parents(&map, parents), &sent);
    });
}

/// "Lines show sum and missing number for each class in turn."
fn shown(numbers: &[u64]) -> Aggregate {
    Aggregate::of(numbers.chunks(2).map(|pair| Cell { sum: pair[0], missing: pair[1] as u8 }))
}
