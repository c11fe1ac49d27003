//! Steps far apart: pairs of allowed steps in either order, on nets that calls lead to and on nets handed over; listings
//! in which neighbouring steps far apart change places, and listings of two ends, mixed. By the calls' answers alone.

use super::Coverage;
use crate::calls::NetCalls;
use crate::gen::aggregate::way;
use crate::gen::call;
use crate::gen::map::accepted;
use crate::gen::net::{any, junk, Sample};
use crate::model::apart::{have_none_in_common, Asked, FAR_APART};
use crate::model::demand::Record;
use crate::model::map::Map;
use crate::model::net::{Net, Step};
use crate::model::refusal::{number, Cause};
use crate::model::station::{Station, ACTIVE};
use crate::rng::{for_cases, runs_one_case, Rng};

/// Steps of each kind that are tried on one net: all of a small net's, some of a large one's.
const OF_A_KIND: usize = 6;

/// A list is taken no further from fresh than this.
const LONGEST: usize = 80;

/// The net that a step leaves, where it is made.
fn after<N: Net>(subject: &impl NetCalls<N>, net: &N, step: Step) -> Option<N> {
    let mut next = net.clone();
    subject.step(&mut next, step).ok().map(|made| {
        assert_eq!(made, step, "the step made is the one that was asked for");
        next
    })
}

/// A step that is out of range everywhere is refused by 11 where the form is left, and else by 12.
fn is_in_form<N: Net>(subject: &impl NetCalls<N>, net: &N) -> bool {
    let nowhere = Step { kind: 0, sender: 0, receiver: 0 };
    number(&subject.step(&mut net.clone(), nowhere)) != Cause::OutOfForm.alone().number
}

/// Allowed steps, with the net that each leaves.
fn allowed<N: Net>(subject: &impl NetCalls<N>, rng: &mut Rng, net: &N) -> Vec<(Step, N)> {
    let mut steps = Vec::new();
    for kind in 1..=net.kinds() {
        let mut those: Vec<Step> = net.listing().into_iter().filter(|step| step.kind == kind).collect();
        while those.len() > OF_A_KIND {
            those.swap_remove(rng.index(those.len()));
        }
        steps.extend(those.into_iter().filter_map(|step| Some((step, after(subject, net, step)?))));
    }
    steps
}

/// Two kinds as one number, the lower first.
fn kinds(s: Step, t: Step) -> u8 {
    10 * s.kind.min(t.kind) + s.kind.max(t.kind)
}

/// "doing one and then the other gives the same net in either order, and neither takes away the other's leave".
fn exchange<N: Net>(subject: &impl NetCalls<N>, (s, after_s): &(Step, N), (t, after_t): &(Step, N)) {
    let there = after(subject, after_s, *t).unwrap_or_else(|| panic!("{s:?} takes the leave of {t:?}"));
    let back = after(subject, after_t, *s).unwrap_or_else(|| panic!("{t:?} takes the leave of {s:?}"));
    assert!(there == back, "{s:?} and {t:?} leave two nets");
    assert!(is_in_form(subject, &there), "{s:?} and {t:?} leave the form");
}

/// Whether one takes the other's leave, or the two orders leave two nets.
fn is_order_seen<N: Net>(subject: &impl NetCalls<N>, (s, after_s): &(Step, N), (t, after_t): &(Step, N)) -> bool {
    let there = after(subject, after_s, *t);
    there.is_none() || there != after(subject, after_t, *s)
}

/// A report is allowed, where the net is in form.
fn ready_desk<N: Sample>(net: &mut N) {
    let desk = usize::from(net.config().desk);
    if let Some(station) = net.stations_mut().get_mut(desk) {
        *station = Station { state: ACTIVE, unstarted: 0, waits: 0, ..*station };
    }
}

/// All pairs of allowed steps of nets, where `asked` is asked of them; what was met.
pub fn pairs<N: Sample>(subject: &impl NetCalls<N>, asked: Asked, count: u64) -> Coverage {
    let mut seen = Coverage::default();
    for_cases(count, |rng| {
        let mut net: N = any(rng);
        if rng.chance(20) {
            ready_desk(&mut net);
        }
        let steps = if net.is_well_formed() { allowed(subject, rng, &net) } else { Vec::new() };
        for (i, first) in steps.iter().enumerate() {
            for second in &steps[i + 1..] {
                let far = (asked.apart)(first.0, second.0);
                let formed = !asked.form || is_in_form(subject, &first.1) && is_in_form(subject, &second.1);
                if far && formed {
                    exchange(subject, first, second);
                    seen.note("kinds far apart", kinds(first.0, second.0));
                } else if far {
                    seen.note("form left by one", 0);
                } else if is_order_seen(subject, first, second) {
                    seen.note("order matters to kinds", kinds(first.0, second.0));
                }
            }
        }
    });
    seen
}

/// A fresh net of an accepted map, and a list of steps made from it, with the net that it leaves.
fn list<N: Sample>(subject: &impl NetCalls<N>, rng: &mut Rng, map: &Map) -> (N, Vec<Step>, N) {
    let mut fresh: N = junk(rng);
    subject.fresh(map, way(rng), &mut fresh).expect("the map is accepted");
    let mut net = fresh.clone();
    let count = rng.index(Record::full::<N>(map) + 1).min(LONGEST);
    let draws = call::draws(rng, count);
    let steps = draws.into_iter().map(|draw| subject.draw(&mut net, draw).expect("the net is not at rest")).collect();
    (fresh, steps, net)
}

/// The net that a list of steps leaves, each of which is made.
fn made<N: Net>(subject: &impl NetCalls<N>, net: &N, steps: &[Step]) -> N {
    steps.iter().fold(net.clone(), |net, &step| after(subject, &net, step).expect("every step of the list is made"))
}

/// Two listings from the fresh net of an accepted map that differ only in the order of neighbouring steps far apart: there
/// no call leaves the form, so two steps are asked to be allowed and to have no station in common.
pub fn listings<N: Sample>(subject: &impl NetCalls<N>, count: u64) {
    let mut moved = 0;
    for_cases(count, |rng| {
        let map = accepted(rng);
        let (fresh, steps, net) = list::<N>(subject, rng, &map);
        let mut other = steps.clone();
        for _ in 0..4 {
            moved += reorder(subject, rng, &fresh, &mut other);
        }
        let end = made(subject, &fresh, &other);
        assert!(end == net, "the listings {steps:?} and {other:?} leave two nets");
        alike(subject, rng, &net, &end);
    });
    assert!(moved > 0 || runs_one_case(), "no two neighbouring steps changed places");
}

/// Exchanges some neighbouring steps, each pair where it stands.
fn reorder<N: Net>(subject: &impl NetCalls<N>, rng: &mut Rng, net: &N, steps: &mut [Step]) -> usize {
    let (mut net, mut moved) = (net.clone(), 0);
    for i in 1..steps.len() {
        let (s, t) = (steps[i - 1], steps[i]);
        if have_none_in_common(s, t) && after(subject, &net, t).is_some() && rng.chance(60) {
            steps.swap(i - 1, i);
            moved += 1;
        }
        net = after(subject, &net, steps[i - 1]).expect("every step of the list is made");
    }
    moved
}

/// It is one net: draws and runs from either answer alike.
fn alike<N: Net>(subject: &impl NetCalls<N>, rng: &mut Rng, one: &N, other: &N) {
    let draws = call::draws(rng, 4);
    let (mut one, mut other) = (one.clone(), other.clone());
    assert_eq!(subject.draw(&mut one, draws[0]), subject.draw(&mut other, draws[0]), "draws answer alike");
    assert_eq!(subject.run(&mut one, &draws), subject.run(&mut other, &draws), "runs answer alike");
    assert!(one == other, "and leave the same net");
}

/// "Two technicians testing opposite ends of a line": each has a listing from the same net, the stations of the one below
/// those of the other. Mixed in any way they are made whole, and leave the same net.
pub fn ends<N: Sample>(subject: &impl NetCalls<N>, count: u64) {
    let mut long = 0;
    for_cases(count, |rng| {
        let map = accepted(rng);
        let (_, _, net) = list::<N>(subject, rng, &map);
        let middle = rng.station(map.k + 1);
        let low = listing_of(subject, rng, &net, |station| station < middle);
        let high = listing_of(subject, rng, &net, |station| station >= middle);
        let due = made(subject, &made(subject, &net, &low), &high);
        for _ in 0..3 {
            let mixed = mix(rng, &low, &high);
            assert!(made(subject, &net, &mixed) == due, "{low:?} and {high:?}, mixed as {mixed:?}, leave another net");
        }
        long += usize::from(low.len() > 1 && high.len() > 1);
    });
    assert!(long > 0 || runs_one_case(), "no two ends had a listing each");
}

/// Some steps, one after the other, that name these stations alone.
fn listing_of<N: Net>(subject: &impl NetCalls<N>, rng: &mut Rng, net: &N, of: impl Fn(u8) -> bool) -> Vec<Step> {
    let (mut net, mut steps) = (net.clone(), Vec::new());
    while steps.len() < 12 {
        let those: Vec<Step> = net.listing().into_iter().filter(|step| of(step.sender) && of(step.receiver)).collect();
        if those.is_empty() {
            break;
        }
        let step = rng.pick(&those);
        net = after(subject, &net, step).expect("a step that is listed is made");
        steps.push(step);
    }
    steps
}

fn mix(rng: &mut Rng, low: &[Step], high: &[Step]) -> Vec<Step> {
    let (mut low, mut high) = (low.iter(), high.iter());
    let mut mixed = Vec::new();
    while low.len() + high.len() > 0 {
        let next = if rng.index(low.len() + high.len()) < low.len() { low.next() } else { high.next() };
        mixed.extend(next);
    }
    mixed
}

/// All three, by the request's own conditions. A report and a tell are never both allowed.
pub fn law<N: Sample>(subject: &impl NetCalls<N>, nets: u64, lists: u64) {
    let seen = pairs(subject, FAR_APART, nets);
    seen.require("kinds far apart", [11, 12, 13, 14, 22, 23, 24, 33, 34]);
    if N::LAST > N::REPORT {
        seen.require("kinds far apart", [15, 25, 35, 55]);
    }
    seen.require("form left by one", [0]);
    seen.require("order matters to kinds", [11]);
    listings(subject, lists);
    ends(subject, lists);
}
