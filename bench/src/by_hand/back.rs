//! Stations that meet with totals carried back: the wave, and then tells.

use super::meet::{self, Awake};
use super::stations::{are_in_form, is_bounded, is_in_range, member};
use super::Refusal;
use conformance::model::map::Map;
use conformance::model::meet::{Meet, ANSWER, CARRYING, REPORT, TELL, TOLD};
use conformance::model::net::{Config, Step};
use conformance::model::station::{Station, FINISHED};

#[derive(Clone)]
pub struct Back(pub Meet);

pub fn fresh(map: &Map) -> Back {
    Back(Meet { carrying: CARRYING, ..meet::fresh(map) })
}

pub fn step(Back(net): &mut Back, step: Step) -> Result<Step, Refusal> {
    if !is_in_form(net) {
        return Err((11, 0));
    }
    let (Config { k, .. }, Step { kind, sender, receiver }) = (net.config, step);
    if kind != TELL && !is_in_range(net.config, REPORT, step) || sender >= k || receiver >= k {
        return Err((12, 0));
    }
    let is_allowed = if kind == TELL { told_by(net, sender) >> receiver & 1 != 0 } else { meet::is_allowed(net, step) };
    if !is_allowed {
        return Err((13, 0));
    }
    make(net, step);
    Ok(step)
}

pub fn draw(Back(net): &mut Back, draw: u16) -> Result<Step, Refusal> {
    if !is_in_form(net) {
        return Err((11, 0));
    }
    let step = pick(&Awake::of(net), net, draw).ok_or((14, 0))?;
    make(net, step);
    Ok(step)
}

/// The steps made, and whether the net is at rest; the same with 11 where it leaves the form.
pub fn run(Back(net): &mut Back, draws: &[u16]) -> Result<(usize, bool), usize> {
    if !is_in_form(net) {
        return Err(0);
    }
    let mut awake = Awake::of(net);
    for (steps, &draw) in draws.iter().enumerate() {
        let Some(step) = pick(&awake, net, draw) else { return Ok((steps, true)) };
        make(net, step);
        let receiver = &net.stations[usize::from(step.receiver)];
        let is_left = match step.kind {
            TELL => receiver.waits != 0,
            ANSWER => !is_bounded(&receiver.held, net.config),
            _ => false,
        };
        if is_left {
            return Err(steps + 1);
        }
        if step.kind != TELL {
            awake.follow(step);
        }
    }
    Ok((draws.len(), pick(&awake, net, 0).is_none()))
}

fn is_in_form(net: &Meet) -> bool {
    let Config { k, desk, .. } = net.config;
    let settled = net.stations.map(|station| match station.state {
        TOLD => Station { state: FINISHED, ..station },
        _ => station,
    });
    let places = || net.stations[..k.into()].iter().zip(&net.kept).enumerate();
    are_in_form(net.config, &settled)
        && places().all(|(own, (station, kept))| {
            is_bounded(kept, net.config) && (station.state != TOLD || own != usize::from(desk) && station.waits == 0)
        })
}

/// After the report only tells are looked for: a step of the wave is allowed beside one only in nets that no wave leads to.
fn pick(awake: &Awake, net: &Meet, draw: u16) -> Option<Step> {
    let desk = net.config.desk;
    if net.stations[usize::from(desk)].state != FINISHED {
        return awake.pick(net, draw);
    }
    let mut told = [0u64; 64];
    let mut count = 0;
    for (receiver, station) in net.stations[..net.config.k.into()].iter().enumerate() {
        let sender = usize::from(station.parent);
        let knows = station.parent == desk || net.stations[sender].state == TOLD;
        if station.state == FINISHED && receiver != usize::from(desk) && knows {
            told[sender] |= 1 << receiver;
            count += 1;
        }
    }
    if count == 0 {
        return None;
    }
    let mut entry = u32::from(draw) % count;
    for (sender, &set) in (0..).zip(&told) {
        if entry < set.count_ones() {
            return Some(Step { kind: TELL, sender, receiver: member(set, entry) });
        }
        entry -= set.count_ones();
    }
    None
}

/// Whom a station may tell.
fn told_by(net: &Meet, sender: u8) -> u64 {
    let (Config { k, desk, .. }, is_reported) =
        (net.config, net.stations[usize::from(net.config.desk)].state == FINISHED);
    if !is_reported || sender != desk && net.stations[usize::from(sender)].state != TOLD {
        return 0;
    }
    let places = net.stations[..k.into()].iter().enumerate();
    let set =
        places.fold(0, |set, (i, station)| set | u64::from(station.state == FINISHED && station.parent == sender) << i);
    set & !(1 << desk)
}

fn make(net: &mut Meet, step: Step) {
    if step.kind != TELL {
        return meet::make(net, step);
    }
    let (sender, receiver) = (usize::from(step.sender), usize::from(step.receiver));
    let known = if step.sender == net.config.desk { net.stations[sender].held } else { net.kept[sender] };
    net.kept[receiver] = known.given(net.config.classes);
    net.stations[receiver].state = TOLD;
}
