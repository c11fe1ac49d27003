//! A map and a net for its sheet: reported lots, lots that look so, and ones with things amiss, alone and together.

use super::aggregate::WAYS;
use super::net::Sample;
use super::{call, map, net};
use crate::model::aggregate::SUM;
use crate::model::demand::Record;
use crate::model::map::Map;
use crate::model::meet::{Back, Meet, CARRYING, WITHOUT};
use crate::model::net::{Config, Net};
use crate::model::sheet::TOTAL_LIMIT;
use crate::model::station::{ACTIVE, ASLEEP, FINISHED};
use crate::rng::Rng;

/// Totals at the edges of their columns.
const TOTALS: [u64; 5] = [0, 9, TOTAL_LIMIT / 10, TOTAL_LIMIT - 1, 274_877_906_816];

/// Totals of more than 12 digits, in form.
const LONG_TOTALS: [u64; 3] = [TOTAL_LIMIT, TOTAL_LIMIT + 1, (1 << 62) - 1];

/// How often each thing is amiss, in a hundred.
const AMISS: u64 = 15;

/// A map of few steps, run to its report, and on from there where totals are carried back.
pub fn reported(rng: &mut Rng) -> (Map, Meet) {
    let (k, classes) = (1 + rng.station(6), super::aggregate::class_count(rng));
    let map = map::accepted_of(rng, k, classes);
    let mut net = Meet::open(&map, SUM, rng.pick(&[WITHOUT, CARRYING]));
    let steps = Record::whole(&map) + rng.index(usize::from(k));
    let draws = call::draws(rng, steps);
    net.run(&draws);
    (map, net)
}

/// A net in form with these numbers, whose desk has finished, with any totals that fit.
fn finished(rng: &mut Rng, config: Config) -> Meet {
    let mut net = if rng.chance(50) { net::in_form_of(rng, config) } else { net::in_form_of::<Back>(rng, config).0 };
    let desk = &mut net.stations[usize::from(config.desk)];
    desk.state = FINISHED;
    for class in 0..usize::from(config.classes) {
        let mut cell = desk.held.cell(class);
        cell.sum = if rng.chance(50) { rng.pick(&TOTALS) } else { rng.bits() % TOTAL_LIMIT };
        desk.held.put(class, cell);
    }
    net
}

/// Another number of stations or of classes, another desk, or another way, in form.
fn other(rng: &mut Rng, config: Config) -> Config {
    let mut other = config;
    match rng.below(4) {
        0 => other.classes = config.classes % 8 + 1,
        3 => other.way = rng.pick(&WAYS[1..]),
        1 if config.k > 1 => other.desk = (config.desk + 1) % config.k,
        _ if config.k < 64 => other.k += 1,
        _ => other.classes = config.classes % 8 + 1,
    }
    other
}

/// Takes a desk of a net in form out of what a sheet shows.
fn unreport(rng: &mut Rng, net: &mut Meet) {
    let Config { classes, desk, .. } = net.config;
    let desk = &mut net.stations[usize::from(desk)];
    if rng.chance(50) {
        desk.state = rng.pick(&[ASLEEP, ACTIVE]);
    } else {
        let class = super::aggregate::class(rng, classes);
        let mut cell = desk.held.cell(class);
        cell.sum = rng.pick(&LONG_TOTALS);
        desk.held.put(class, cell);
    }
}

/// Alters a net as one of its opening.
fn alter(rng: &mut Rng, net: &mut Meet, without: fn(&mut Rng, &mut Meet), carrying: fn(&mut Rng, &mut Back)) {
    if net.carrying == CARRYING {
        let mut back = Back(net.clone());
        carrying(rng, &mut back);
        *net = back.0;
    } else {
        without(rng, net);
    }
}

/// A map and a net as they may be handed over.
pub fn lot(rng: &mut Rng) -> (Map, Meet) {
    if rng.chance(20) {
        return reported(rng);
    }
    let mut map = map::accepted(rng);
    let mut config = Config::of(&map, SUM);
    if rng.chance(AMISS) {
        config = other(rng, config);
    }
    let mut net = finished(rng, config);
    if rng.chance(AMISS) {
        unreport(rng, &mut net);
    }
    if rng.chance(40) {
        alter(rng, &mut net, |rng, net| net.litter(rng), |rng, net| net.litter(rng));
    }
    if rng.chance(AMISS) {
        alter(rng, &mut net, net::spoil, net::spoil);
    }
    if rng.chance(AMISS) {
        map::break_rules(rng, &mut map);
    }
    if rng.chance(AMISS) {
        map::break_numbers(rng, &mut map);
    }
    (map, net)
}
