//! What both kinds of net share.

use conformance::model::aggregate::{Aggregate, GREATEST, LEAST, MOST_MISSING, NONE, NO_READING, NUMBER, SUM_LIMIT};
use conformance::model::map::Map;
use conformance::model::net::{Config, Step};
use conformance::model::station::{Station, ACTIVE, FINISHED};

pub fn fresh(map: &Map) -> [Station; 64] {
    let mut stations = [Station::default(); 64];
    let rows = map.counts.iter().zip(&map.neighbours).take(map.k.into());
    for (station, (counts, &set)) in stations.iter_mut().zip(rows) {
        for (class, &count) in counts[..map.classes.into()].iter().enumerate() {
            if count == NO_READING {
                station.held.missing[class] = 1;
            } else {
                station.held.sums[class] = count.into();
            }
        }
        station.unstarted = set;
        station.parent = map.desk;
        station.waits = set.count_ones() as u8;
    }
    stations[usize::from(map.desk)].state = ACTIVE;
    stations
}

pub fn are_in_form(config: Config, stations: &[Station; 64]) -> bool {
    let Config { k, classes, desk, way } = config;
    if !(1..=64).contains(&k) || !(1..=8).contains(&classes) || desk >= k || way > NUMBER {
        return false;
    }
    let below_k = below(k);
    stations[..k.into()].iter().enumerate().all(|(own, station)| {
        station.state <= FINISHED
            && station.parent < k
            && station.unstarted & !below_k == 0
            && station.unstarted >> own & 1 == 0
            && station.waits <= 64
            && is_bounded(&station.held, config)
            && (own == usize::from(desk) || usize::from(station.parent) != own)
    })
}

pub fn is_bounded(held: &Aggregate, Config { classes, way, .. }: Config) -> bool {
    let classes = usize::from(classes);
    are_bounded(way, held.sums[..classes].iter().copied(), &held.missing[..classes])
}

/// Sums are below a power of two just when all their bits together are.
pub fn are_bounded(way: u8, mut sums: impl Iterator<Item = u64>, missing: &[u8]) -> bool {
    let bounded = match way {
        GREATEST | LEAST => sums.all(|sum| sum < SUM_LIMIT || sum == NONE),
        _ => sums.fold(0, |bits, sum| bits | sum) < SUM_LIMIT,
    };
    bounded && missing.iter().all(|&missing| missing <= MOST_MISSING)
}

/// How two sums of a way are joined: one more than none is nothing.
pub fn joined(way: u8) -> fn(u64, u64) -> u64 {
    match way {
        GREATEST => |a, b| a.wrapping_add(1).max(b.wrapping_add(1)).wrapping_sub(1),
        LEAST => u64::min,
        _ => |a, b| a + b,
    }
}

pub fn join(held: &mut Aggregate, given: &Aggregate, Config { classes, way, .. }: Config) {
    let (classes, joined) = (usize::from(classes), joined(way));
    for (sum, given) in held.sums[..classes].iter_mut().zip(&given.sums[..classes]) {
        *sum = joined(*sum, *given);
    }
    for (missing, given) in held.missing[..classes].iter_mut().zip(&given.missing[..classes]) {
        *missing += given;
    }
}

/// All stations of k, which is not 0.
pub fn below(k: u8) -> u64 {
    u64::MAX >> (64 - k)
}

/// Where the report has the last number of the kinds.
pub fn is_in_range(Config { k, desk, .. }: Config, report: u8, Step { kind, sender, receiver }: Step) -> bool {
    (1..=report).contains(&kind) && sender < k && receiver < k && (kind != report || sender == desk && receiver == desk)
}

/// The stations below k in a state.
pub fn in_state(k: u8, stations: &[Station; 64], state: u8) -> u64 {
    stations[..k.into()].iter().enumerate().fold(0, |set, (i, station)| set | u64::from(station.state == state) << i)
}

/// The station of a set with a number of members below it.
pub fn member(mut set: u64, before: u32) -> u8 {
    for _ in 0..before {
        set &= set - 1;
    }
    set.trailing_zeros() as u8
}
