//! Maps: accepted ones of every shape, size and class count, and ones that break the rules 2, 3, 19, 7 to 10;
//! the desk is any station, the first, the second and the last often.

use super::aggregate::{class_count, NO_CLASS_COUNTS};
use crate::model::aggregate::{in_use, NO_READING};
use crate::model::map::{Map, LOT_LIMIT};
use crate::model::{set, MOST_STATIONS, PLACES};
use crate::rng::Rng;

/// The largest count that is a reading.
pub const LARGEST_COUNT: u32 = NO_READING - 1;

/// Numbers that are no k.
pub const NO_STATION_COUNTS: [u8; 5] = [0, 65, 66, 128, 255];

/// Lots that a stored map may have: the least and the greatest, and those where the part beside the distance begins.
pub const STORED_LOTS: [u64; 4] = [0, (1 << 32) - 1, 1 << 32, LOT_LIMIT - 1];

/// Lots that no stored map has.
pub const LONG_LOTS: [u64; 4] = [LOT_LIMIT, LOT_LIMIT + 42, 1 << 63, u64::MAX];

/// A desk: 0, 1 and k − 1 often.
pub fn desk(rng: &mut Rng, k: u8) -> u8 {
    let any = rng.station(k);
    rng.pick(&[0, 1 % k, k - 1, any])
}

/// A number that is no desk of k stations.
pub fn no_desk(rng: &mut Rng, k: u8) -> u8 {
    rng.pick(&[k, MOST_STATIONS, 255])
}

/// Links between the places of a shape, before the stations are dealt out.
type Links = Vec<(u8, u8)>;

/// A number of stations: mostly few, so that whole waves stay short, any of 1 to 64, and now and then the most.
pub fn station_count(rng: &mut Rng) -> u8 {
    match rng.below(20) {
        0..=14 => 1 + rng.station(8),
        15..=18 => 1 + rng.station(MOST_STATIONS),
        _ => MOST_STATIONS,
    }
}

/// An accepted map, zero past k and past c.
pub fn accepted(rng: &mut Rng) -> Map {
    let (k, classes) = (station_count(rng), class_count(rng));
    accepted_of(rng, k, classes)
}

pub fn accepted_of(rng: &mut Rng, k: u8, classes: u8) -> Map {
    let mut map = Map { desk: desk(rng, k), ..Map::empty(k, classes, stored_lot(rng)) };
    let links = shape(rng, k);
    let station_at = permutation(rng, k);
    for (a, b) in links {
        link(&mut map, station_at[usize::from(a)], station_at[usize::from(b)]);
    }
    fill_counts(rng, &mut map);
    map
}

fn stored_lot(rng: &mut Rng) -> u64 {
    if rng.chance(50) {
        rng.pick(&STORED_LOTS)
    } else {
        rng.bits() % LOT_LIMIT
    }
}

/// All 64 stations linked to each other, with the same counts for all.
pub fn all_linked(counts: &[u32]) -> Map {
    let mut map = Map::empty(MOST_STATIONS, counts.len() as u8, LOT_LIMIT - 1);
    for (a, b) in clique(MOST_STATIONS) {
        link(&mut map, a, b);
    }
    for of_station in &mut map.counts {
        of_station[..counts.len()].copy_from_slice(counts);
    }
    map
}

/// The same with any desk, and the largest count or no reading at each: the longest lines come of it.
pub fn all_linked_mixed(rng: &mut Rng, classes: u8) -> Map {
    let mut map = Map { desk: desk(rng, MOST_STATIONS), ..all_linked(&vec![LARGEST_COUNT; classes.into()]) };
    for count in map.counts.iter_mut().flat_map(|counts| &mut counts[in_use(classes)]) {
        *count = rng.pick(&[LARGEST_COUNT, LARGEST_COUNT, NO_READING]);
    }
    map
}

fn link(map: &mut Map, a: u8, b: u8) {
    map.neighbours[usize::from(a)] |= set::singleton(b);
    map.neighbours[usize::from(b)] |= set::singleton(a);
}

fn shape(rng: &mut Rng, k: u8) -> Links {
    match rng.below(6) {
        0 => (1..k).map(|i| (i - 1, i)).collect(),
        1 => (1..k).map(|i| (0, i)).collect(),
        2 => ring(k),
        3 => clique(k),
        4 => tree(rng, k),
        _ => web(rng, k),
    }
}

fn ring(k: u8) -> Links {
    let closed = if k > 2 { k } else { k - 1 };
    (0..closed).map(|i| (i, (i + 1) % k)).collect()
}

fn clique(k: u8) -> Links {
    (0..k).flat_map(|b| (0..b).map(move |a| (a, b))).collect()
}

fn tree(rng: &mut Rng, k: u8) -> Links {
    (1..k).map(|i| (rng.station(i), i)).collect()
}

fn web(rng: &mut Rng, k: u8) -> Links {
    let density = rng.below(60);
    let mut links = tree(rng, k);
    links.extend(clique(k).into_iter().filter(|_| rng.chance(density)));
    links
}

/// Deals the stations out, so that the desk may stand anywhere in a shape.
fn permutation(rng: &mut Rng, k: u8) -> Vec<u8> {
    let mut places: Vec<u8> = (0..k).collect();
    for last in (1..places.len()).rev() {
        places.swap(last, rng.index(last + 1));
    }
    places
}

/// Each class has a style of its own.
fn fill_counts(rng: &mut Rng, map: &mut Map) {
    for class in in_use(map.classes) {
        let style = rng.below(5);
        for counts in &mut map.counts[..map.k.into()] {
            counts[class] = match style {
                0 => rng.below(20) as u32,
                1 => rng.pick(&[0, 1, LARGEST_COUNT, NO_READING]),
                2 => NO_READING,
                3 if rng.chance(30) => NO_READING,
                _ => rng.bits() as u32,
            };
        }
    }
}

/// Anything past k and past c: writing ignores it.
fn litter(rng: &mut Rng, map: &mut Map) {
    for place in 0..PLACES {
        let kept = if place < map.k.into() { map.classes.into() } else { 0 };
        for count in &mut map.counts[place][kept..] {
            *count = if rng.chance(50) { NO_READING } else { rng.bits() as u32 };
        }
        if place >= map.k.into() {
            map.neighbours[place] = rng.bits();
        }
    }
}

/// A map to hand over: accepted, or with rules broken one at a time or together; past k and past c zero or anything; with
/// any lot.
pub fn handed_over(rng: &mut Rng) -> Map {
    let mut map = accepted(rng);
    if rng.chance(60) {
        break_rules(rng, &mut map);
    }
    if rng.chance(40) {
        litter(rng, &mut map);
    }
    if rng.chance(25) {
        map.lot = rng.pick(&LONG_LOTS);
    }
    let bad = rng.below(100);
    bad_numbers(rng, &mut map, bad);
    map
}

/// Below 20, a desk, k or c that is none, often two of them.
fn bad_numbers(rng: &mut Rng, map: &mut Map, bad: u64) {
    if (6..20).contains(&bad) {
        map.desk = no_desk(rng, map.k);
    }
    if bad < 8 {
        map.k = rng.pick(&NO_STATION_COUNTS);
    }
    if (4..12).contains(&bad) {
        map.classes = rng.pick(&NO_CLASS_COUNTS);
    }
}

/// A lot that is too long, or bad numbers.
pub fn break_numbers(rng: &mut Rng, map: &mut Map) {
    if rng.chance(50) {
        map.lot = rng.pick(&LONG_LOTS);
    } else {
        let bad = rng.below(20);
        bad_numbers(rng, map, bad);
    }
}

/// Breaks one of the rules 7 to 10 or several.
pub fn break_rules(rng: &mut Rng, map: &mut Map) {
    let rules: [fn(&mut Rng, &mut Map); 4] = [name_beyond, name_itself, name_one_way, cut_off];
    if rng.chance(50) {
        rng.pick(&rules)(rng, map);
    } else {
        for rule in rules {
            if rng.chance(50) {
                rule(rng, map);
            }
        }
    }
}

fn name_beyond(rng: &mut Rng, map: &mut Map) {
    if map.k < MOST_STATIONS {
        let beyond = map.k + rng.station(MOST_STATIONS - map.k);
        map.neighbours[usize::from(rng.station(map.k))] |= set::singleton(beyond);
    }
}

fn name_itself(rng: &mut Rng, map: &mut Map) {
    let station = rng.station(map.k);
    map.neighbours[usize::from(station)] |= set::singleton(station);
}

/// Adds or drops one direction of a pair.
fn name_one_way(rng: &mut Rng, map: &mut Map) {
    if map.k > 1 {
        let namer = rng.station(map.k);
        let named = (namer + 1 + rng.station(map.k - 1)) % map.k;
        map.neighbours[usize::from(namer)] ^= set::singleton(named);
    }
}

/// Drops the links between some stations and the rest, both ways.
fn cut_off(rng: &mut Rng, map: &mut Map) {
    let island = if rng.chance(50) { set::singleton(rng.station(map.k)) } else { rng.bits() };
    for i in 0..map.k {
        let same_side = if set::contains(island, i) { island } else { !island };
        map.neighbours[usize::from(i)] &= same_side;
    }
}
