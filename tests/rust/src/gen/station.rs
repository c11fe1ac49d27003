//! Station records: in form, out of form in one field, and every field at its extremes.

use super::aggregate::{self, NO_CLASS_COUNTS, NO_WAYS};
use super::map::{desk, no_desk};
use crate::model::aggregate::{in_use, is_class_count, Aggregate, Cell, GREATEST, LEAST, NONE, NUMBER, SUM, SUM_LIMIT};
use crate::model::net::Config;
use crate::model::station::{Event, Process, Station, FINISHED};
use crate::model::{set, CLASSES, MOST_STATIONS};
use crate::rng::Rng;

/// Station numbers on both sides of their bound.
const NUMBERS: [u8; 7] = [0, 1, 2, 63, 64, 65, 255];

/// A record's own number and its desk: the desk's own record and others', then numbers and desks that are none.
const OWN: [(u8, u8); 9] = [(0, 0), (1, 0), (0, 1), (1, 1), (63, 63), (64, 0), (255, 63), (1, 64), (0, 255)];

/// A class count, the class whose numbers are at their extremes (the only one, the first or the last of several, or one
/// past c), and a way; then numbers that are no class count, and such as are no way.
const CLASS: [(u8, usize, u8); 13] = [
    (1, 0, SUM),
    (1, 0, GREATEST),
    (1, 0, LEAST),
    (1, 0, NUMBER),
    (1, 1, SUM),
    (3, 0, GREATEST),
    (3, 2, SUM),
    (3, 7, LEAST),
    (8, 7, NUMBER),
    (0, 0, SUM),
    (9, 7, LEAST),
    (1, 0, 4),
    (3, 2, 255),
];

const SETS: [u64; 8] = [0, 1, 2, 4, 1 << 63, u64::MAX >> 1, u64::MAX << 1, u64::MAX];
const PARENTS: [u8; 5] = [0, 1, 63, 64, 255];
const WAITS: [u8; 5] = [0, 1, 64, 65, 255];
const STATES: [u8; 5] = [0, 1, 2, 3, 255];

/// A station in form at place `own` of `k`, seldom one that a wave reaches.
pub fn in_form(rng: &mut Rng, own: u8, config: Config) -> Station {
    let Config { k, desk, .. } = config;
    Station {
        held: aggregate::in_form(rng, config),
        unstarted: set_in_form(rng, own, k),
        parent: parent_in_form(rng, own, k, desk),
        waits: waits_in_form(rng),
        state: rng.pick(&[0, 1, 1, 1, 2]),
    }
}

fn set_in_form(rng: &mut Rng, own: u8, k: u8) -> u64 {
    let below_k = u64::MAX >> (MOST_STATIONS - k);
    let drawn = match rng.below(6) {
        0 | 1 => 0,
        2 => set::singleton(rng.station(k)),
        3 => rng.bits() & rng.bits() & rng.bits(),
        4 => rng.bits(),
        _ => u64::MAX,
    };
    set::without(drawn & below_k, own)
}

fn parent_in_form(rng: &mut Rng, own: u8, k: u8, desk: u8) -> u8 {
    let parent = rng.station(k);
    if parent == own {
        desk
    } else {
        parent
    }
}

fn waits_in_form(rng: &mut Rng) -> u8 {
    match rng.below(4) {
        0 | 1 => 0,
        2 => rng.pick(&[1, 2, 63, 64]),
        _ => rng.station(65),
    }
}

/// Replaces one field by another in form.
pub fn nudge(rng: &mut Rng, station: &mut Station, own: u8, config: Config) {
    let other = in_form(rng, own, config);
    let class = aggregate::class(rng, config.classes);
    match rng.below(6) {
        0 => station.held.sums[class] = other.held.sums[class],
        1 => station.held.missing[class] = other.held.missing[class],
        2 => station.unstarted = other.unstarted,
        3 => station.parent = other.parent,
        4 => station.waits = other.waits,
        _ => station.state = other.state,
    }
}

/// Takes one field out of form; of what is held, one class.
pub fn spoil(rng: &mut Rng, station: &mut Station, own: u8, Config { k, classes, desk, way }: Config) {
    match rng.below(8) {
        0 if k < MOST_STATIONS => station.unstarted |= set::singleton(k + rng.station(MOST_STATIONS - k)),
        1 if own != desk => station.parent = own,
        0..=2 => station.unstarted |= set::singleton(own),
        3 => station.parent = rng.pick(&[k, MOST_STATIONS, 255]),
        4 => station.waits = rng.pick(&[65, 66, 128, 255]),
        5 | 6 => {
            let class = aggregate::class(rng, classes);
            aggregate::spoil(rng, &mut station.held, class, way);
        }
        _ => station.state = FINISHED + 1 + rng.station(253),
    }
}

/// Any bits at all.
pub fn any(rng: &mut Rng) -> Station {
    Station {
        held: aggregate::any(rng),
        unstarted: rng.bits(),
        parent: rng.byte(),
        waits: rng.byte(),
        state: rng.byte(),
    }
}

/// A record for one station: mostly in form, else spoiled in one field, its own number, its class count, its desk and its
/// way among them.
pub fn process(rng: &mut Rng) -> Process {
    let desk = desk(rng, MOST_STATIONS);
    let own = if rng.chance(30) { desk } else { rng.station(MOST_STATIONS) };
    let config = Config { k: MOST_STATIONS, classes: aggregate::class_count(rng), desk, way: aggregate::way(rng) };
    let Config { classes, way, .. } = config;
    let mut process = Process { own, classes, desk, way, station: in_form(rng, own, config) };
    match rng.below(20) {
        0..=3 => spoil(rng, &mut process.station, own, config),
        4 => process.own = rng.pick(&[64, 65, 255]),
        5 => process.classes = rng.pick(&NO_CLASS_COUNTS),
        6 => process.desk = no_desk(rng, MOST_STATIONS),
        7 => process.way = rng.pick(&NO_WAYS),
        8 => {
            let (own, classes, desk, way) = (rng.byte(), rng.byte(), rng.byte(), rng.byte());
            process = Process { own, classes, desk, way, station: any(rng) };
        }
        _ => {}
    }
    process
}

/// An event whose station number is often in the set, and now and then out of range.
pub fn event(rng: &mut Rng, process: &Process) -> Event {
    let members: Vec<u8> = set::members(process.station.unstarted).collect();
    let other = match rng.below(10) {
        0 => rng.byte(),
        1 => process.own,
        2..=6 if !members.is_empty() => rng.pick(&members),
        _ => rng.station(MOST_STATIONS),
    };
    let gathered = handed_over(rng, process);
    events(other, gathered)[rng.index(5)]
}

/// What an answer brings: in range, out of it in one class, or anything.
fn handed_over(rng: &mut Rng, &Process { classes, desk, way, .. }: &Process) -> Aggregate {
    let choice = rng.below(10);
    if choice == 0 || !is_class_count(classes) {
        return aggregate::any(rng);
    }
    let mut gathered = aggregate::in_form(rng, Config { k: MOST_STATIONS, classes, desk, way });
    if choice < 4 {
        let class = aggregate::class(rng, classes);
        aggregate::spoil(rng, &mut gathered, class, way);
    }
    gathered
}

/// All five events with the arguments that they take.
pub fn events(other: u8, gathered: Aggregate) -> [Event; 5] {
    [Event::TakeStart(other), Event::SendStart(other), Event::TakeAnswer(gathered), Event::SendAnswer, Event::Report]
}

/// Every event with its argument at each of its extremes, in one class or another.
pub fn extreme_events() -> Vec<Event> {
    let starts = NUMBERS.into_iter().flat_map(|other| [Event::TakeStart(other), Event::SendStart(other)]);
    let at = |class| (0..CELLS).map(move |mut number| with_cell(Aggregate::default(), class, cell(&mut number)));
    let gathered = [0, 2, 7].into_iter().flat_map(at);
    starts.chain(gathered.map(Event::TakeAnswer)).chain([Event::SendAnswer, Event::Report]).collect()
}

/// The numbers of one class, on both sides of their bounds.
const CELL_SUMS: [u64; 4] = [0, SUM_LIMIT - 1, SUM_LIMIT, NONE];
const CELL_MISSING: [u8; 4] = [0, 64, 65, 255];
const CELLS: usize = CELL_SUMS.len() * CELL_MISSING.len();

fn cell(number: &mut usize) -> Cell {
    Cell { sum: digit(number, &CELL_SUMS), missing: digit(number, &CELL_MISSING) }
}

fn with_cell(mut held: Aggregate, class: usize, cell: Cell) -> Aggregate {
    held.put(class, cell);
    held
}

/// Something small in the classes in use, and past c what no class may hold.
fn surroundings(classes: u8) -> Aggregate {
    let mut held = Aggregate { sums: [u64::MAX; CLASSES], missing: [u8::MAX; CLASSES] };
    in_use(classes.min(CLASSES as u8)).for_each(|class| held.put(class, Cell { sum: 7, missing: 1 }));
    held
}

/// Every record with each field at one of its extremes: the record's number, in mixed radix, picks them.
pub fn extremes() -> impl Iterator<Item = Process> {
    let count = CLASS.len() * CELLS * SETS.len() * PARENTS.len() * WAITS.len() * STATES.len() * OWN.len();
    (0..count).map(|mut number| {
        let (classes, class, way) = digit(&mut number, &CLASS);
        let station = Station {
            held: with_cell(surroundings(classes), class, cell(&mut number)),
            unstarted: digit(&mut number, &SETS),
            parent: digit(&mut number, &PARENTS),
            waits: digit(&mut number, &WAITS),
            state: digit(&mut number, &STATES),
        };
        let (own, desk) = digit(&mut number, &OWN);
        Process { own, classes, desk, way, station }
    })
}

fn digit<T: Copy>(number: &mut usize, values: &[T]) -> T {
    let value = values[*number % values.len()];
    *number /= values.len();
    value
}
