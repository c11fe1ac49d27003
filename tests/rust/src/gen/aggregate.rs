//! Ways of joining, and sums and missing numbers of the classes: in form, on both sides of each bound, none where a way has
//! it and where it has not, and such that an answer takes one class over one bound alone. Past c stands anything.

use crate::model::aggregate::{in_use, Aggregate, Cell, GREATEST, LEAST, MOST_MISSING, NONE, NUMBER, SUM, SUM_LIMIT};
use crate::model::net::Config;
use crate::model::{CLASSES, MOST_CLASSES};
use crate::rng::Rng;

/// On both sides of the bound, those in form first, and none last.
pub const SUMS: [u64; 8] = [0, 1, SUM_LIMIT - 1, SUM_LIMIT, SUM_LIMIT + 1, 1 << 63, NONE - 1, NONE];
pub const MISSING: [u8; 5] = [0, 63, 64, 65, 255];

const SUMS_IN_FORM: &[u64] = SUMS.split_at(3).0;
const MISSING_IN_FORM: &[u8] = MISSING.split_at(3).0;
const SUMS_BEYOND: &[u64] = SUMS.split_at(3).1;
const MISSING_BEYOND: &[u8] = MISSING.split_at(3).1;

/// Two of them often come to 64 or 65.
const MISSING_NEAR: [u8; 8] = [1, 2, 31, 32, 33, 62, 63, 64];

/// Numbers that are no class count.
pub const NO_CLASS_COUNTS: [u8; 4] = [0, 9, 128, 255];

pub const WAYS: [u8; 4] = [SUM, GREATEST, LEAST, NUMBER];

/// Numbers that are no way.
pub const NO_WAYS: [u8; 4] = [NUMBER + 1, 5, 128, 255];

/// A way handed over to an opening: now and then none that there is.
pub fn way_handed_over(rng: &mut Rng) -> u8 {
    if rng.chance(15) {
        rng.pick(&NO_WAYS)
    } else {
        way(rng)
    }
}

/// A way: the sum, whose bound an answer may take a station over, often.
pub fn way(rng: &mut Rng) -> u8 {
    let any = rng.pick(&WAYS);
    rng.pick(&[SUM, any, any])
}

/// The ways under which none is in form.
pub fn has_none(way: u8) -> bool {
    way == GREATEST || way == LEAST
}

/// A class count: 1 and 8 often.
pub fn class_count(rng: &mut Rng) -> u8 {
    match rng.below(3) {
        0 => 1,
        1 => MOST_CLASSES,
        _ => 1 + rng.station(MOST_CLASSES),
    }
}

/// A class in use: the last often.
pub fn class(rng: &mut Rng, classes: u8) -> usize {
    let any = rng.index(classes.into());
    rng.pick(&[any, any, usize::from(classes) - 1])
}

/// One class may hold any cell in form, the others mostly little, so that a run goes on.
pub fn in_form(rng: &mut Rng, Config { classes, way, .. }: Config) -> Aggregate {
    let loud = class(rng, classes);
    with_stray(rng, classes, |rng, class| {
        if class == loud || rng.chance(5) {
            Cell { sum: sum_in_form(rng, way), missing: missing_in_form(rng) }
        } else if has_none(way) && rng.chance(20) {
            Cell { sum: NONE, missing: rng.station(3) }
        } else {
            quiet(rng)
        }
    })
}

/// The cells of the classes in use, and anything past c.
fn with_stray(rng: &mut Rng, classes: u8, mut cell: impl FnMut(&mut Rng, usize) -> Cell) -> Aggregate {
    let mut held = any(rng);
    for class in in_use(classes) {
        held.put(class, cell(rng, class));
    }
    held
}

fn quiet(rng: &mut Rng) -> Cell {
    Cell { sum: rng.below(1 << 32), missing: rng.station(3) }
}

fn sum_in_form(rng: &mut Rng, way: u8) -> u64 {
    if has_none(way) && rng.chance(30) {
        return NONE;
    }
    match rng.below(3) {
        0 => rng.pick(SUMS_IN_FORM),
        1 => rng.below(1 << 32),
        _ => rng.below(SUM_LIMIT),
    }
}

/// Mostly few, so that a run goes on.
fn missing_in_form(rng: &mut Rng) -> u8 {
    match rng.below(4) {
        0 | 1 => rng.station(3),
        2 => rng.pick(MISSING_IN_FORM),
        _ => rng.station(MOST_MISSING + 1),
    }
}

/// Takes one class out of form, by the sum, by the missing number, or by both.
pub fn spoil(rng: &mut Rng, held: &mut Aggregate, class: usize, way: u8) {
    let beyond = &SUMS_BEYOND[..SUMS_BEYOND.len() - usize::from(has_none(way))];
    let (sum, missing) = (rng.pick(beyond), rng.pick(MISSING_BEYOND));
    let cell = held.cell(class);
    held.put(class, rng.pick(&[Cell { sum, ..cell }, Cell { missing, ..cell }, Cell { sum, missing }]));
}

/// Any bits at all, and now and then a number at one of its extremes.
pub fn any(rng: &mut Rng) -> Aggregate {
    let mut held = Aggregate { sums: [0; CLASSES], missing: rng.bits().to_le_bytes() };
    for sum in &mut held.sums {
        *sum = rng.bits();
    }
    for _ in 0..rng.below(4) {
        let class = rng.index(CLASSES);
        held.sums[class] = rng.pick(&SUMS);
        held.missing[rng.index(CLASSES)] = rng.pick(&MISSING);
    }
    held
}

/// Which bound an answer is to take a station over.
#[derive(Clone, Copy)]
pub enum Bound {
    OfSums,
    OfMissing,
    OfBoth,
}

pub const BOUNDS: [Bound; 3] = [Bound::OfSums, Bound::OfMissing, Bound::OfBoth];

/// In form, and one class near a bound, or all.
pub fn near(rng: &mut Rng, classes: u8, class: Option<usize>, bound: Bound) -> Aggregate {
    with_stray(rng, classes, |rng, at| if class.unwrap_or(at) == at { near_bound(rng, bound) } else { quiet(rng) })
}

fn near_bound(rng: &mut Rng, bound: Bound) -> Cell {
    let (sum, missing) = (SUM_LIMIT - 1 - rng.below(3), rng.pick(&MISSING_NEAR));
    match bound {
        Bound::OfSums => Cell { sum, missing: rng.station(2) },
        Bound::OfMissing => Cell { sum: rng.below(1 << 32), missing },
        Bound::OfBoth => Cell { sum, missing },
    }
}

/// Anything past c.
pub fn litter(rng: &mut Rng, held: &mut Aggregate, classes: u8) {
    let kept = *held;
    *held = with_stray(rng, classes, |_, class| kept.cell(class));
}
