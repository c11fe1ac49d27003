//! What a station gathers (document 02, requests 1, 2 and 10): for each class a sum, of counts that are joined one of four
//! ways, and beside it the number of missing readings.

use super::net::Config;
use super::{CLASSES, MOST_CLASSES, MOST_STATIONS};
use std::ops::Range;

/// The count of a head whose lamp failed: it has no reading.
pub const NO_READING: u32 = 4_294_967_295;

/// The ways of joining counts: "0 sum, 1 greatest, 2 least, 3 number of stations with a reading".
pub const SUM: u8 = 0;
pub const GREATEST: u8 = 1;
pub const LEAST: u8 = 2;
pub const NUMBER: u8 = 3;

/// "Greatest and least have a value `none` for no readings."
pub const NONE: u64 = u64::MAX;

/// Sums in form, none apart, are below 2^62, so that adding two of them never wraps.
pub const SUM_LIMIT: u64 = 1 << 62;

/// "A missing number above 64 is out of form": adding two in form never wraps.
pub const MOST_MISSING: u8 = MOST_STATIONS;

/// "c counts, 1 to 8".
pub fn is_class_count(classes: u8) -> bool {
    (1..=MOST_CLASSES).contains(&classes)
}

/// "One above 3 .. is out of form."
pub fn is_way(way: u8) -> bool {
    way <= NUMBER
}

/// "Greatest and least have a value `none`"; it is out of form under the others.
fn has_none(way: u8) -> bool {
    way == GREATEST || way == LEAST
}

/// The places of the classes in use; those past c say nothing.
pub fn in_use(classes: u8) -> Range<usize> {
    0..classes.into()
}

/// What is gathered of one class.
#[derive(Clone, Copy, PartialEq, Eq, Debug, Default)]
pub struct Cell {
    pub sum: u64,
    pub missing: u8,
}

impl Cell {
    /// "That value now adds nothing to a sum and one to a number of missing readings." "Under 3 it is 1 with a reading and
    /// 0 without ..; under 1 and 2 it is the count, or `none` without a reading."
    pub fn of(count: u32, way: u8) -> Cell {
        match (count, way) {
            (NO_READING, _) => Cell { missing: 1, ..Cell::of_none(way) },
            (_, NUMBER) => Cell { sum: 1, missing: 0 },
            _ => Cell { sum: count.into(), missing: 0 },
        }
    }

    /// What is gathered of no station.
    pub fn of_none(way: u8) -> Cell {
        Cell { sum: if has_none(way) { NONE } else { 0 }, missing: 0 }
    }

    pub fn is_bounded(self, way: u8) -> bool {
        (self.sum < SUM_LIMIT || has_none(way) && self.sum == NONE) && self.missing <= MOST_MISSING
    }

    /// "None joined with a count is that count"; "missing numbers are still added".
    pub fn join(self, other: Cell, way: u8) -> Cell {
        let sum = match (way, self.sum, other.sum) {
            (GREATEST | LEAST, NONE, sum) | (GREATEST | LEAST, sum, NONE) => sum,
            (GREATEST, mine, theirs) => mine.max(theirs),
            (LEAST, mine, theirs) => mine.min(theirs),
            (_, mine, theirs) => mine + theirs,
        };
        Cell { sum, missing: self.missing + other.missing }
    }
}

/// "Stations and messages hold c sums and c missing numbers."
#[derive(Clone, Copy, PartialEq, Eq, Debug, Default)]
pub struct Aggregate {
    pub sums: [u64; CLASSES],
    pub missing: [u8; CLASSES],
}

impl Aggregate {
    /// Class by class, zero past those given.
    pub fn of(cells: impl IntoIterator<Item = Cell>) -> Aggregate {
        let mut gathered = Aggregate::default();
        for (class, cell) in cells.into_iter().enumerate() {
            gathered.put(class, cell);
        }
        gathered
    }

    /// What one station gathers of its counts.
    pub fn of_counts(counts: &[u32], way: u8) -> Aggregate {
        Aggregate::of(counts.iter().map(|&count| Cell::of(count, way)))
    }

    /// What is gathered of no station, to which others are joined.
    pub fn of_none(Config { classes, way, .. }: Config) -> Aggregate {
        Aggregate::of(in_use(classes).map(|_| Cell::of_none(way)))
    }

    pub fn cell(&self, class: usize) -> Cell {
        Cell { sum: self.sums[class], missing: self.missing[class] }
    }

    pub fn put(&mut self, class: usize, Cell { sum, missing }: Cell) {
        self.sums[class] = sum;
        self.missing[class] = missing;
    }

    /// The cells of the classes in use.
    pub fn cells(&self, classes: u8) -> impl Iterator<Item = Cell> + '_ {
        in_use(classes).map(|class| self.cell(class))
    }

    pub fn is_bounded(&self, Config { classes, way, .. }: Config) -> bool {
        self.cells(classes).all(|cell| cell.is_bounded(way))
    }

    /// Joins each class with its own; places past c stay.
    pub fn join(&mut self, other: &Aggregate, Config { classes, way, .. }: Config) {
        for class in in_use(classes) {
            self.put(class, self.cell(class).join(other.cell(class), way));
        }
    }

    /// "What a station gives or posts has zero there": in the places past c.
    pub fn given(&self, classes: u8) -> Aggregate {
        Aggregate::of(self.cells(classes))
    }
}
