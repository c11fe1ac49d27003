//! The grower sheet (document 02, request 7): lines of 40 bytes and a line feed for one reported lot.

use super::aggregate::{NO_READING, SUM};
use super::map::{self, Map};
use super::meet::Meet;
use super::net::{Config, Net};
use super::refusal::{Cause, Refusal};
use super::station::FINISHED;

/// "Each line is exactly 40 bytes and a line feed."
pub const LINE: usize = 41;

/// "A total has more than 12 digits."
pub const TOTAL_LIMIT: u64 = 1_000_000_000_000;

/// A line for the lot, one for each class of each station, and one for each class.
pub fn length(map: &Map) -> usize {
    let (k, classes) = (usize::from(map.k), usize::from(map.classes));
    LINE * (1 + k * classes + classes)
}

/// "Blanks fill the line."
fn line(text: &str) -> String {
    format!("{text:<40}\n")
}

/// "First the lot (15). Then for each station in rising order, and within it each class in rising order: station (2),
/// blank, class from 1 (1), blank, count (10)." "Last, one line a class: letter T, two blanks, class (1), blank, total (12),
/// blank, missing number (2). The totals printed are the desk's."
pub fn text(map: &Map, net: &Meet) -> String {
    let mut text = line(&format!("{:>15}", map.lot));
    for station in 0..map.k {
        for (class, &count) in (1..).zip(map.counts_of(station.into())) {
            text += &line(&format!("{station:>2} {class:>1} {:>10}", shown(count)));
        }
    }
    let desk = &net.stations[usize::from(net.config.desk)];
    for (class, cell) in (1..).zip(desk.held.cells(map.classes)) {
        text += &line(&format!("T  {class:>1} {:>12} {:>2}", cell.sum, cell.missing));
    }
    text
}

/// "A missing count shows ten hyphens."
fn shown(count: u32) -> String {
    match count {
        NO_READING => "-".repeat(10),
        reading => reading.to_string(),
    }
}

/// "21 when the desk is not finished or a total has more than 12 digits": of a net that agrees with its map.
pub fn is_reported(net: &Meet) -> bool {
    let Config { classes, desk, .. } = net.config;
    let desk = &net.stations[usize::from(desk)];
    desk.state == FINISHED && desk.held.cells(classes).all(|cell| cell.sum < TOTAL_LIMIT)
}

/// Lays the sheet out from the first lent byte; the bytes past it stay. Gives the number of bytes filled. Refusals 2, 3, 19,
/// 7 to 10, 18, 11, 20, 21, 15.
pub fn lay_out(map: &Map, net: &Meet, buffer: &mut [u8]) -> Result<u32, Refusal> {
    map::accept_for_writing(map)?;
    if !net.is_well_formed() {
        return Err(Cause::OutOfForm.alone());
    }
    if net.config != Config::of(map, SUM) {
        return Err(Cause::OtherMap.alone());
    }
    if !is_reported(net) {
        return Err(Cause::Unreported.alone());
    }
    let length = length(map);
    match buffer.get_mut(..length) {
        Some(filled) => {
            filled.copy_from_slice(text(map, net).as_bytes());
            Ok(length as u32)
        }
        None => Err(Cause::BufferTooSmall.with(length as u32)),
    }
}
