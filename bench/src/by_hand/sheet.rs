//! The grower sheet: a line starts as blanks, and digits are put into it from the right.

use super::{map, stations, Refusal};
use conformance::model::aggregate::{NO_READING, SUM};
use conformance::model::map::Map;
use conformance::model::meet::Meet;
use conformance::model::net::Config;
use conformance::model::station::FINISHED;

const LINE: usize = 41;

pub fn lay_out(map: &Map, net: &Meet, buffer: &mut [u8]) -> Result<usize, Refusal> {
    map::accept_for_writing(map)?;
    if !stations::are_in_form(net.config, &net.stations) {
        return Err((11, 0));
    }
    if net.config != Config::of(map, SUM) {
        return Err((20, 0));
    }
    let (k, classes) = (usize::from(map.k), usize::from(map.classes));
    let desk = &net.stations[usize::from(map.desk)];
    if desk.state != FINISHED || desk.held.sums[..classes].iter().any(|&sum| sum >= 1_000_000_000_000) {
        return Err((21, 0));
    }
    let needed = LINE * (1 + k * classes + classes);
    let Some(sheet) = buffer.get_mut(..needed) else { return Err((15, needed as u32)) };
    let mut lines = sheet.chunks_exact_mut(LINE);
    let mut next = || {
        let line = lines.next().expect("a line");
        line.fill(b' ');
        line[LINE - 1] = b'\n';
        line
    };
    put(next(), 15, map.lot);
    for i in 0..k {
        for j in 0..classes {
            let line = next();
            put(line, 2, i as u64);
            line[3] = b'1' + j as u8;
            match map.counts[i][j] {
                NO_READING => line[5..15].fill(b'-'),
                count => put(line, 15, count.into()),
            }
        }
    }
    for j in 0..classes {
        let line = next();
        line[0] = b'T';
        line[3] = b'1' + j as u8;
        put(line, 17, desk.held.sums[j]);
        put(line, 20, desk.held.missing[j].into());
    }
    Ok(needed)
}

/// The digits of n, the last in the column before `end`.
fn put(line: &mut [u8], end: usize, mut n: u64) {
    for digit in line[..end].iter_mut().rev() {
        *digit = b'0' + (n % 10) as u8;
        n /= 10;
        if n == 0 {
            return;
        }
    }
}
