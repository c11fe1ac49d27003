//! Stored maps, good and damaged, and inputs of the program.

use super::call;
use super::map::{accepted, break_rules};
use crate::model::demand::Record;
use crate::model::map::{row_length, stored, word_sum, Map, TRAILER};
use crate::model::text::INPUT_LIMIT;
use crate::model::MOST_CLASSES;
use crate::rng::Rng;

/// Bytes to read a map from: zeros, anything, or a map, whose rules may be broken and whose bytes may be damaged.
pub fn lent(rng: &mut Rng) -> Vec<u8> {
    let length = if rng.chance(30) { rng.index(TRAILER + 1) } else { rng.index(3_000) };
    match rng.below(20) {
        0 => return vec![0; length],
        1 => return rng.bytes(length),
        _ => {}
    }
    let mut map = accepted(rng);
    if rng.chance(40) {
        break_rules(rng, &mut map);
    }
    let mut bytes = preceded(rng, &map);
    if rng.chance(50) {
        damage(rng, &map, &mut bytes);
    }
    bytes
}

/// A stored map with something before it: nothing, any bytes, zeros, or another map.
fn preceded(rng: &mut Rng, map: &Map) -> Vec<u8> {
    let length = rng.index(40);
    let mut bytes = match rng.below(4) {
        0 => Vec::new(),
        1 => rng.bytes(length),
        2 => vec![0; length],
        _ => stored(&accepted(rng)),
    };
    bytes.extend(stored(map));
    bytes
}

/// Spoils stored bytes in one way.
fn damage(rng: &mut Rng, map: &Map, bytes: &mut Vec<u8>) {
    match rng.below(8) {
        0 => change_byte(rng, bytes),
        1 => bytes.truncate(rng.index(bytes.len())),
        2 => {
            let keep = rng.index(bytes.len());
            bytes.drain(..bytes.len() - keep);
        }
        3 => {
            let length = 1 + rng.index(20);
            bytes.extend(rng.bytes(length));
        }
        _ => change_trailer(rng, map, bytes),
    }
}

fn change_byte(rng: &mut Rng, bytes: &mut [u8]) {
    let at = rng.index(bytes.len());
    bytes[at] ^= 1 + rng.station(255);
}

/// Numbers that are no row length: on both sides of those that are, between them, and with one of them in either byte.
const NO_ROW_LENGTHS: [u16; 11] = [0, 4, 8, 11, 13, 14, 41, 44, 12 << 8, 256 + 12, u16::MAX];

/// A row length, or a number that is none.
fn any_row_length(rng: &mut Rng) -> u16 {
    if rng.chance(50) {
        row_length(1 + rng.station(MOST_CLASSES)) as u16
    } else {
        rng.pick(&NO_ROW_LENGTHS)
    }
}

/// Changes one or more of k, the desk, row length, distance and the part of the lot beside it, with a check word that fits: the rules
/// before the check word must see it.
fn change_trailer(rng: &mut Rng, map: &Map, bytes: &mut [u8]) {
    let start = bytes.len() - TRAILER;
    let (mut k, mut row) = (map.k, row_length(map.classes) as u16);
    for _ in 0..1 + rng.below(3) {
        match rng.below(5) {
            0 => {
                k = rng.pick(&[0, 1, 64, 65, 255, map.k - 1, map.k + 1]);
                put(bytes, start, &[k]);
            }
            1 => {
                row = any_row_length(rng);
                put(bytes, start + 2, &row.to_le_bytes());
            }
            2 => {
                let desk = rng.pick(&[0, 1, 63, 64, 255, k, k.wrapping_sub(1)]);
                put(bytes, start + 1, &[desk]);
            }
            3 => put(bytes, start + 6, &rng.pick(&[0, 1, 1 << 8, 1 << 15, u16::MAX]).to_le_bytes()),
            _ => put(bytes, start + 4, &any_distance(rng, k, row).to_le_bytes()),
        }
    }
    seal(bytes, k, row);
}

/// Often what k and the row length come to, else a little off, or by another row length.
fn any_distance(rng: &mut Rng, k: u8, row: u16) -> u16 {
    let (k, row) = (u32::from(k), u32::from(row));
    let (rows, by_another) = (row * k, u32::from(any_row_length(rng)).wrapping_mul(k));
    let off = [rows + 1, rows + row, rows.wrapping_sub(1), 12 * k, by_another, 0, u32::MAX];
    (if rng.chance(40) { rows } else { rng.pick(&off) }) as u16
}

fn put(bytes: &mut [u8], at: usize, field: &[u8]) {
    bytes[at..at + field.len()].copy_from_slice(field);
}

/// Makes the words of the map that k and the row length claim add to zero, where all its bytes are there.
fn seal(bytes: &mut [u8], k: u8, row: u16) {
    let needed = usize::from(k) * usize::from(row) + TRAILER;
    let check = bytes.len() - 4;
    if needed <= bytes.len() {
        let sum = word_sum(&bytes[bytes.len() - needed..check]);
        put(bytes, check, &sum.wrapping_neg().to_le_bytes());
    }
}

/// An input of the program: draws and a map, a byte too many before it, about as long as may be, or something damaged.
pub fn input(rng: &mut Rng) -> Vec<u8> {
    let map = accepted(rng);
    match rng.below(100) {
        0..=39 => with_draws(&draws_around_whole(rng, &map), &map),
        40..=49 => {
            let odd = 1 + 2 * rng.index(50);
            of_length(rng, &map, map.stored_length() + odd)
        }
        50..=52 => {
            let length = INPUT_LIMIT - 2 + rng.index(5);
            of_length(rng, &map, length)
        }
        _ => lent(rng),
    }
}

fn with_draws(draws: &[u16], map: &Map) -> Vec<u8> {
    let mut bytes: Vec<u8> = draws.iter().flat_map(|draw| draw.to_le_bytes()).collect();
    bytes.extend(stored(map));
    bytes
}

/// None, some, just enough or too many draws for a whole wave.
fn draws_around_whole(rng: &mut Rng, map: &Map) -> Vec<u16> {
    let whole = Record::whole(map);
    let count = match rng.below(4) {
        0 => rng.index(whole + 1),
        1 => whole - 1,
        2 => whole,
        _ => whole + 1 + rng.index(3),
    };
    call::draws(rng, count)
}

/// An input of a given length that ends with a map.
pub fn of_length(rng: &mut Rng, map: &Map, length: usize) -> Vec<u8> {
    let mut bytes = rng.bytes(length - map.stored_length());
    bytes.extend(stored(map));
    bytes
}
