//! The line map (document 01, and document 02, requests 2, 4 and 5): its stored form, reading, acceptance and writing.

use super::aggregate::{in_use, is_class_count, Aggregate, Cell, GREATEST, LEAST, NONE, NO_READING, NUMBER};
use super::refusal::{Cause, Refusal};
use super::{set, CLASSES, MOST_CLASSES, MOST_STATIONS, PLACES};

pub const TRAILER: usize = 16;

/// "A lot of 2^48 or more" is not written.
pub const LOT_LIMIT: u64 = 1 << 48;

#[derive(Clone, Copy, PartialEq, Eq, Debug)]
pub struct Map {
    pub k: u8,
    /// c: how many counts a station has.
    pub classes: u8,
    /// The station that starts the wave and reports.
    pub desk: u8,
    pub lot: u64,
    /// By station, then by class.
    pub counts: [[u32; CLASSES]; PLACES],
    pub neighbours: [u64; PLACES],
}

impl Map {
    /// With the desk at station 0.
    pub fn empty(k: u8, classes: u8, lot: u64) -> Map {
        Map { k, classes, desk: 0, lot, counts: [[0; CLASSES]; PLACES], neighbours: [0; PLACES] }
    }

    /// The places below k; the others say nothing.
    pub fn sets(&self) -> &[u64] {
        &self.neighbours[..self.k.into()]
    }

    /// The counts of a station in the classes in use.
    pub fn counts_of(&self, station: usize) -> &[u32] {
        &self.counts[station][in_use(self.classes)]
    }

    /// Zero past k and past c, as reading gives it.
    pub fn trimmed(&self) -> Map {
        let mut map = Map { desk: self.desk, ..Map::empty(self.k, self.classes, self.lot) };
        for i in 0..usize::from(self.k) {
            map.counts[i][in_use(self.classes)].copy_from_slice(self.counts_of(i));
            map.neighbours[i] = self.neighbours[i];
        }
        map
    }

    /// What the desk is to report (document 02, requests 1, 2 and 10): "each class reports its own total".
    pub fn total(&self, way: u8) -> Aggregate {
        Aggregate::of(in_use(self.classes).map(|class| self.total_of(class, way)))
    }

    /// "The sum over heads with a reading, together with how many had none"; "the greatest and the least count on a line",
    /// `none` where there is none; "number of stations with a reading".
    fn total_of(&self, class: usize, way: u8) -> Cell {
        let counts = self.counts[..self.k.into()].iter().map(|counts| counts[class]);
        let (missing, readings): (Vec<u32>, Vec<u32>) = counts.partition(|&count| count == NO_READING);
        let readings = readings.into_iter().map(u64::from);
        let sum = match way {
            GREATEST => readings.max().unwrap_or(NONE),
            LEAST => readings.min().unwrap_or(NONE),
            NUMBER => readings.count() as u64,
            _ => readings.sum(),
        };
        Cell { sum, missing: missing.len() as u8 }
    }

    /// m of an accepted map: each link is named from both its ends.
    pub fn links(&self) -> u32 {
        self.sets().iter().map(|&set| u32::from(set::size(set))).sum::<u32>() / 2
    }

    /// Bytes of the stored form.
    pub fn stored_length(&self) -> usize {
        stored_length(self.k, self.classes)
    }
}

/// "A row may hold c counts, 1 to 8, before its set, so the row length is 8 + 4 × c."
pub fn row_length(classes: u8) -> usize {
    8 + 4 * usize::from(classes)
}

/// "The distance back is the row length times k."
fn distance(k: u8, classes: u8) -> usize {
    row_length(classes) * usize::from(k)
}

fn stored_length(k: u8, classes: u8) -> usize {
    distance(k, classes) + TRAILER
}

/// The stored form: rows of counts and set, then the trailer, whose last word makes all words add to zero. The distance
/// back "keeps the lower 2 bytes of its field. The upper 2 bytes become bits 32 to 47 of the lot." "The upper byte of the
/// trailer's 2-byte field for k names the desk; k is the lower byte."
pub fn stored(map: &Map) -> Vec<u8> {
    let mut bytes = Vec::with_capacity(map.stored_length());
    for i in 0..usize::from(map.k) {
        bytes.extend(map.counts_of(i).iter().flat_map(|count| count.to_le_bytes()));
        bytes.extend(map.neighbours[i].to_le_bytes());
    }
    bytes.extend([map.k, map.desk]);
    bytes.extend((row_length(map.classes) as u16).to_le_bytes());
    bytes.extend((distance(map.k, map.classes) as u16).to_le_bytes());
    let lot = map.lot.to_le_bytes();
    bytes.extend(&lot[4..6]);
    bytes.extend(&lot[..4]);
    let check = word_sum(&bytes).wrapping_neg();
    bytes.extend(check.to_le_bytes());
    bytes
}

/// The 32-bit words of whole words, added with wrap at 2^32.
pub fn word_sum(bytes: &[u8]) -> u32 {
    bytes.chunks_exact(4).map(|word| le32(word, 0)).fold(0, u32::wrapping_add)
}

/// Reads the map that ends with the lent bytes. Refusals 1 to 10 in order, with 19 after 3.
pub fn read(bytes: &[u8]) -> Result<Map, Refusal> {
    let (k, classes, desk) = trailer_numbers(bytes)?;
    let own = &bytes[bytes.len() - stored_length(k, classes)..];
    if word_sum(own) != 0 {
        return Err(Cause::CheckWord.alone());
    }
    let map = unpack(k, classes, desk, own);
    accept(&map)?;
    Ok(map)
}

/// The trailer's k, c by its row length, and the desk. Refusals 1 to 3, 19, 4 and 5.
fn trailer_numbers(bytes: &[u8]) -> Result<(u8, u8, u8), Refusal> {
    let Some(start) = bytes.len().checked_sub(TRAILER) else {
        return Err(Cause::UnderTrailer.alone());
    };
    let trailer = &bytes[start..];
    let classes = classes_of_row(le16(trailer, 2)).ok_or(Cause::Classes.alone())?;
    let [k, desk] = [trailer[0], trailer[1]];
    is_of_stations(k, desk)?;
    if usize::from(le16(trailer, 4)) != distance(k, classes) {
        return Err(Cause::Distance.alone());
    }
    if distance(k, classes) > start {
        return Err(Cause::RowsMissing.alone());
    }
    Ok((k, classes, desk))
}

/// "Row length not one of 12, 16, .. 40" is none.
fn classes_of_row(length: u16) -> Option<u8> {
    (1..=MOST_CLASSES).find(|&classes| row_length(classes) == usize::from(length))
}

/// The map in its own bytes, zero past k and past c.
fn unpack(k: u8, classes: u8, desk: u8, own: &[u8]) -> Map {
    let (rows, trailer) = own.split_at(own.len() - TRAILER);
    let lot = u64::from(le32(trailer, 8)) | u64::from(le16(trailer, 6)) << 32;
    let mut map = Map { desk, ..Map::empty(k, classes, lot) };
    for (i, row) in rows.chunks_exact(row_length(classes)).enumerate() {
        let (counts, set) = row.split_at(row.len() - 8);
        for (class, count) in counts.chunks_exact(4).enumerate() {
            map.counts[i][class] = le32(count, 0);
        }
        map.neighbours[i] = u64::from(le32(set, 0)) | u64::from(le32(set, 4)) << 32;
    }
    map
}

fn le16(bytes: &[u8], at: usize) -> u16 {
    u16::from_le_bytes([bytes[at], bytes[at + 1]])
}

fn le32(bytes: &[u8], at: usize) -> u32 {
    u32::from(le16(bytes, at)) | u32::from(le16(bytes, at + 2)) << 16
}

/// "k is 0 or above 64" (3), and then "19 when the desk is not below k, after 3".
fn is_of_stations(k: u8, desk: u8) -> Result<(), Refusal> {
    if !(1..=MOST_STATIONS).contains(&k) {
        return Err(Cause::StationCount.alone());
    }
    if desk >= k {
        return Err(Cause::Desk.alone());
    }
    Ok(())
}

/// A map handed over goes 2, 3, 19, 7 to 10; each rule is tested over all stations before the next.
pub fn accept(map: &Map) -> Result<(), Refusal> {
    if !is_class_count(map.classes) {
        return Err(Cause::Classes.alone());
    }
    is_of_stations(map.k, map.desk)?;
    let sets = map.sets();
    none_offends(sets, Cause::NamesBeyond, |_, set| !set::is_within(set, map.k))?;
    none_offends(sets, Cause::NamesItself, |i, set| set::contains(set, i))?;
    none_offends(sets, Cause::NotMutual, |i, set| set::members(set).any(|j| !set::contains(sets[usize::from(j)], i)))?;
    let joined = joined_to(map.desk, sets);
    none_offends(sets, Cause::NoChain, |i, _| !set::contains(joined, i))
}

/// Refuses with the lowest station that breaks a rule.
fn none_offends(sets: &[u64], cause: Cause, offends: impl Fn(u8, u64) -> bool) -> Result<(), Refusal> {
    match (0..).zip(sets).find(|&(i, &set)| offends(i, set)) {
        Some((i, _)) => Err(cause.with(i.into())),
        None => Ok(()),
    }
}

/// The stations with a chain of links to the desk: what naming adds to it until nothing is new.
fn joined_to(desk: u8, sets: &[u64]) -> u64 {
    let mut joined = set::singleton(desk);
    loop {
        let wider = set::members(joined).fold(joined, |all, i| all | sets[usize::from(i)]);
        if wider == joined {
            return joined;
        }
        joined = wider;
    }
}

/// A map handed over to be written goes 2, 3, 19, 7 to 10, and 18.
pub fn accept_for_writing(map: &Map) -> Result<(), Refusal> {
    accept(map)?;
    if map.lot >= LOT_LIMIT {
        return Err(Cause::LotTooLong.alone());
    }
    Ok(())
}

/// Writes an accepted map at the first lent byte; the bytes past it stay. Gives the number of bytes filled. Refusals 2, 3,
/// 19, 7 to 10, 18, 15.
pub fn write(map: &Map, buffer: &mut [u8]) -> Result<u32, Refusal> {
    accept_for_writing(map)?;
    let length = map.stored_length();
    match buffer.get_mut(..length) {
        Some(filled) => {
            filled.copy_from_slice(&stored(map));
            Ok(length as u32)
        }
        None => Err(Cause::BufferTooSmall.with(length as u32)),
    }
}
