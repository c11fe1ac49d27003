//! Maps: what may go wrong with rows of several counts, with long lots and with desks, stored and handed over.

use super::is_caught;
use conformance::calls::{MapCalls, Model};
use conformance::compare::map::{handing_over, reading};
use conformance::model::map::{Map, LOT_LIMIT, TRAILER};
use conformance::model::refusal::{Cause, Refusal};
use conformance::model::{CLASSES, MOST_CLASSES, MOST_STATIONS, PLACES};

/// Enough bytes, and enough maps, to meet each fault.
const CASES: u64 = 3_000;

#[derive(Clone, Copy, PartialEq, Debug)]
enum Fault {
    Nothing,
    StationsTestedFirst,
    ClassesUntested,
    NineAccepted,
    RowsOfTwelveOnly,
    NineClassesRead,
    DistanceUntested,
    SetReadEarly,
    PastCLeftByReading,
    PastCWritten,
    LastCountNotWritten,
    LengthByTwelve,
    UpperHalfNotRead,
    DistanceOfFourBytes,
    UpperHalfNotWritten,
    LotUntested,
    LotTestedFirst,
    LotTestedLast,
    LotTestedByAccept,
    DeskNotRead,
    StationsOfTwoBytes,
    DeskBeforeStations,
    DeskAfterDistance,
    DeskNotWritten,
    DeskUntested,
    DeskTestedLast,
    ChainsToZero,
}

/// Of reading, and of a map handed over.
const READ_FAULTS: [Fault; 11] = [
    Fault::RowsOfTwelveOnly,
    Fault::NineClassesRead,
    Fault::DistanceUntested,
    Fault::SetReadEarly,
    Fault::PastCLeftByReading,
    Fault::UpperHalfNotRead,
    Fault::DistanceOfFourBytes,
    Fault::DeskNotRead,
    Fault::StationsOfTwoBytes,
    Fault::DeskBeforeStations,
    Fault::DeskAfterDistance,
];
const HANDED_OVER_FAULTS: [Fault; 16] = [
    Fault::StationsTestedFirst,
    Fault::ClassesUntested,
    Fault::NineAccepted,
    Fault::PastCWritten,
    Fault::LastCountNotWritten,
    Fault::LengthByTwelve,
    Fault::UpperHalfNotWritten,
    Fault::LotUntested,
    Fault::LotTestedFirst,
    Fault::LotTestedLast,
    Fault::LotTestedByAccept,
    Fault::DeskBeforeStations,
    Fault::DeskNotWritten,
    Fault::DeskUntested,
    Fault::DeskTestedLast,
    Fault::ChainsToZero,
];

impl Fault {
    /// A map handed over, as it is looked at.
    fn seen(self, map: &Map) -> Map {
        let mut seen = *map;
        match self {
            Fault::StationsTestedFirst if !(1..=MOST_STATIONS).contains(&map.k) => seen.classes = 1,
            Fault::ClassesUntested => seen.classes = map.classes.clamp(1, MOST_CLASSES),
            Fault::NineAccepted if map.classes == MOST_CLASSES + 1 => seen.classes = MOST_CLASSES,
            Fault::UpperHalfNotWritten if map.lot < LOT_LIMIT => seen.lot = map.lot % (1 << 32),
            Fault::LotUntested => seen.lot = map.lot % LOT_LIMIT,
            Fault::DeskUntested => seen.desk = map.desk.min(map.k.saturating_sub(1)),
            Fault::DeskNotWritten | Fault::ChainsToZero if map.desk < map.k => seen.desk = 0,
            _ => {}
        }
        seen
    }

    /// A rule on desks in another place than its own.
    fn desk(self, map: &Map) -> Result<(), Refusal> {
        let has_classes = (1..=MOST_CLASSES).contains(&map.classes);
        match self {
            Fault::DeskBeforeStations if has_classes && map.desk >= map.k => Err(Cause::Desk.alone()),
            Fault::DeskTestedLast if map.desk >= map.k => Model.accept(&Map { desk: 0, ..*map }),
            _ => Ok(()),
        }
    }

    /// A rule on lots where there is none.
    fn lot(self, tested_by: Fault, map: &Map) -> Result<(), Refusal> {
        if self == tested_by && map.lot >= LOT_LIMIT {
            return Err(Cause::LotTooLong.alone());
        }
        Ok(())
    }
}

/// A field of 2 bytes in the trailer, where there is one.
fn field(bytes: &[u8], at: usize) -> Option<u16> {
    let start = bytes.len().checked_sub(TRAILER)?;
    Some(u16::from_le_bytes([bytes[start + at], bytes[start + at + 1]]))
}

/// The bytes with a word of the trailer replaced, and a check word to fit.
fn with_word(bytes: &[u8], at: usize, word: u32) -> Vec<u8> {
    let mut changed = bytes.to_vec();
    let (word_at, check_at) = (bytes.len() - TRAILER + at, bytes.len() - 4);
    let before = |at: usize| u32::from_le_bytes([bytes[at], bytes[at + 1], bytes[at + 2], bytes[at + 3]]);
    let check = before(check_at).wrapping_add(before(word_at)).wrapping_sub(word);
    changed[word_at..word_at + 4].copy_from_slice(&word.to_le_bytes());
    changed[check_at..].copy_from_slice(&check.to_le_bytes());
    changed
}

impl MapCalls for Fault {
    fn read(&self, bytes: &[u8], map: &mut Map) -> Result<(), Refusal> {
        let before = *map;
        let [stations, row, distance, upper] = [0, 2, 4, 6].map(|at| field(bytes, at).map_or(0, u32::from));
        let (k, desk) = (stations % 256, stations / 256);
        let is_row = (12..=40).contains(&row) && row % 4 == 0;
        match self {
            Fault::StationsOfTwoBytes if is_row && desk > 0 => return Err(Cause::StationCount.alone()),
            Fault::DeskBeforeStations if is_row && desk >= k => return Err(Cause::Desk.alone()),
            Fault::DeskAfterDistance if is_row && (1..=64).contains(&k) && distance != row * k => {
                return Err(Cause::Distance.alone())
            }
            Fault::RowsOfTwelveOnly if row > 12 => return Err(Cause::Classes.alone()),
            Fault::NineClassesRead if row == 44 => return Model.read(&with_word(bytes, 0, stations | 40 << 16), map),
            Fault::DistanceUntested if row > 0 => {
                return Model.read(&with_word(bytes, 4, k * row % (1 << 16) | upper << 16), map)
            }
            Fault::DistanceOfFourBytes if upper > 0 => return Model.read(&with_word(bytes, 4, u32::MAX), map),
            _ => {}
        }
        Model.read(bytes, map)?;
        if *self == Fault::UpperHalfNotRead {
            map.lot %= 1 << 32;
        }
        if *self == Fault::DeskNotRead {
            map.desk = 0;
        }
        let classes = usize::from(map.classes);
        for i in 0..usize::from(map.k) {
            match self {
                Fault::PastCLeftByReading => map.counts[i][classes..].copy_from_slice(&before.counts[i][classes..]),
                Fault::SetReadEarly => {
                    map.neighbours[i] = map.neighbours[i] << 32 | u64::from(map.counts[i][classes - 1])
                }
                _ => {}
            }
        }
        Ok(())
    }

    fn accept(&self, map: &Map) -> Result<(), Refusal> {
        self.desk(map)?;
        Model.accept(&self.seen(map))?;
        self.lot(Fault::LotTestedByAccept, map)
    }

    fn write(&self, map: &Map, buffer: &mut [u8]) -> Result<u32, Refusal> {
        self.desk(map)?;
        self.lot(Fault::LotTestedFirst, map)?;
        let mut seen = self.seen(map);
        let last = usize::from(seen.classes.clamp(1, MOST_CLASSES)) - 1;
        match self {
            Fault::PastCWritten if last + 1 < CLASSES => {
                (0..PLACES).for_each(|i| seen.counts[i][last] ^= seen.counts[i][last + 1])
            }
            Fault::LotTestedLast if buffer.len() < seen.stored_length() => seen.lot %= LOT_LIMIT,
            Fault::ChainsToZero => {
                Model.accept(&seen)?;
                seen.desk = map.desk;
            }
            Fault::LastCountNotWritten => seen.counts.iter_mut().for_each(|counts| counts[last] = 0),
            _ => {}
        }
        Model.write(&seen, buffer).map_err(|refusal| match self {
            Fault::LengthByTwelve if refusal.value == Some(seen.stored_length() as u32) => {
                Cause::BufferTooSmall.with(12 * u32::from(seen.k) + TRAILER as u32)
            }
            _ => refusal,
        })
    }

    fn links(&self, map: &Map) -> Result<u32, Refusal> {
        self.desk(map)?;
        self.lot(Fault::LotTestedByAccept, map)?;
        Model.links(&self.seen(map))
    }
}

#[test]
fn the_faultless_passes() {
    reading(&Fault::Nothing, CASES);
    handing_over(&Fault::Nothing, CASES);
}

#[test]
fn comparisons_catch_every_fault() {
    for fault in READ_FAULTS {
        assert!(is_caught(|| reading(&fault, CASES)), "{fault:?} passes");
    }
    for fault in HANDED_OVER_FAULTS {
        assert!(is_caught(|| handing_over(&fault, CASES)), "{fault:?} passes");
    }
}
