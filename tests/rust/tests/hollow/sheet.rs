//! Sheets: what may go wrong with their lines, their tests and their buffers.

use super::is_caught;
use conformance::calls::{Model, SheetCalls};
use conformance::compare::sheet::{rooms, sheets, sums};
use conformance::model::aggregate::{NO_READING, SUM};
use conformance::model::map::{accept, Map, LOT_LIMIT};
use conformance::model::meet::Meet;
use conformance::model::net::{Config, Net};
use conformance::model::refusal::{number, Cause, Refusal};
use conformance::model::sheet::{is_reported, length, LINE, TOTAL_LIMIT};
use conformance::model::station::FINISHED;

/// Enough lots to meet each fault.
const CASES: u64 = 3_000;

#[derive(Clone, Copy, PartialEq, Debug)]
enum Fault {
    Nothing,
    MissingCountPrinted,
    ClassesBeforeStations,
    LeftAligned,
    ClassesFromZero,
    TotalsOfTheMap,
    UnreportedBeforeDiffers,
    NetBeforeMap,
    ShortBeforeUnreported,
    LotUntested,
    DeskUntested,
    TotalUntested,
    ConfigUntested,
    PastCleared,
    ShortWritten,
    LengthWithoutTheLot,
}

const FAULTS: [Fault; 15] = [
    Fault::MissingCountPrinted,
    Fault::ClassesBeforeStations,
    Fault::LeftAligned,
    Fault::ClassesFromZero,
    Fault::TotalsOfTheMap,
    Fault::UnreportedBeforeDiffers,
    Fault::NetBeforeMap,
    Fault::ShortBeforeUnreported,
    Fault::LotUntested,
    Fault::DeskUntested,
    Fault::TotalUntested,
    Fault::ConfigUntested,
    Fault::PastCleared,
    Fault::ShortWritten,
    Fault::LengthWithoutTheLot,
];

impl Fault {
    /// The net as it is looked at.
    fn seen(self, map: &Map, net: &Meet) -> Meet {
        let mut seen = net.clone();
        if accept(map).is_err() || !net.is_well_formed() {
            return seen;
        }
        let desk = &mut seen.stations[usize::from(net.config.desk)];
        match self {
            Fault::DeskUntested => desk.state = FINISHED,
            Fault::TotalUntested => desk.held.sums.iter_mut().for_each(|sum| *sum %= TOTAL_LIMIT),
            Fault::TotalsOfTheMap if desk.state == FINISHED => desk.held = map.total(SUM),
            Fault::ConfigUntested => seen.config = Config::of(map, SUM),
            _ => {}
        }
        seen
    }

    /// A test that comes too early.
    fn early(self, map: &Map, net: &Meet, room: usize) -> Result<(), Refusal> {
        let formed = net.is_well_formed();
        match self {
            Fault::NetBeforeMap if !formed => Err(Cause::OutOfForm.alone()),
            Fault::UnreportedBeforeDiffers
                if accept(map).is_ok() && map.lot < LOT_LIMIT && formed && !is_reported(net) =>
            {
                Err(Cause::Unreported.alone())
            }
            Fault::ShortBeforeUnreported if number(&Model.sheet(map, net, &mut [])) == 21 && room < length(map) => {
                Err(Cause::BufferTooSmall.with(length(map) as u32))
            }
            _ => Ok(()),
        }
    }

    /// The lines as they are printed.
    fn print(self, map: &Map, sheet: &mut [u8]) {
        let (k, classes) = (usize::from(map.k), usize::from(map.classes));
        let mut lines: Vec<Vec<u8>> = sheet.chunks(LINE).map(<[u8]>::to_vec).collect();
        for line in &mut lines[1..] {
            match self {
                Fault::MissingCountPrinted if line[5] == b'-' => {
                    line[5..15].copy_from_slice(NO_READING.to_string().as_bytes())
                }
                Fault::ClassesFromZero => line[3] -= 1,
                Fault::LeftAligned => {
                    let blanks = line[5..15].iter().take_while(|&&byte| byte == b' ').count();
                    line[5..15].rotate_left(blanks);
                }
                _ => {}
            }
        }
        if self == Fault::ClassesBeforeStations {
            let by_station = lines.clone();
            for i in 0..k {
                for j in 0..classes {
                    lines[1 + k * j + i] = by_station[1 + classes * i + j].clone();
                }
            }
        }
        sheet.copy_from_slice(&lines.concat());
    }
}

impl SheetCalls for Fault {
    fn sheet(&self, map: &Map, net: &Meet, buffer: &mut [u8]) -> Result<u32, Refusal> {
        self.early(map, net, buffer.len())?;
        let seen = if *self == Fault::LotUntested { Map { lot: map.lot % LOT_LIMIT, ..*map } } else { *map };
        let answer = Model.sheet(&seen, &self.seen(map, net), buffer);
        match (self, answer) {
            (Fault::LengthWithoutTheLot, Err(Refusal { number: 15, value })) => {
                Err(Cause::BufferTooSmall.with(value.unwrap_or(0) - LINE as u32))
            }
            (Fault::ShortWritten, Err(Refusal { number: 15, .. })) if !buffer.is_empty() => {
                buffer[0] = b' ';
                answer
            }
            (_, Ok(filled)) => {
                let (sheet, past) = buffer.split_at_mut(filled as usize);
                self.print(map, sheet);
                if *self == Fault::PastCleared {
                    past.iter_mut().take(1).for_each(|byte| *byte = 0);
                }
                answer
            }
            _ => answer,
        }
    }
}

#[test]
fn the_faultless_passes() {
    sheets(&Fault::Nothing, CASES);
    rooms(&Fault::Nothing, 10);
    sums(&Fault::Nothing, 100);
}

#[test]
fn comparisons_catch_every_fault() {
    for fault in FAULTS {
        assert!(is_caught(|| sheets(&fault, CASES)), "{fault:?} passes");
    }
}
