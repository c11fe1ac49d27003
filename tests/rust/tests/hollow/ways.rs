//! Ways of joining (document 02, request 10): joined another way, none taken for a number, missing readings counted, ways that
//! there are none of.

use super::faulty::{self, Faults};
use conformance::calls::{Model, NetCalls};
use conformance::model::aggregate::{in_use, Aggregate, Cell, GREATEST, LEAST, NONE, NUMBER, SUM};
use conformance::model::mail::Mail;
use conformance::model::map::Map;
use conformance::model::meet::{Back, Meet};
use conformance::model::net::{Config, Net, Step};
use conformance::model::refusal::{Cause, Refusal};

#[derive(Clone, Copy, PartialEq, Debug, Default)]
enum Fault {
    #[default]
    Nothing,
    // joined
    Added,
    GreatestForLeast,
    NoneTakenForANumber,
    LeastFromZero,
    MissingNotAdded,
    // in form
    WayFourInForm,
    NoneRefused,
    NoneInFormUnderTheSum,
    // opened
    MissingReadingCounted,
    NoneOpenedZero,
    ReadingsNotCounted,
    WayNotOpened,
    WayFourOpened,
    WayTestedFirst,
}

/// Of joining.
const JOINED: [Fault; 5] =
    [Fault::Added, Fault::GreatestForLeast, Fault::NoneTakenForANumber, Fault::LeastFromZero, Fault::MissingNotAdded];

fn faults() -> Faults<Fault> {
    let formed = [Fault::WayFourInForm, Fault::NoneRefused, Fault::NoneInFormUnderTheSum];
    Faults {
        nets: 4_000,
        lists: 60,
        of_steps: [&JOINED[..], &formed].concat(),
        of_openings: vec![
            Fault::MissingReadingCounted,
            Fault::NoneOpenedZero,
            Fault::ReadingsNotCounted,
            Fault::WayNotOpened,
            Fault::WayFourOpened,
            Fault::WayTestedFirst,
        ],
        against_demand_3: [&JOINED[..], &[Fault::MissingReadingCounted, Fault::NoneOpenedZero]].concat(),
    }
}

/// Two cells, joined with a fault.
fn joined(fault: Fault, way: u8, held: Cell, brought: Cell) -> Cell {
    let due = held.join(brought, way);
    let sum = match (fault, way) {
        (Fault::Added, GREATEST | LEAST) => held.sum.saturating_add(brought.sum),
        (Fault::GreatestForLeast, LEAST) => return held.join(brought, GREATEST),
        (Fault::NoneTakenForANumber, GREATEST) => held.sum.max(brought.sum),
        (Fault::LeastFromZero, LEAST) => 0,
        _ => due.sum,
    };
    let missing = if fault == Fault::MissingNotAdded { held.missing } else { due.missing };
    Cell { sum, missing }
}

/// The net without any none, or with one that a way does not have taken for zero.
fn without_none<N: Net>(net: &N) -> N {
    let mut other = net.clone();
    let (k, classes) = (usize::from(net.k()).min(64), net.config().classes.min(8));
    for station in &mut other.stations_mut()[..k] {
        for sum in &mut station.held.sums[in_use(classes)] {
            *sum = if *sum == NONE { 0 } else { *sum };
        }
    }
    other
}

impl<N: Net> faulty::Fault<N> for Fault {
    fn is_well_formed(self, net: &N) -> bool {
        match self {
            Fault::WayFourInForm if net.config().way == 4 => {
                let mut other = net.clone();
                other.config_mut().way = SUM;
                other.is_well_formed()
            }
            Fault::NoneRefused => net.is_well_formed() && without_none(net) == *net,
            Fault::NoneInFormUnderTheSum => without_none(net).is_well_formed(),
            _ => net.is_well_formed(),
        }
    }

    fn make(self, net: &mut N, step: Step) {
        let (before, Config { classes, way, .. }) = (net.clone(), net.config());
        net.make(step);
        let Some(brought) = before.brought(step) else { return };
        let receiver = usize::from(step.receiver);
        let mut held = before.stations()[receiver].held;
        in_use(classes).for_each(|class| held.put(class, joined(self, way, held.cell(class), brought.cell(class))));
        if JOINED.contains(&self) {
            net.stations_mut()[receiver].held = held;
        }
    }

    fn fresh(self, map: &Map, way: u8, net: &mut N) -> Result<(), Refusal> {
        let before = net.config();
        match self {
            Fault::WayFourOpened if way == 4 => return Model.fresh(map, SUM, net),
            Fault::WayTestedFirst if way > NUMBER => return Err(Cause::OutOfRange.alone()),
            _ => Model.fresh(map, way, net)?,
        }
        let other = match (self, way) {
            (Fault::MissingReadingCounted, NUMBER) => {
                |cell: Cell| Cell { sum: cell.sum + u64::from(cell.missing), ..cell }
            }
            (Fault::NoneOpenedZero, _) => {
                |cell: Cell| Cell { sum: if cell.sum == NONE { 0 } else { cell.sum }, ..cell }
            }
            _ => |cell: Cell| cell,
        };
        for (place, station) in net.stations_mut()[..map.k.into()].iter_mut().enumerate() {
            if self == Fault::ReadingsNotCounted && way == NUMBER {
                station.held = Aggregate::of_counts(map.counts_of(place), SUM);
            }
            in_use(map.classes).for_each(|class| station.held.put(class, other(station.held.cell(class))));
        }
        if self == Fault::WayNotOpened {
            net.config_mut().way = before.way;
        }
        Ok(())
    }
}

#[test]
fn stations_that_meet() {
    faults().are_told_apart::<Meet>();
}

#[test]
fn carrying_back() {
    faults().are_told_apart::<Back>();
}

#[test]
fn stations_with_mail() {
    faults().are_told_apart::<Mail>();
}
