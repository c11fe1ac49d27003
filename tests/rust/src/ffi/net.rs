//! What the wrappers of both kinds of net share.

use super::lending::{lend_mut, lend_slice, LaidOut, Packed};
use super::station::Aggregate;
use super::{map, Library};
use crate::calls::NetCalls;
use crate::model::map::Map;
use crate::model::net::{self as rules, Run, Step};
use crate::model::refusal::Refusal;
use crate::model::{station as model, PLACES};

/// Stands between the fields of a net: no call may touch it.
const BESIDE: u8 = 0xa5;

/// What a net is opened with.
#[derive(Clone, Copy)]
#[repr(C)]
struct Config {
    k: u8,
    classes: u8,
    desk: u8,
    way: u8,
    /// Where stations meet, whether totals are carried back; else beside.
    flag: u8,
    beside: [u8; 3],
}

/// A station in its place.
#[derive(Clone, Copy)]
#[repr(C)]
struct Place {
    held: Aggregate,
    unstarted: u64,
    parent: u8,
    waits: u8,
    state: u8,
    beside: [u8; 5],
}

impl Place {
    fn of(station: &model::Station) -> Place {
        let model::Station { held, unstarted, parent, waits, state } = *station;
        Place { held: held.lay_out(), unstarted, parent, waits, state, beside: [BESIDE; 5] }
    }

    fn station(&self) -> model::Station {
        let Place { held, unstarted, parent, waits, state, beside } = *self;
        assert_eq!(beside, [BESIDE; 5], "what stands beside a station was written");
        model::Station { held: LaidOut::take_back(&held), unstarted, parent, waits, state }
    }
}

/// The stations of a net of either kind; where they meet, the whole net.
#[derive(Clone)]
#[repr(C)]
pub struct Line {
    config: Config,
    stations: [Place; PLACES],
}

impl Line {
    pub fn of(config: rules::Config, stations: &[model::Station; PLACES]) -> Line {
        Line::flagged(config, BESIDE, stations)
    }

    pub fn flagged(
        rules::Config { k, classes, desk, way }: rules::Config,
        flag: u8,
        stations: &[model::Station; PLACES],
    ) -> Line {
        Line {
            config: Config { k, classes, desk, way, flag, beside: [BESIDE; 3] },
            stations: stations.each_ref().map(Place::of),
        }
    }

    pub fn flag(&self) -> u8 {
        self.config.flag
    }

    /// Where there is no flag.
    pub fn assert_no_flag(&self) {
        assert_eq!(self.config.flag, BESIDE, "what stands beside k, c, the desk and the way was written");
    }

    pub fn config(&self) -> rules::Config {
        let Config { k, classes, desk, way, beside, .. } = self.config;
        assert_eq!(beside, [BESIDE; 3], "what stands beside k, c, the desk and the way was written");
        rules::Config { k, classes, desk, way }
    }

    pub fn stations(&self) -> [model::Station; PLACES] {
        self.stations.each_ref().map(Place::station)
    }
}

/// What a run returns: its number, with 1 where the net is at rest, and the steps made.
#[repr(C)]
pub struct RunAnswer {
    pub answer: Packed,
    pub steps: u64,
}

/// The exported functions of one kind of net, over its layout.
pub trait Exports {
    fn fresh(&mut self, map: map::Map, way: u8) -> Packed;

    /// A step and a draw come with the step made.
    fn step(&mut self, step: Step) -> Packed;

    fn draw(&mut self, draw: u16) -> Packed;

    /// # Safety
    /// As many draws as `length` says stand there.
    unsafe fn run(&mut self, draws: *const u16, length: usize) -> RunAnswer;
}

/// The step made: kind, sender, receiver, a byte each.
fn made(packed: Packed) -> Result<Step, Refusal> {
    let value = packed.given()?;
    let [kind, sender, receiver, above @ ..] = value.to_le_bytes();
    assert_eq!(above, [0; 5], "a step has three numbers");
    Ok(Step { kind, sender, receiver })
}

impl<N: LaidOut> NetCalls<N> for Library
where
    N::Layout: Exports,
{
    fn fresh(&self, map: &Map, way: u8, net: &mut N) -> Result<(), Refusal> {
        lend_mut(net, |net| net.fresh(map.lay_out(), way)).done()
    }

    fn step(&self, net: &mut N, step: Step) -> Result<Step, Refusal> {
        made(lend_mut(net, |net| net.step(step)))
    }

    fn draw(&self, net: &mut N, draw: u16) -> Result<Step, Refusal> {
        made(lend_mut(net, |net| net.draw(draw)))
    }

    fn run(&self, net: &mut N, draws: &[u16]) -> Run {
        let RunAnswer { answer, steps } =
            lend_slice(draws, |draws| lend_mut(net, |net| unsafe { net.run(draws.as_mut_ptr(), draws.len()) }));
        let outcome = answer.given();
        assert!(matches!(outcome, Ok(0 | 1) | Err(_)), "at rest or not: {outcome:?}");
        Run { refusal: outcome.err(), steps: steps.try_into().expect("a count"), at_rest: outcome == Ok(1) }
    }
}
