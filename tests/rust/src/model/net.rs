//! What both kinds of net share: fresh stations, form, the listing of allowed steps, steps, draws and runs.

use super::aggregate::{is_way, Aggregate};
use super::mail::Outbox;
use super::map::{self, Map};
use super::refusal::{admit, Cause, Refusal};
use super::station::{Station, ACTIVE, ASLEEP, FINISHED};
use super::{set, MOST_STATIONS, PLACES};
use std::fmt::Debug;

/// What a net is opened with: the numbers of its stations and of its classes, its desk, and its way of joining counts.
#[derive(Clone, Copy, PartialEq, Eq, Debug)]
pub struct Config {
    pub k: u8,
    pub classes: u8,
    pub desk: u8,
    pub way: u8,
}

impl Config {
    pub fn of(map: &Map, way: u8) -> Config {
        Config { k: map.k, classes: map.classes, desk: map.desk, way }
    }
}

#[derive(Clone, Copy, PartialEq, Eq, PartialOrd, Ord, Debug)]
pub struct Step {
    pub kind: u8,
    pub sender: u8,
    pub receiver: u8,
}

/// What a run gives besides the net. A run is refused with 11 where it stands outside the form.
#[derive(Clone, Copy, PartialEq, Eq, Debug)]
pub struct Run {
    pub refusal: Option<Refusal>,
    pub steps: u32,
    pub at_rest: bool,
}

pub trait Net: Clone + PartialEq + Debug {
    /// The number of the report, which is the last kind but for tells.
    const REPORT: u8;

    /// The last kind of step.
    const LAST: u8 = Self::REPORT;

    /// The fresh net of an accepted map, which joins counts the way.
    fn set_up(map: &Map, way: u8) -> Self;

    /// The kinds of step go to this.
    fn kinds(&self) -> u8 {
        Self::REPORT
    }

    /// The steps of a full run after its report: tells, where totals are carried back.
    fn tells(_: &Map) -> usize {
        0
    }

    /// What else holds of a net on this map that is at rest.
    fn check_rest(&self, _: &Map) {}

    fn config(&self) -> Config;

    fn config_mut(&mut self) -> &mut Config;

    fn k(&self) -> u8 {
        self.config().k
    }

    fn stations(&self) -> &[Station; PLACES];

    fn stations_mut(&mut self) -> &mut [Station; PLACES];

    /// The words of the boxes, by sender; none where stations meet.
    fn outboxes(&self) -> &[Outbox] {
        &[]
    }

    /// Form (11); it looks at the places below k, and of each at the classes below c, only.
    fn is_well_formed(&self) -> bool;

    /// Whether a step in range is allowed in a net in form.
    fn is_allowed(&self, step: Step) -> bool;

    /// Makes an allowed step.
    fn make(&mut self, step: Step);

    /// What a step allowed here brings its receiver, where it carries an answer.
    fn brought(&self, step: Step) -> Option<Aggregate>;

    /// What is not yet handed on: it joins to the map's total before the report.
    fn outstanding(&self) -> Aggregate;

    /// The fresh net of a map handed over: refusals 2, 3, 19, 7 to 10; "12, after the map's numbers", for the way.
    fn fresh(map: &Map, way: u8) -> Result<Self, Refusal> {
        map::accept(map)?;
        if !is_way(way) {
            return Err(Cause::OutOfRange.alone());
        }
        Ok(Self::set_up(map, way))
    }

    /// Number 12: kind, station numbers, and a report only at the desk and the desk.
    fn is_in_range(&self, step: Step) -> bool {
        (1..=self.kinds()).contains(&step.kind)
            && step.sender < self.k()
            && step.receiver < self.k()
            && (step.kind != Self::REPORT || [step.sender, step.receiver] == [self.config().desk; 2])
    }

    /// The allowed steps of a net in form, by kind, then sender, then receiver, rising.
    fn listing(&self) -> Vec<Step> {
        let mut steps = Vec::new();
        for kind in 1..=self.kinds() {
            let Config { k, desk, .. } = self.config();
            let stations = if kind == Self::REPORT { desk..desk + 1 } else { 0..k };
            for sender in stations.clone() {
                let to_any = stations.clone().map(|receiver| Step { kind, sender, receiver });
                steps.extend(to_any.filter(|&step| self.is_allowed(step)));
            }
        }
        steps
    }

    /// A step goes 11, 12, 13; it gives the step made.
    fn step(&mut self, step: Step) -> Result<Step, Refusal> {
        admit(self.is_well_formed(), || self.is_in_range(step), || self.is_allowed(step))?;
        self.make(step);
        Ok(step)
    }

    /// A draw goes 11, 14; it makes entry d mod c of the c allowed steps and gives it.
    fn draw(&mut self, draw: u16) -> Result<Step, Refusal> {
        if !self.is_well_formed() {
            return Err(Cause::OutOfForm.alone());
        }
        let allowed = self.listing();
        if allowed.is_empty() {
            return Err(Cause::NothingAllowed.alone());
        }
        let step = allowed[usize::from(draw) % allowed.len()];
        self.make(step);
        Ok(step)
    }

    /// A run draws until the draws are used up or the net is at rest, and stops with 11 where it stands outside the
    /// form: at its start, or after any step, the last one too.
    fn run(&mut self, draws: &[u16]) -> Run {
        let steps = draws.iter().take_while(|&&draw| self.draw(draw).is_ok()).count() as u32;
        if !self.is_well_formed() {
            return Run { refusal: Some(Cause::OutOfForm.alone()), steps, at_rest: false };
        }
        Run { refusal: None, steps, at_rest: self.listing().is_empty() }
    }
}

/// Stations fresh for an accepted map; past k they are zero and asleep, and past c zero.
pub fn fresh_stations(map: &Map, way: u8) -> [Station; PLACES] {
    let mut stations = [Station::default(); PLACES];
    for (i, &neighbours) in map.sets().iter().enumerate() {
        let held = Aggregate::of_counts(map.counts_of(i), way);
        let waits = set::size(neighbours);
        stations[i] = Station { held, unstarted: neighbours, parent: map.desk, waits, state: ASLEEP };
    }
    stations[usize::from(map.desk)].state = ACTIVE;
    stations
}

/// Form of the stations below k, of k, of c, of the desk and of the way.
pub fn are_well_formed(config: Config, stations: &[Station; PLACES]) -> bool {
    (1..=MOST_STATIONS).contains(&config.k)
        && (0..config.k).zip(stations).all(|(own, station)| station.is_well_formed(own, config))
}

/// What the stations below k that are not finished hold.
pub fn unfinished_total(config: Config, stations: &[Station; PLACES]) -> Aggregate {
    let unfinished = stations[..config.k.into()].iter().filter(|station| station.state != FINISHED);
    let mut total = Aggregate::of_none(config);
    unfinished.for_each(|station| total.join(&station.held, config));
    total
}
