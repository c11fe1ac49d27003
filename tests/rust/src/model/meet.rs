//! Stations that meet (document 01; document 001, Figure 2): a step is the sender's event and the receiver's together. A net
//! may be opened for carrying totals back (document 02, request 8).

use super::aggregate::Aggregate;
use super::map::Map;
use super::net::{are_well_formed, fresh_stations, unfinished_total, Config, Net, Step};
use super::station::{Station, ACTIVE, ASLEEP, FINISHED};
use super::{set, PLACES};

pub const WAKE: u8 = 1;
pub const PASS: u8 = 2;
pub const ANSWER: u8 = 3;
pub const REPORT: u8 = 4;
/// "kind 5 `tell`".
pub const TELL: u8 = 5;

/// "state 3, told".
pub const TOLD: u8 = 3;

/// The two ways a net is opened; any other number is out of form.
pub const WITHOUT: u8 = 0;
pub const CARRYING: u8 = 1;

#[derive(Clone, PartialEq, Eq, Debug)]
pub struct Meet {
    pub config: Config,
    pub stations: [Station; PLACES],
    pub carrying: u8,
    /// What each station keeps beside its own.
    pub kept: [Aggregate; PLACES],
}

impl Meet {
    /// "kept totals are zero in a fresh net".
    pub fn open(map: &Map, way: u8, carrying: u8) -> Meet {
        let kept = [Aggregate::default(); PLACES];
        Meet { config: Config::of(map, way), stations: fresh_stations(map, way), carrying, kept }
    }

    fn station(&self, i: u8) -> &Station {
        &self.stations[usize::from(i)]
    }

    /// "After the report (the desk finished)".
    pub fn is_reported(&self) -> bool {
        self.station(self.config.desk).state == FINISHED
    }

    /// "The desk knows it from its report"; another once it is told.
    pub fn knows(&self, i: u8) -> bool {
        if i == self.config.desk {
            self.is_reported()
        } else {
            self.station(i).state == TOLD
        }
    }

    /// The total that a station knows.
    pub fn known(&self, i: u8) -> Aggregate {
        if i == self.config.desk {
            self.station(i).held
        } else {
            self.kept[usize::from(i)]
        }
    }

    /// "states to 3, never 3 at the desk; a told station has waits zero, and kept totals obey the bounds".
    fn is_told_well(&self, i: u8) -> bool {
        let is_told = self.station(i).state == TOLD;
        self.kept[usize::from(i)].is_bounded(self.config)
            && !(is_told && (i == self.config.desk || self.station(i).waits != 0))
    }

    /// The stations, told ones taken as finished.
    fn settled(&self) -> [Station; PLACES] {
        self.stations.map(|station| match station.state {
            TOLD => Station { state: FINISHED, ..station },
            _ => station,
        })
    }
}

impl Net for Meet {
    const REPORT: u8 = REPORT;

    fn set_up(map: &Map, way: u8) -> Meet {
        Meet::open(map, way, WITHOUT)
    }

    /// "For such nets kinds go to 5".
    fn kinds(&self) -> u8 {
        if self.carrying == CARRYING {
            TELL
        } else {
            REPORT
        }
    }

    fn config(&self) -> Config {
        self.config
    }

    fn config_mut(&mut self) -> &mut Config {
        &mut self.config
    }

    fn stations(&self) -> &[Station; PLACES] {
        &self.stations
    }

    fn stations_mut(&mut self) -> &mut [Station; PLACES] {
        &mut self.stations
    }

    fn is_well_formed(&self) -> bool {
        match self.carrying {
            WITHOUT => are_well_formed(self.config, &self.stations),
            CARRYING => {
                are_well_formed(self.config, &self.settled()) && (0..self.config.k).all(|i| self.is_told_well(i))
            }
            _ => false,
        }
    }

    fn is_allowed(&self, step: Step) -> bool {
        let Step { kind, sender, receiver } = step;
        let (from, to) = (self.station(sender), self.station(receiver));
        let is_started = |state| to.state == state && from.state == ACTIVE && set::contains(from.unstarted, receiver);
        let desk = self.config.desk;
        match kind {
            REPORT => from.is_ready(),
            TELL => {
                self.is_reported()
                    && self.knows(sender)
                    && to.state == FINISHED
                    && receiver != desk
                    && to.parent == sender
            }
            _ if sender == receiver => false,
            WAKE => is_started(ASLEEP),
            PASS => is_started(ACTIVE),
            _ => sender != desk && from.is_ready() && from.parent == receiver && to.state == ACTIVE,
        }
    }

    fn make(&mut self, step: Step) {
        let (sender, receiver) = (usize::from(step.sender), usize::from(step.receiver));
        let classes = self.config.classes;
        match step.kind {
            WAKE | PASS => {
                self.stations[sender].send_start(step.receiver);
                self.stations[receiver].take_start(step.sender);
            }
            ANSWER => {
                let answer = self.stations[sender].finish(classes);
                self.stations[receiver].take_answer(&answer.gathered, self.config);
            }
            TELL => {
                self.kept[receiver] = self.known(step.sender).given(classes);
                self.stations[receiver].state = TOLD;
            }
            _ => {
                self.stations[sender].finish(classes);
            }
        }
    }

    fn brought(&self, step: Step) -> Option<Aggregate> {
        (step.kind == ANSWER).then(|| self.stations[usize::from(step.sender)].held.given(self.config.classes))
    }

    fn outstanding(&self) -> Aggregate {
        unfinished_total(self.config, &self.stations)
    }
}

/// A net that is opened for carrying back: all else is `Meet`'s.
#[derive(Clone, PartialEq, Eq, Debug)]
pub struct Back(pub Meet);

impl Net for Back {
    const REPORT: u8 = REPORT;
    const LAST: u8 = TELL;

    fn set_up(map: &Map, way: u8) -> Back {
        Back(Meet::open(map, way, CARRYING))
    }

    fn kinds(&self) -> u8 {
        self.0.kinds()
    }

    /// "With carrying back a full run has 2 × m + k steps".
    fn tells(map: &Map) -> usize {
        usize::from(map.k) - 1
    }

    /// "ends with every station knowing the reported total".
    fn check_rest(&self, map: &Map) {
        for i in 0..map.k {
            assert!(self.0.knows(i), "every station knows: {i}");
            assert_eq!(self.0.known(i), map.total(self.0.config.way), "what it knows is the reported total: {i}");
        }
    }

    fn config(&self) -> Config {
        self.0.config
    }

    fn config_mut(&mut self) -> &mut Config {
        &mut self.0.config
    }

    fn stations(&self) -> &[Station; PLACES] {
        &self.0.stations
    }

    fn stations_mut(&mut self) -> &mut [Station; PLACES] {
        &mut self.0.stations
    }

    fn is_well_formed(&self) -> bool {
        self.0.is_well_formed()
    }

    fn is_allowed(&self, step: Step) -> bool {
        self.0.is_allowed(step)
    }

    fn make(&mut self, step: Step) {
        self.0.make(step);
    }

    fn brought(&self, step: Step) -> Option<Aggregate> {
        self.0.brought(step)
    }

    fn outstanding(&self) -> Aggregate {
        self.0.outstanding()
    }
}
