//! One station (document 01): the process of document 001, Definition 3.1, with its refusals 11, 12, 13.

use super::aggregate::{is_class_count, is_way, Aggregate};
use super::net::Config;
use super::refusal::{admit, Refusal};
use super::{set, MOST_STATIONS};

pub const ASLEEP: u8 = 0;
pub const ACTIVE: u8 = 1;
pub const FINISHED: u8 = 2;

/// What a net holds of a station: all of it but its own number.
#[derive(Clone, Copy, PartialEq, Eq, Debug, Default)]
pub struct Station {
    /// What it has gathered: a sum and a missing number for each class.
    pub held: Aggregate,
    /// The set still to be started; in a mail net, the neighbours.
    pub unstarted: u64,
    pub parent: u8,
    pub waits: u8,
    pub state: u8,
}

/// "Less one" stops at zero.
fn less_one(waits: u8) -> u8 {
    waits.saturating_sub(1)
}

/// The events of Definition 3.1 without their guards.
impl Station {
    /// Form (11) at place `own` of `k`, and of c, the desk and the way; of what it holds, only the classes in use are
    /// looked at.
    pub fn is_well_formed(&self, own: u8, config: Config) -> bool {
        let Config { k, classes, desk, way } = config;
        is_class_count(classes)
            && is_way(way)
            && desk < k
            && own < k
            && self.state <= FINISHED
            && self.parent < k
            && set::is_within(self.unstarted, k)
            && self.waits <= 64
            && self.held.is_bounded(config)
            && !set::contains(self.unstarted, own)
            && (own == desk || self.parent != own)
    }

    /// Lines 5 and 6: nothing left to send, nothing left to wait for.
    pub fn is_ready(&self) -> bool {
        self.state == ACTIVE && self.unstarted == 0 && self.waits == 0
    }

    /// Lines 1 and 4.
    pub fn take_start(&mut self, from: u8) {
        if self.state == ASLEEP {
            self.wake(from);
            self.unstarted = set::without(self.unstarted, from);
        } else {
            self.wait_less();
        }
    }

    /// Line 1 but for the set: the waits are its size before the parent leaves it, less one.
    pub fn wake(&mut self, parent: u8) {
        self.parent = parent;
        self.waits = less_one(set::size(self.unstarted));
        self.state = ACTIVE;
    }

    /// Line 2.
    pub fn send_start(&mut self, to: u8) {
        self.unstarted = set::without(self.unstarted, to);
    }

    /// Line 3.
    pub fn take_answer(&mut self, gathered: &Aggregate, config: Config) {
        self.held.join(gathered, config);
        self.wait_less();
    }

    pub fn wait_less(&mut self) {
        self.waits = less_one(self.waits);
    }

    /// Lines 5 and 6.
    pub fn finish(&mut self, classes: u8) -> Answer {
        self.state = FINISHED;
        Answer { parent: self.parent, gathered: self.held.given(classes) }
    }
}

/// What a station gives when it answers or reports.
#[derive(Clone, Copy, PartialEq, Eq, Debug)]
pub struct Answer {
    pub parent: u8,
    pub gathered: Aggregate,
}

/// The record that a controller keeps and lends to each event.
#[derive(Clone, Copy, PartialEq, Eq, Debug)]
pub struct Process {
    pub own: u8,
    pub classes: u8,
    pub desk: u8,
    pub way: u8,
    pub station: Station,
}

#[derive(Clone, Copy, PartialEq, Eq, Debug)]
pub enum Event {
    TakeStart(u8),
    SendStart(u8),
    TakeAnswer(Aggregate),
    SendAnswer,
    Report,
}

impl Process {
    /// "For one station 64 stands for k."
    fn config(&self) -> Config {
        Config { k: MOST_STATIONS, classes: self.classes, desk: self.desk, way: self.way }
    }

    pub fn is_well_formed(&self) -> bool {
        self.station.is_well_formed(self.own, self.config())
    }

    /// One event; it gives an answer where the station sends one or reports.
    pub fn event(&mut self, event: Event) -> Result<Option<Answer>, Refusal> {
        admit(self.is_well_formed(), || self.is_in_range(event), || self.is_allowed(event))?;
        let config = self.config();
        let station = &mut self.station;
        match event {
            Event::TakeStart(from) => station.take_start(from),
            Event::SendStart(to) => station.send_start(to),
            Event::TakeAnswer(gathered) => station.take_answer(&gathered, config),
            Event::SendAnswer | Event::Report => return Ok(Some(station.finish(config.classes))),
        }
        Ok(None)
    }

    /// Number 12: a station number not below 64, or, in a class in use, a sum of 2^62 or more, but for a `none`
    /// where it is in form, or a missing number above 64.
    fn is_in_range(&self, event: Event) -> bool {
        match event {
            Event::TakeStart(other) | Event::SendStart(other) => other < MOST_STATIONS,
            Event::TakeAnswer(gathered) => gathered.is_bounded(self.config()),
            Event::SendAnswer | Event::Report => true,
        }
    }

    /// The guards of Definition 3.1.
    fn is_allowed(&self, event: Event) -> bool {
        let station = &self.station;
        match event {
            Event::TakeStart(_) => station.state != FINISHED,
            Event::SendStart(to) => station.state == ACTIVE && set::contains(station.unstarted, to),
            Event::TakeAnswer(_) => station.state == ACTIVE,
            Event::SendAnswer => self.own != self.desk && station.is_ready(),
            Event::Report => self.own == self.desk && station.is_ready(),
        }
    }
}
