use super::stations::{
    are_bounded, are_in_form, below, fresh as fresh_stations, in_state, is_bounded, is_in_range, joined, member,
};
use super::Refusal;
use conformance::model::aggregate::SUM;
use conformance::model::mail::{DELIVERY, REPORT};
use conformance::model::map::Map;
use conformance::model::net::{Config, Step};
use conformance::model::station::{Station, ACTIVE, ASLEEP, FINISHED};

/// The boxes are sets of receivers, one for each sender and kind of message, and what the answers bring: a sum for each
/// class, and its missing number in a byte of a word. A start goes before an answer, and boxes past k or of a station to
/// itself are left alone, as in the library.
#[derive(Clone, PartialEq)]
pub struct Mail {
    pub config: Config,
    pub stations: [Station; 64],
    pub starts: [u64; 64],
    pub answers: [u64; 64],
    pub missing: [[u64; 64]; 64],
    pub sums: [[[u64; 64]; 64]; 8],
}

pub fn fresh(map: &Map) -> Mail {
    let mut starts = [0; 64];
    starts[usize::from(map.desk)] = map.neighbours[usize::from(map.desk)];
    let (missing, sums) = ([[0; 64]; 64], [[[0; 64]; 64]; 8]);
    Mail { config: Config::of(map, SUM), stations: fresh_stations(map), starts, answers: [0; 64], missing, sums }
}

pub fn step(net: &mut Mail, step: Step) -> Result<Step, Refusal> {
    if !net.is_in_form() {
        return Err((11, 0));
    }
    if !is_in_range(net.config, REPORT, step) {
        return Err((12, 0));
    }
    if !net.is_allowed(step) {
        return Err((13, 0));
    }
    net.make(step);
    Ok(step)
}

pub fn draw(net: &mut Mail, draw: u16) -> Result<Step, Refusal> {
    if !net.is_in_form() {
        return Err((11, 0));
    }
    let step = Open::of(net).pick(net, draw).ok_or((14, 0))?;
    net.make(step);
    Ok(step)
}

/// The steps made, and whether the net is at rest; the same with 11 where it leaves the form.
pub fn run(net: &mut Mail, draws: &[u16]) -> Result<(usize, bool), usize> {
    if !net.is_in_form() {
        return Err(0);
    }
    let mut open = Open::of(net);
    for (steps, &draw) in draws.iter().enumerate() {
        let Some(step) = open.pick(net, draw) else { return Ok((steps, true)) };
        let has_joined = net.make(step);
        let receiver = &net.stations[usize::from(step.receiver)];
        open.follow(step.receiver, receiver.state);
        // the only thing that a step may take out of form
        if has_joined && !is_bounded(&receiver.held, net.config) {
            return Err(steps + 1);
        }
    }
    Ok((draws.len(), open.pick(net, 0).is_none()))
}

impl Mail {
    fn is_in_form(&self) -> bool {
        are_in_form(self.config, &self.stations)
            && (0..usize::from(self.config.k)).all(|sender| self.has_bounded_answers(sender))
    }

    fn has_bounded_answers(&self, sender: usize) -> bool {
        let mut answers = self.answers[sender] & !self.starts[sender] & below(self.config.k) & !(1 << sender);
        while answers != 0 {
            if !self.brings_bounded(sender, answers.trailing_zeros() as usize) {
                return false;
            }
            answers &= answers - 1;
        }
        true
    }

    /// What an answer brings is in form.
    fn brings_bounded(&self, sender: usize, receiver: usize) -> bool {
        let classes = usize::from(self.config.classes);
        are_bounded(
            self.config.way,
            self.sums[..classes].iter().map(|sums| sums[sender][receiver]),
            &self.missing[sender][receiver].to_le_bytes()[..classes],
        )
    }

    /// Adds what an answer brings to its receiver.
    fn take_answer(&mut self, sender: usize, receiver: usize) {
        let held = &mut self.stations[receiver].held;
        let missing = self.missing[sender][receiver].to_le_bytes();
        let joined = joined(self.config.way);
        for class in 0..usize::from(self.config.classes) {
            held.sums[class] = joined(held.sums[class], self.sums[class][sender][receiver]);
            held.missing[class] += missing[class];
        }
    }

    fn is_allowed(&self, Step { kind, sender, receiver }: Step) -> bool {
        let station = &self.stations[usize::from(receiver)];
        if kind == REPORT {
            return station.state == ACTIVE && station.waits == 0;
        }
        let (starts, answers) = (self.starts[usize::from(sender)], self.answers[usize::from(sender)]);
        sender != receiver
            && (starts >> receiver & 1 != 0 && station.state != FINISHED
                || answers >> receiver & 1 != 0 && station.state == ACTIVE)
    }

    /// Gives whether an answer was joined.
    fn make(&mut self, Step { kind, sender, receiver }: Step) -> bool {
        let station = &mut self.stations[usize::from(receiver)];
        if kind == REPORT {
            station.state = FINISHED;
            return false;
        }
        let (from, to, bit) = (usize::from(sender), usize::from(receiver), 1 << receiver);
        let brings_answer = self.starts[from] & bit == 0;
        if station.state == ASLEEP {
            station.parent = sender;
            station.waits = (station.unstarted.count_ones() as u8).saturating_sub(1);
            station.state = ACTIVE;
            let others = station.unstarted & !(1 << sender);
            self.starts[to] |= others;
            self.answers[to] &= !others;
        } else {
            station.waits = station.waits.saturating_sub(1);
            if brings_answer {
                self.take_answer(from, to);
            }
        }
        self.starts[from] &= !bit;
        self.answers[from] &= !bit;
        if receiver != self.config.desk && self.stations[to].waits == 0 {
            self.post_answer(to);
        }
        brings_answer
    }

    fn post_answer(&mut self, sender: usize) {
        let classes = usize::from(self.config.classes);
        let station = &mut self.stations[sender];
        station.state = FINISHED;
        let parent = station.parent;
        self.starts[sender] &= !(1 << parent);
        self.answers[sender] |= 1 << parent;
        let mut missing = [0; 8];
        missing[..classes].copy_from_slice(&station.held.missing[..classes]);
        self.missing[sender][usize::from(parent)] = u64::from_le_bytes(missing);
        for (class, sums) in self.sums.iter_mut().enumerate() {
            sums[sender][usize::from(parent)] = if class < classes { station.held.sums[class] } else { 0 };
        }
    }
}

/// Which stations take a start and which an answer, kept up to date.
struct Open {
    to_starts: u64,
    to_answers: u64,
}

impl Open {
    fn of(net: &Mail) -> Open {
        let state = |state| in_state(net.config.k, &net.stations, state);
        Open { to_starts: state(ACTIVE) | state(ASLEEP), to_answers: state(ACTIVE) }
    }

    /// The receivers that a sender's boxes can be delivered to: whoever takes an answer takes a start too.
    fn deliveries(&self, net: &Mail, sender: usize) -> u64 {
        (net.starts[sender] & self.to_starts | net.answers[sender] & self.to_answers) & !(1 << sender)
    }

    /// Entry d mod c of the allowed steps.
    fn pick(&self, net: &Mail, draw: u16) -> Option<Step> {
        let senders = 0..usize::from(net.config.k);
        let deliveries: u32 = senders.clone().map(|sender| self.deliveries(net, sender).count_ones()).sum();
        let desk = net.config.desk;
        let reports = (self.to_answers >> desk) as u32 & 1 & u32::from(net.stations[usize::from(desk)].waits == 0);
        if deliveries + reports == 0 {
            return None;
        }
        let mut entry = u32::from(draw) % (deliveries + reports);
        for sender in senders {
            let to = self.deliveries(net, sender);
            if entry < to.count_ones() {
                return Some(Step { kind: DELIVERY, sender: sender as u8, receiver: member(to, entry) });
            }
            entry -= to.count_ones();
        }
        Some(Step { kind: REPORT, sender: desk, receiver: desk })
    }

    /// The state that a step left its receiver in: it woke, it closed, or nothing changed.
    fn follow(&mut self, station: u8, state: u8) {
        if state == ACTIVE {
            self.to_answers |= 1 << station;
        } else {
            self.to_starts &= !(1 << station);
            self.to_answers &= !(1 << station);
        }
    }
}
