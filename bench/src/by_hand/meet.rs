use super::stations::{are_in_form, fresh as fresh_stations, in_state, is_bounded, is_in_range, join, member};
use super::Refusal;
use conformance::model::aggregate::{Aggregate, SUM};
use conformance::model::map::Map;
use conformance::model::meet::{Meet, ANSWER, PASS, REPORT, WAKE, WITHOUT};
use conformance::model::net::{Config, Step};
use conformance::model::station::{Station, ACTIVE, ASLEEP, FINISHED};

pub fn fresh(map: &Map) -> Meet {
    Meet {
        config: Config::of(map, SUM),
        stations: fresh_stations(map),
        carrying: WITHOUT,
        kept: [Aggregate::default(); 64],
    }
}

pub fn step(net: &mut Meet, step: Step) -> Result<Step, Refusal> {
    if !are_in_form(net.config, &net.stations) {
        return Err((11, 0));
    }
    if !is_in_range(net.config, REPORT, step) {
        return Err((12, 0));
    }
    if !is_allowed(net, step) {
        return Err((13, 0));
    }
    make(net, step);
    Ok(step)
}

pub fn draw(net: &mut Meet, draw: u16) -> Result<Step, Refusal> {
    if !are_in_form(net.config, &net.stations) {
        return Err((11, 0));
    }
    let step = Awake::of(net).pick(net, draw).ok_or((14, 0))?;
    make(net, step);
    Ok(step)
}

/// The steps made, and whether the net is at rest; the same with 11 where it leaves the form.
pub fn run(net: &mut Meet, draws: &[u16]) -> Result<(usize, bool), usize> {
    if !are_in_form(net.config, &net.stations) {
        return Err(0);
    }
    let mut awake = Awake::of(net);
    for (steps, &draw) in draws.iter().enumerate() {
        let Some(step) = awake.pick(net, draw) else { return Ok((steps, true)) };
        make(net, step);
        awake.follow(step);
        // the only thing that a step may take out of form
        if step.kind == ANSWER && !is_bounded(&net.stations[usize::from(step.receiver)].held, net.config) {
            return Err(steps + 1);
        }
    }
    Ok((draws.len(), awake.pick(net, 0).is_none()))
}

/// Which stations are asleep and which active, kept up to date.
pub struct Awake {
    asleep: u64,
    active: u64,
}

impl Awake {
    pub fn of(net: &Meet) -> Awake {
        let set = |state| in_state(net.config.k, &net.stations, state);
        Awake { asleep: set(ASLEEP), active: set(ACTIVE) }
    }

    /// Entry d mod c of the allowed steps.
    pub fn pick(&self, net: &Meet, draw: u16) -> Option<Step> {
        let desk = net.config.desk;
        let (mut wakes, mut passes, mut ready) = (0, 0, 0u64);
        let mut senders = self.active;
        while senders != 0 {
            let i = senders.trailing_zeros();
            senders &= senders - 1;
            let station = &net.stations[i as usize];
            wakes += (station.unstarted & self.asleep).count_ones();
            passes += (station.unstarted & self.active).count_ones();
            ready |=
                u64::from(is_ready(station) && (i == u32::from(desk) || self.active >> station.parent & 1 != 0)) << i;
        }
        let (answers, reports) = (ready & !(1 << desk), (ready >> desk) as u32 & 1);
        let count = wakes + passes + answers.count_ones() + reports;
        if count == 0 {
            return None;
        }
        let mut entry = u32::from(draw) % count;
        if entry < wakes {
            return Some(self.start(net, WAKE, self.asleep, entry));
        }
        entry -= wakes;
        if entry < passes {
            return Some(self.start(net, PASS, self.active, entry));
        }
        entry -= passes;
        if entry < answers.count_ones() {
            let sender = member(answers, entry);
            return Some(Step { kind: ANSWER, sender, receiver: net.stations[usize::from(sender)].parent });
        }
        Some(Step { kind: REPORT, sender: desk, receiver: desk })
    }

    /// The start with a number of others before it, to receivers in one state.
    fn start(&self, net: &Meet, kind: u8, receivers: u64, mut entry: u32) -> Step {
        let mut senders = self.active;
        loop {
            let sender = senders.trailing_zeros() as u8;
            let to = net.stations[usize::from(sender)].unstarted & receivers;
            if entry < to.count_ones() {
                return Step { kind, sender, receiver: member(to, entry) };
            }
            entry -= to.count_ones();
            senders &= senders - 1;
        }
    }

    pub fn follow(&mut self, Step { kind, sender, receiver }: Step) {
        match kind {
            WAKE => {
                self.asleep &= !(1 << receiver);
                self.active |= 1 << receiver;
            }
            PASS => {}
            _ => self.active &= !(1 << sender),
        }
    }
}

pub fn is_allowed(net: &Meet, Step { kind, sender, receiver }: Step) -> bool {
    let (from, to) = (&net.stations[usize::from(sender)], &net.stations[usize::from(receiver)]);
    from.state == ACTIVE
        && match kind {
            REPORT => is_ready(from),
            ANSWER => {
                sender != net.config.desk
                    && sender != receiver
                    && is_ready(from)
                    && from.parent == receiver
                    && to.state == ACTIVE
            }
            _ => from.unstarted >> receiver & 1 != 0 && to.state == if kind == WAKE { ASLEEP } else { ACTIVE },
        }
}

pub fn make(net: &mut Meet, Step { kind, sender, receiver }: Step) {
    if kind == REPORT {
        net.stations[usize::from(sender)].state = FINISHED;
        return;
    }
    let places = [usize::from(sender), usize::from(receiver)];
    let [from, to] = net.stations.get_disjoint_mut(places).expect("two stations");
    match kind {
        WAKE => {
            from.unstarted &= !(1 << receiver);
            to.parent = sender;
            to.waits = (to.unstarted.count_ones() as u8).saturating_sub(1);
            to.unstarted &= !(1 << sender);
            to.state = ACTIVE;
        }
        PASS => {
            from.unstarted &= !(1 << receiver);
            to.waits = to.waits.saturating_sub(1);
        }
        _ => {
            from.state = FINISHED;
            join(&mut to.held, &from.held, net.config);
            to.waits = to.waits.saturating_sub(1);
        }
    }
}

fn is_ready(station: &Station) -> bool {
    station.unstarted == 0 && station.waits == 0
}
