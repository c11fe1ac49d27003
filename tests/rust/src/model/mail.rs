//! Stations with mail (document 01, after document 001, section 7): a delivery is one step, its posts included. The
//! boxes are read from words and written to words; every array of words is a net's.

use super::aggregate::Aggregate;
use super::map::Map;
use super::net::{are_well_formed, fresh_stations, unfinished_total, Config, Net, Step};
use super::station::{Station, ACTIVE, ASLEEP, FINISHED};
use super::{set, CLASSES, PLACES};

pub const DELIVERY: u8 = 1;
pub const REPORT: u8 = 2;

#[derive(Clone, Copy, PartialEq, Eq, Debug)]
pub enum Message {
    Start,
    Answer(Aggregate),
}

/// A box, empty or full.
pub type Mailbox = Option<Message>;

/// The words for the boxes of one sender.
#[derive(Clone, Copy, PartialEq, Eq, Debug)]
pub struct Outbox {
    /// The receivers to which a start waits.
    pub starts: u64,
    /// Those to which an answer waits, unless a start does.
    pub answers: u64,
    /// The missing numbers that an answer to each receiver brings: a byte for each class, that of class 0 the lowest.
    pub missing: [u64; PLACES],
    /// The sums that it brings, by class. Beside no answer, and past c, none of this is looked at.
    pub sums: [[u64; PLACES]; CLASSES],
}

impl Outbox {
    pub const EMPTY: Outbox = Outbox { starts: 0, answers: 0, missing: [0; PLACES], sums: [[0; PLACES]; CLASSES] };

    /// Where both bits are set the box holds the start.
    pub fn mailbox(&self, receiver: u8) -> Mailbox {
        if set::contains(self.starts, receiver) {
            Some(Message::Start)
        } else if set::contains(self.answers, receiver) {
            Some(Message::Answer(self.gathered(receiver)))
        } else {
            None
        }
    }

    /// What the words for an answer say, those past c among them.
    pub fn gathered(&self, receiver: u8) -> Aggregate {
        let at = usize::from(receiver);
        Aggregate { sums: self.sums.map(|sums| sums[at]), missing: self.missing[at].to_le_bytes() }
    }

    /// Writes what an answer brings into its words, all of them.
    pub fn put(&mut self, receiver: u8, gathered: &Aggregate) {
        let at = usize::from(receiver);
        self.missing[at] = u64::from_le_bytes(gathered.missing);
        for (sums, sum) in self.sums.iter_mut().zip(gathered.sums) {
            sums[at] = sum;
        }
    }

    /// Both bits go, and the words stay.
    fn empty(&mut self, receiver: u8) {
        self.starts = set::without(self.starts, receiver);
        self.answers = set::without(self.answers, receiver);
    }

    /// A post replaces what the box held; a start leaves the words, an answer fills them whole.
    pub fn post(&mut self, receiver: u8, message: Message) {
        self.empty(receiver);
        match message {
            Message::Start => self.starts |= set::singleton(receiver),
            Message::Answer(gathered) => {
                self.answers |= set::singleton(receiver);
                self.put(receiver, &gathered);
            }
        }
    }

    fn post_starts(&mut self, receivers: u64) {
        set::members(receivers).for_each(|receiver| self.post(receiver, Message::Start));
    }
}

#[derive(Clone, PartialEq, Eq, Debug)]
pub struct Mail {
    pub config: Config,
    /// A station's set holds its neighbours and stays.
    pub stations: [Station; PLACES],
    /// By sender. Boxes past k, and of a station to itself, are neither looked at nor touched.
    pub outboxes: Vec<Outbox>,
}

impl Mail {
    fn outbox(&mut self, sender: u8) -> &mut Outbox {
        &mut self.outboxes[usize::from(sender)]
    }

    /// What the answers bring that wait in the boxes that exist: of ordered pairs of different stations below k.
    fn answers(&self) -> impl Iterator<Item = Aggregate> + '_ {
        let stations = 0..self.config.k;
        stations.clone().zip(&self.outboxes).flat_map(move |(sender, outbox)| {
            let receivers = stations.clone().filter(move |&receiver| receiver != sender);
            receivers.filter_map(|receiver| match outbox.mailbox(receiver) {
                Some(Message::Answer(gathered)) => Some(gathered),
                _ => None,
            })
        })
    }

    fn deliver(&mut self, sender: u8, receiver: u8) {
        let message = self.outbox(sender).mailbox(receiver);
        self.outbox(sender).empty(receiver);
        let station = &mut self.stations[usize::from(receiver)];
        match message {
            Some(Message::Answer(gathered)) => station.take_answer(&gathered, self.config),
            _ if station.state == ASLEEP => {
                station.wake(sender);
                let others = set::without(station.unstarted, sender);
                self.outbox(receiver).post_starts(others);
            }
            _ => station.wait_less(),
        }
        self.answer_if_done(receiver);
    }

    /// "After any delivery, a receiver other than 0 with waits zero posts its sum as an answer to its parent and is
    /// finished." The desk takes the place of station 0.
    fn answer_if_done(&mut self, receiver: u8) {
        let station = &mut self.stations[usize::from(receiver)];
        if receiver != self.config.desk && station.waits == 0 {
            let answer = station.finish(self.config.classes);
            self.outbox(receiver).post(answer.parent, Message::Answer(answer.gathered));
        }
    }
}

impl Net for Mail {
    const REPORT: u8 = REPORT;

    fn set_up(map: &Map, way: u8) -> Mail {
        let outboxes = vec![Outbox::EMPTY; PLACES];
        let mut net = Mail { config: Config::of(map, way), stations: fresh_stations(map, way), outboxes };
        net.outbox(map.desk).post_starts(map.neighbours[usize::from(map.desk)]);
        net
    }

    fn config(&self) -> Config {
        self.config
    }

    fn config_mut(&mut self) -> &mut Config {
        &mut self.config
    }

    fn stations(&self) -> &[Station; PLACES] {
        &self.stations
    }

    fn stations_mut(&mut self) -> &mut [Station; PLACES] {
        &mut self.stations
    }

    fn outboxes(&self) -> &[Outbox] {
        &self.outboxes
    }

    fn is_well_formed(&self) -> bool {
        are_well_formed(self.config, &self.stations) && self.answers().all(|gathered| gathered.is_bounded(self.config))
    }

    fn is_allowed(&self, step: Step) -> bool {
        let receiver = &self.stations[usize::from(step.receiver)];
        if step.kind == REPORT {
            return receiver.state == ACTIVE && receiver.waits == 0;
        }
        step.sender != step.receiver
            && match self.outboxes[usize::from(step.sender)].mailbox(step.receiver) {
                Some(Message::Start) => receiver.state != FINISHED,
                Some(Message::Answer(_)) => receiver.state == ACTIVE,
                None => false,
            }
    }

    fn make(&mut self, step: Step) {
        if step.kind == REPORT {
            self.stations[usize::from(self.config.desk)].finish(self.config.classes);
        } else {
            self.deliver(step.sender, step.receiver);
        }
    }

    fn brought(&self, step: Step) -> Option<Aggregate> {
        match self.outboxes[usize::from(step.sender)].mailbox(step.receiver) {
            Some(Message::Answer(gathered)) if step.kind == DELIVERY => Some(gathered.given(self.config.classes)),
            _ => None,
        }
    }

    /// What stations not finished hold, and what is under way.
    fn outstanding(&self) -> Aggregate {
        let mut total = unfinished_total(self.config, &self.stations);
        self.answers().for_each(|gathered| total.join(&gathered, self.config));
        total
    }
}
