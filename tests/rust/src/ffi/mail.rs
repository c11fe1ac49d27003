//! Stations with mail: the stations are lent as a record, the boxes beside it as words.

use super::lending::{Fence, LaidOut, Packed};
use super::map::Map;
use super::net::{Exports, Line, RunAnswer};
use crate::model::mail::{Mail, Outbox};
use crate::model::net::Step;
use crate::model::{CLASSES, PLACES};
use std::array;

/// The sets of all senders, and what their answers bring.
#[derive(Clone)]
#[repr(C)]
pub struct Words {
    starts: [u64; PLACES],
    answers: [u64; PLACES],
    missing: [[u64; PLACES]; PLACES],
    sums: [[[u64; PLACES]; PLACES]; CLASSES],
}

/// What a call is lent, and no call may touch what stands between.
#[derive(Clone)]
#[repr(C)]
pub struct Net {
    line: Line,
    between: Fence,
    words: Words,
}

extern "C" {
    fn tally_mailbox_fresh(line: *mut Line, words: *mut Words, map: Map, way: u8) -> Packed;
    fn tally_mailbox_step(line: *mut Line, words: *mut Words, kind: u8, sender: u8, receiver: u8) -> Packed;
    fn tally_mailbox_draw(line: *mut Line, words: *mut Words, draw: u16) -> Packed;
    fn tally_mailbox_run(line: *mut Line, words: *mut Words, draws: *const u16, length: usize) -> RunAnswer;
}

impl Words {
    fn of(outboxes: &[Outbox]) -> Words {
        Words {
            starts: array::from_fn(|sender| outboxes[sender].starts),
            answers: array::from_fn(|sender| outboxes[sender].answers),
            missing: array::from_fn(|sender| outboxes[sender].missing),
            sums: array::from_fn(|class| array::from_fn(|sender| outboxes[sender].sums[class])),
        }
    }

    fn outboxes(&self) -> Vec<Outbox> {
        let outbox = |sender: usize| Outbox {
            starts: self.starts[sender],
            answers: self.answers[sender],
            missing: self.missing[sender],
            sums: array::from_fn(|class| self.sums[class][sender]),
        };
        (0..PLACES).map(outbox).collect()
    }
}

impl LaidOut for Mail {
    type Layout = Net;

    fn lay_out(&self) -> Net {
        Net { line: Line::of(self.config, &self.stations), between: Fence::INTACT, words: Words::of(&self.outboxes) }
    }

    fn take_back(Net { line, between, words }: &Net) -> Mail {
        between.assert_untouched();
        line.assert_no_flag();
        Mail { config: line.config(), stations: line.stations(), outboxes: words.outboxes() }
    }
}

impl Exports for Net {
    fn fresh(&mut self, map: Map, way: u8) -> Packed {
        unsafe { tally_mailbox_fresh(&mut self.line, &mut self.words, map, way) }
    }

    fn step(&mut self, Step { kind, sender, receiver }: Step) -> Packed {
        unsafe { tally_mailbox_step(&mut self.line, &mut self.words, kind, sender, receiver) }
    }

    fn draw(&mut self, draw: u16) -> Packed {
        unsafe { tally_mailbox_draw(&mut self.line, &mut self.words, draw) }
    }

    unsafe fn run(&mut self, draws: *const u16, length: usize) -> RunAnswer {
        tally_mailbox_run(&mut self.line, &mut self.words, draws, length)
    }
}
