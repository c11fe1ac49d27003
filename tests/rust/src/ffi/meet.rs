//! Stations that meet: the net is lent as a record, and the totals that its stations keep as another.

use super::lending::{Fence, LaidOut, Packed};
use super::map::Map;
use super::net::{Exports, Line, RunAnswer};
use super::station::Aggregate;
use crate::model::meet::{Back, Meet, CARRYING, WITHOUT};
use crate::model::net::Step;
use crate::model::PLACES;

/// What each station keeps.
#[derive(Clone)]
#[repr(C)]
pub struct Kept {
    totals: [Aggregate; PLACES],
}

/// What a call is lent, and no call may touch what stands between.
#[derive(Clone)]
#[repr(C)]
pub struct Net {
    pub line: Line,
    between: Fence,
    pub kept: Kept,
}

/// The same, opened for carrying back.
#[derive(Clone)]
#[repr(transparent)]
pub struct BackNet(Net);

extern "C" {
    fn tally_rendezvous_fresh(net: *mut Line, kept: *mut Kept, map: Map, way: u8, carrying: u8) -> Packed;
    fn tally_rendezvous_step(net: *mut Line, kept: *mut Kept, kind: u8, sender: u8, receiver: u8) -> Packed;
    fn tally_rendezvous_draw(net: *mut Line, kept: *mut Kept, draw: u16) -> Packed;
    fn tally_rendezvous_run(net: *mut Line, kept: *mut Kept, draws: *const u16, length: usize) -> RunAnswer;
}

impl Net {
    fn open(&mut self, map: Map, way: u8, carrying: u8) -> Packed {
        unsafe { tally_rendezvous_fresh(&mut self.line, &mut self.kept, map, way, carrying) }
    }
}

impl LaidOut for Meet {
    type Layout = Net;

    fn lay_out(&self) -> Net {
        let kept = Kept { totals: self.kept.each_ref().map(LaidOut::lay_out) };
        Net { line: Line::flagged(self.config, self.carrying, &self.stations), between: Fence::INTACT, kept }
    }

    fn take_back(layout: &Net) -> Meet {
        layout.between.assert_untouched();
        let kept = layout.kept.totals.each_ref().map(LaidOut::take_back);
        Meet { config: layout.line.config(), stations: layout.line.stations(), carrying: layout.line.flag(), kept }
    }
}

impl LaidOut for Back {
    type Layout = BackNet;

    fn lay_out(&self) -> BackNet {
        BackNet(self.0.lay_out())
    }

    fn take_back(layout: &BackNet) -> Back {
        Back(LaidOut::take_back(&layout.0))
    }
}

impl Exports for Net {
    fn fresh(&mut self, map: Map, way: u8) -> Packed {
        self.open(map, way, WITHOUT)
    }

    fn step(&mut self, Step { kind, sender, receiver }: Step) -> Packed {
        unsafe { tally_rendezvous_step(&mut self.line, &mut self.kept, kind, sender, receiver) }
    }

    fn draw(&mut self, draw: u16) -> Packed {
        unsafe { tally_rendezvous_draw(&mut self.line, &mut self.kept, draw) }
    }

    unsafe fn run(&mut self, draws: *const u16, length: usize) -> RunAnswer {
        tally_rendezvous_run(&mut self.line, &mut self.kept, draws, length)
    }
}

impl Exports for BackNet {
    fn fresh(&mut self, map: Map, way: u8) -> Packed {
        self.0.open(map, way, CARRYING)
    }

    fn step(&mut self, step: Step) -> Packed {
        self.0.step(step)
    }

    fn draw(&mut self, draw: u16) -> Packed {
        self.0.draw(draw)
    }

    unsafe fn run(&mut self, draws: *const u16, length: usize) -> RunAnswer {
        self.0.run(draws, length)
    }
}
