//! The library behind its C interface, as a caller in C has it: what is lent stays in the library's layout.

use conformance::ffi::lending::LaidOut;
use conformance::ffi::map::{self, tally_map_read, tally_map_write};
use conformance::ffi::meet;
use conformance::ffi::net::Exports;
use conformance::ffi::sheet::tally_sheet;
use conformance::model::aggregate::SUM;
use conformance::model::map::Map;
use conformance::model::net::{Net as Model, Step};
use conformance::model::station::Station;

pub fn read(bytes: &[u8], map: &mut map::Map) {
    unsafe { tally_map_read(map, bytes.as_ptr(), bytes.len()) }.done().expect("the map is accepted");
}

pub fn write(map: map::Map, buffer: &mut [u8]) {
    unsafe { tally_map_write(map, buffer.as_mut_ptr(), buffer.len()) }.given().expect("the map is accepted");
}

pub fn sheet(map: map::Map, net: &meet::Net, buffer: &mut [u8]) {
    unsafe { tally_sheet(map, &net.line, &net.kept, buffer.as_mut_ptr(), buffer.len()) }
        .given()
        .expect("the lot is reported");
}

/// A net of the kind that a model has.
pub struct Net<M: LaidOut> {
    layout: M::Layout,
}

impl<M: LaidOut> Clone for Net<M>
where
    M::Layout: Clone,
{
    fn clone(&self) -> Net<M> {
        Net { layout: self.layout.clone() }
    }
}

impl<M: LaidOut + Model> super::Net for Net<M>
where
    M::Layout: Clone + Exports,
{
    fn fresh(map: &Map) -> Net<M> {
        let mut net: Net<M> = Net { layout: M::set_up(&Map::empty(1, 1, 0), SUM).lay_out() };
        net.layout.fresh(map.lay_out(), SUM).done().expect("the map is accepted");
        net
    }

    fn step(&mut self, step: Step) {
        self.layout.step(step).given().expect("the step is allowed");
    }

    fn draw(&mut self, draw: u16) {
        self.layout.draw(draw).given().expect("a step is allowed");
    }

    fn run(&mut self, draws: &[u16]) -> usize {
        let run = unsafe { self.layout.run(draws.as_ptr(), draws.len()) };
        run.answer.given().expect("the net stays in form");
        run.steps as usize
    }

    fn stations(&self) -> [Station; 64] {
        *M::take_back(&self.layout).stations()
    }
}
