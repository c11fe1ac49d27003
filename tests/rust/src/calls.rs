//! The calls that the model and the proved library both answer. A test is written once, against these.

use crate::model::aggregate::Aggregate;
use crate::model::map::{self, Map};
use crate::model::meet::Meet;
use crate::model::net::{Net, Run, Step};
use crate::model::refusal::{number, Refusal};
use crate::model::sheet;
use crate::model::station::{Event, Process};

pub trait StationCalls {
    /// An answer and a report give the parent, and beside it what they bring it; any other event, and a refusal, brings nothing.
    fn event(&self, process: &mut Process, event: Event) -> (Result<Option<u8>, Refusal>, Aggregate);
}

/// Lent memory is a parameter also where a call only fills it: a refusal must leave it.
pub trait MapCalls {
    fn read(&self, bytes: &[u8], map: &mut Map) -> Result<(), Refusal>;

    fn accept(&self, map: &Map) -> Result<(), Refusal>;

    /// Gives the number of bytes filled.
    fn write(&self, map: &Map, buffer: &mut [u8]) -> Result<u32, Refusal>;

    /// m; a map handed over is refused as in accepting it.
    fn links(&self, map: &Map) -> Result<u32, Refusal>;
}

pub trait SheetCalls {
    /// Gives the number of bytes filled.
    fn sheet(&self, map: &Map, net: &Meet, buffer: &mut [u8]) -> Result<u32, Refusal>;
}

pub trait NetCalls<N> {
    fn fresh(&self, map: &Map, way: u8, net: &mut N) -> Result<(), Refusal>;

    /// A step and a draw give the step made.
    fn step(&self, net: &mut N, step: Step) -> Result<Step, Refusal>;

    fn draw(&self, net: &mut N, draw: u16) -> Result<Step, Refusal>;

    fn run(&self, net: &mut N, draws: &[u16]) -> Run;

    fn call(&self, net: &mut N, call: &Call) -> Reply {
        match call {
            Call::Step(step) => Reply::Step(self.step(net, *step)),
            Call::Draw(draw) => Reply::Draw(self.draw(net, *draw)),
            Call::Run(draws) => Reply::Run(self.run(net, draws)),
        }
    }
}

/// An entry of a list of calls (document 01).
#[derive(Clone, PartialEq, Eq, Debug)]
pub enum Call {
    Step(Step),
    Draw(u16),
    Run(Vec<u16>),
}

#[derive(Clone, PartialEq, Eq, Debug)]
pub enum Reply {
    Step(Result<Step, Refusal>),
    Draw(Result<Step, Refusal>),
    Run(Run),
}

impl Reply {
    pub fn number(&self) -> u8 {
        match self {
            Reply::Step(result) => number(result),
            Reply::Draw(result) => number(result),
            Reply::Run(run) => run.refusal.map_or(0, |refusal| refusal.number),
        }
    }
}

/// The model's own answers.
pub struct Model;

impl StationCalls for Model {
    fn event(&self, process: &mut Process, event: Event) -> (Result<Option<u8>, Refusal>, Aggregate) {
        let answer = process.event(event);
        let given = answer.ok().flatten().map_or(Aggregate::default(), |answer| answer.gathered);
        (answer.map(|answer| answer.map(|answer| answer.parent)), given)
    }
}

impl MapCalls for Model {
    fn read(&self, bytes: &[u8], map: &mut Map) -> Result<(), Refusal> {
        *map = map::read(bytes)?;
        Ok(())
    }

    fn accept(&self, map: &Map) -> Result<(), Refusal> {
        map::accept(map)
    }

    fn write(&self, map: &Map, buffer: &mut [u8]) -> Result<u32, Refusal> {
        map::write(map, buffer)
    }

    fn links(&self, map: &Map) -> Result<u32, Refusal> {
        map::accept(map)?;
        Ok(map.links())
    }
}

impl SheetCalls for Model {
    fn sheet(&self, map: &Map, net: &Meet, buffer: &mut [u8]) -> Result<u32, Refusal> {
        sheet::lay_out(map, net, buffer)
    }
}

impl<N: Net> NetCalls<N> for Model {
    fn fresh(&self, map: &Map, way: u8, net: &mut N) -> Result<(), Refusal> {
        *net = N::fresh(map, way)?;
        Ok(())
    }

    fn step(&self, net: &mut N, step: Step) -> Result<Step, Refusal> {
        net.step(step)
    }

    fn draw(&self, net: &mut N, draw: u16) -> Result<Step, Refusal> {
        net.draw(draw)
    }

    fn run(&self, net: &mut N, draws: &[u16]) -> Run {
        net.run(draws)
    }
}
