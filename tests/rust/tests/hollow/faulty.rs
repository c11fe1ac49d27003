//! A net of the model with a fault in its rules: whatever the fault does not name goes as in the model.

use super::is_caught;
use conformance::calls::{Model, NetCalls};
use conformance::compare::net::{freshness, hostile, list};
use conformance::gen::aggregate::way;
use conformance::gen::map::accepted;
use conformance::gen::net::Sample;
use conformance::model::aggregate::Aggregate;
use conformance::model::map::Map;
use conformance::model::net::{Config, Net, Run, Step};
use conformance::model::refusal::Refusal;
use conformance::model::station::Station;
use conformance::model::PLACES;
use conformance::rng::for_cases;
use std::fmt::Debug;
use std::panic::UnwindSafe;

/// The rules that a fault may bend. The default fault bends none.
pub trait Fault<N: Net>: Copy + Default + PartialEq + Debug {
    fn is_well_formed(self, net: &N) -> bool {
        net.is_well_formed()
    }

    fn kinds(self, net: &N) -> u8 {
        net.kinds()
    }

    fn is_in_range(self, net: &N, step: Step) -> bool {
        net.is_in_range(step)
    }

    fn is_allowed(self, net: &N, step: Step) -> bool {
        net.is_allowed(step)
    }

    fn make(self, net: &mut N, step: Step);

    fn fresh(self, map: &Map, way: u8, net: &mut N) -> Result<(), Refusal> {
        Model.fresh(map, way, net)
    }

    /// A call on the net under this fault.
    fn on<R>(self, net: &mut N, call: impl FnOnce(&mut Faulty<N, Self>) -> R) -> R {
        let mut faulty = Faulty { net: net.clone(), fault: self };
        let result = call(&mut faulty);
        *net = faulty.net;
        result
    }
}

#[derive(Clone, PartialEq, Debug)]
pub struct Faulty<N, F> {
    net: N,
    fault: F,
}

impl<N: Net, F: Fault<N>> Net for Faulty<N, F> {
    const REPORT: u8 = N::REPORT;
    const LAST: u8 = N::LAST;

    fn set_up(map: &Map, way: u8) -> Faulty<N, F> {
        Faulty { net: N::set_up(map, way), fault: F::default() }
    }

    fn kinds(&self) -> u8 {
        self.fault.kinds(&self.net)
    }

    fn config(&self) -> Config {
        self.net.config()
    }

    fn config_mut(&mut self) -> &mut Config {
        self.net.config_mut()
    }

    fn stations(&self) -> &[Station; PLACES] {
        self.net.stations()
    }

    fn stations_mut(&mut self) -> &mut [Station; PLACES] {
        self.net.stations_mut()
    }

    fn is_well_formed(&self) -> bool {
        self.fault.is_well_formed(&self.net)
    }

    fn is_in_range(&self, step: Step) -> bool {
        self.fault.is_in_range(&self.net, step)
    }

    fn is_allowed(&self, step: Step) -> bool {
        self.fault.is_allowed(&self.net, step)
    }

    fn make(&mut self, step: Step) {
        self.fault.make(&mut self.net, step);
    }

    fn brought(&self, step: Step) -> Option<Aggregate> {
        self.net.brought(step)
    }

    fn outstanding(&self) -> Aggregate {
        self.net.outstanding()
    }
}

/// The calls on a net under a fault in its rules.
pub struct Under<F>(pub F);

impl<N: Net, F: Fault<N>> NetCalls<N> for Under<F> {
    fn fresh(&self, map: &Map, way: u8, net: &mut N) -> Result<(), Refusal> {
        self.0.fresh(map, way, net)
    }

    fn step(&self, net: &mut N, step: Step) -> Result<Step, Refusal> {
        self.0.on(net, |faulty| faulty.step(step))
    }

    fn draw(&self, net: &mut N, draw: u16) -> Result<Step, Refusal> {
        self.0.on(net, |faulty| faulty.draw(draw))
    }

    fn run(&self, net: &mut N, draws: &[u16]) -> Run {
        self.0.on(net, |faulty| faulty.run(draws))
    }
}

/// Demand 3 and the run's formula, from calls and answers alone.
pub fn demand_3<N: Sample>(subject: &impl NetCalls<N>, lists: u64) {
    for_cases(lists, |rng| {
        let (map, way) = (accepted(rng), way(rng));
        let mut net = N::set_up(&map, way);
        subject.fresh(&map, way, &mut net).expect("the map is accepted");
        list(subject, rng, &map, net, |net, call| subject.call(net, call));
    });
}

/// Faults of a kind of net, by what has to catch them: with as many nets, and lists, as it takes to meet each.
pub struct Faults<F> {
    pub nets: u64,
    pub lists: u64,
    /// Of the rules for a step, and of the form.
    pub of_steps: Vec<F>,
    pub of_openings: Vec<F>,
    /// Those that demand 3 alone catches too.
    pub against_demand_3: Vec<F>,
}

impl<F> Faults<F> {
    /// The net without a fault passes.
    pub fn spare_the_faultless<N: Sample>(&self)
    where
        F: Fault<N>,
    {
        let faultless = Under(F::default());
        hostile::<N>(&faultless, self.nets);
        freshness::<N>(&faultless, self.nets);
        demand_3::<N>(&faultless, self.lists);
    }

    /// No net with a fault passes.
    pub fn are_caught<N: Sample>(&self)
    where
        F: Fault<N> + UnwindSafe,
    {
        let (nets, lists) = (self.nets, self.lists);
        for &fault in &self.of_steps {
            assert!(is_caught(move || hostile::<N>(&Under(fault), nets)), "{fault:?} passes");
        }
        for &fault in &self.of_openings {
            assert!(is_caught(move || freshness::<N>(&Under(fault), nets)), "{fault:?} passes");
        }
        for &fault in &self.against_demand_3 {
            assert!(is_caught(move || demand_3::<N>(&Under(fault), lists)), "{fault:?} passes demand 3");
        }
    }

    pub fn are_told_apart<N: Sample>(&self)
    where
        F: Fault<N> + UnwindSafe,
    {
        self.spare_the_faultless::<N>();
        self.are_caught::<N>();
    }
}
