//! Demand 3 (document 01, "Lists of calls"): claims about a whole list, checked from its calls and answers alone.

use super::map::Map;
use super::net::{Net, Step};
use super::refusal::{number, Cause};
use super::set;
use crate::calls::{Call, NetCalls, Reply};
use std::collections::BTreeSet;

/// The steps that a list made on the fresh net of an accepted map.
pub struct Record<'a> {
    map: &'a Map,
    report: u8,
    steps: Vec<Step>,
}

impl<'a> Record<'a> {
    pub fn new<N: Net>(map: &'a Map) -> Record<'a> {
        Record { map, report: N::REPORT, steps: Vec::new() }
    }

    /// The steps of a whole list: 2 × m + 1.
    pub fn whole(map: &Map) -> usize {
        2 * map.links() as usize + 1
    }

    /// With those after the report, where totals are carried back: 2 × m + k.
    pub fn full<N: Net>(map: &Map) -> usize {
        Record::whole(map) + N::tells(map)
    }

    /// Enters one call: the net it was lent, its reply and the net it left. A refused step or draw makes none.
    pub fn enter<N: Net>(&mut self, subject: &impl NetCalls<N>, before: &N, call: &Call, reply: &Reply, after: &N) {
        match (call, reply) {
            (Call::Step(step), Reply::Step(Ok(made))) => {
                assert_eq!(made, step, "a step is made as it was asked for");
                self.made(*step, after);
            }
            (Call::Draw(_), Reply::Draw(Ok(step))) => self.made(*step, after),
            (Call::Run(draws), Reply::Run(run)) => {
                assert_eq!(run.refusal, None, "no run from a fresh net stands outside the form");
                self.enter_run(subject, before, &draws[..run.steps as usize], after);
            }
            _ => assert!(before == after, "a refusal leaves the net"),
        }
    }

    /// A run made the entries its draws picked, as many as the number it gives; the same draws, one at a time on a
    /// copy, say which.
    fn enter_run<N: Net>(&mut self, subject: &impl NetCalls<N>, before: &N, draws: &[u16], after: &N) {
        let mut net = before.clone();
        for &draw in draws {
            let step = subject.draw(&mut net, draw).expect("a run makes no more steps than its draws");
            self.made(step, &net);
        }
        assert!(net == *after, "a run is its draws, one after the other");
    }

    fn made<N: Net>(&mut self, step: Step, net: &N) {
        self.steps.push(step);
        if !self.has_reported() {
            assert_eq!(
                net.outstanding(),
                self.map.total(net.config().way),
                "before the report what is held joins to the map's total, class by class"
            );
        }
    }

    fn has_reported(&self) -> bool {
        self.steps.iter().any(|step| step.kind == self.report)
    }

    /// Closes the list with the net it leaves, and checks every claim of demand 3.
    pub fn close<N: Net>(&self, subject: &impl NetCalls<N>, net: &N) {
        let at_rest = is_at_rest(subject, net);
        let counted = self.counted();
        let reports = self.steps.iter().filter(|step| step.kind == self.report).count();
        assert!(reports <= 1, "at most one report");
        assert!(counted.len() <= Record::whole(self.map), "at most 2m + 1 steps");
        let messages = self.messages();
        let reported = reports == 1;
        assert!(reported || counted.len() == self.steps.len(), "no tell before the report");
        assert_eq!(
            at_rest,
            self.steps.len() == Record::full::<N>(self.map),
            "nothing is allowed just when all steps were made"
        );
        assert_eq!(
            reported,
            counted.len() == Record::whole(self.map),
            "all are made but tells just when the report was"
        );
        let others = net.listing().into_iter().filter(|step| step.kind <= self.report).count();
        assert_eq!(reported, others == 0, "nothing but tells is allowed just when the report was made");
        if at_rest {
            net.check_rest(self.map);
        }
        if reported {
            let desk = self.map.desk;
            let report = Step { kind: self.report, sender: desk, receiver: desk };
            assert_eq!(counted.last(), Some(&report), "every order ends in that desk's report");
            let total = self.map.total(net.config().way);
            assert_eq!(net.stations()[usize::from(desk)].held, total, "each class reports its own total");
            assert_eq!(messages + 1, Record::whole(self.map), "each link carried one message each way");
        }
    }

    /// The steps that demand 3 counts: all but tells, which follow them.
    fn counted(&self) -> &[Step] {
        let tells = self.steps.iter().rev().take_while(|step| step.kind > self.report).count();
        let counted = &self.steps[..self.steps.len() - tells];
        assert!(counted.iter().all(|step| step.kind <= self.report), "only tells follow the report");
        counted
    }

    /// Counts the messages: only over links, and none twice in a direction.
    fn messages(&self) -> usize {
        let mut carried = BTreeSet::new();
        for step in self.counted().iter().filter(|step| step.kind != self.report) {
            let neighbours = self.map.neighbours[usize::from(step.sender)];
            assert!(set::contains(neighbours, step.receiver), "messages go over links only: {step:?}");
            assert!(carried.insert((step.sender, step.receiver)), "no message twice in a direction: {step:?}");
        }
        carried.len()
    }
}

/// Nothing is allowed: a draw says so, and so does a run without draws.
fn is_at_rest<N: Net>(subject: &impl NetCalls<N>, net: &N) -> bool {
    let drawn = number(&subject.draw(&mut net.clone(), 0)) == Cause::NothingAllowed as u8;
    assert_eq!(subject.run(&mut net.clone(), &[]).at_rest, drawn, "a run and a draw agree on rest");
    drawn
}

/// The run's formula: from a fresh net, the smaller of the draw count and 2 × m + 1, or 2 × m + k.
pub fn check_run_formula<N: Net>(subject: &impl NetCalls<N>, map: &Map, fresh: &N, draws: &[u16]) {
    let run = subject.run(&mut fresh.clone(), draws);
    assert_eq!(run.steps as usize, draws.len().min(Record::full::<N>(map)), "the run's formula");
    assert_eq!(run.at_rest, draws.len() >= Record::full::<N>(map), "a run is at rest just when it made every step");
}
