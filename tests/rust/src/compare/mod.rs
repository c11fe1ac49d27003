//! Comparison of a subject (the proved library, or anything else that answers the same calls) with the model.

pub mod apart;
pub mod map;
pub mod net;
pub mod program;
pub mod sheet;
pub mod station;
pub mod tree;

use crate::model::aggregate::{is_class_count, Aggregate, Cell, MOST_MISSING};
use crate::model::net::Config;
use crate::model::MOST_CLASSES;
use crate::rng;
use std::collections::BTreeMap;

/// By what something gathered is out of form.
const EXCESSES: [&str; 3] = ["sum alone beyond", "missing number alone beyond", "sum and missing number beyond"];

/// Of several classes, one alone is.
const ONE_CLASS: &str = "one class beyond, of several:";

fn excess(gathered: &Aggregate, Config { classes, way, .. }: Config) -> Option<&'static str> {
    let [sum, missing, both] = EXCESSES;
    let sums = gathered.cells(classes).any(|cell| !Cell { missing: 0, ..cell }.is_bounded(way));
    match (sums, gathered.cells(classes).any(|cell| cell.missing > MOST_MISSING)) {
        (false, false) => None,
        (true, false) => Some(sum),
        (false, true) => Some(missing),
        (true, true) => Some(both),
    }
}

/// Out of form by its desk, and by nothing else.
const DESK_ALONE: &str = "desk alone beyond";

/// Out of form by its way, and by nothing else.
const WAY_ALONE: &str = "way alone beyond";

/// Out of form by a none, and by nothing else; and in form with one: the ways.
const NONE_ALONE: &str = "none alone beyond, way";
const NONE_IN_FORM: &str = "none in form, way";

/// How often each call met each number: a comparison that never met a refusal says nothing about it.
#[derive(Default)]
pub struct Coverage {
    met: BTreeMap<(&'static str, u8), u64>,
}

impl Coverage {
    pub fn note(&mut self, what: &'static str, number: u8) {
        *self.met.entry((what, number)).or_default() += 1;
    }

    /// By what something gathered is out of form, where it is, and the class where it is one of several.
    fn note_excess(&mut self, gathered: &Aggregate, config: Config, number: u8) {
        let Config { classes, way, .. } = config;
        let Some(excess) = is_class_count(classes).then(|| excess(gathered, config)).flatten() else { return };
        self.note(excess, number);
        let mut beyond = (0..classes).filter(|&class| !gathered.cell(class.into()).is_bounded(way));
        if let (Some(class), None, true) = (beyond.next(), beyond.next(), classes > 1) {
            self.note(ONE_CLASS, class);
        }
    }

    /// Each excess was met with all of these numbers.
    fn require_excesses(&self, numbers: &[u8]) {
        for excess in EXCESSES {
            self.require(excess, numbers.iter().copied());
        }
    }

    /// Each class was beyond where the others were not.
    fn require_each_class(&self) {
        self.require(ONE_CLASS, 0..MOST_CLASSES);
    }

    pub fn require(&self, what: &'static str, numbers: impl IntoIterator<Item = u8>) {
        for number in numbers {
            let met = self.met.contains_key(&(what, number));
            assert!(met || rng::runs_one_case(), "the cases never met {what} {number}: {:?}", self.met);
        }
    }
}
