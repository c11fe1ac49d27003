//! The tests' own tests: document 01's hollow programs and wrong turns, those of missing readings, of classes, of lots,
//! of desks, of words, of sheets, of totals carried back, of steps far apart and of ways of joining, must not pass. Each
//! is the model of a station, of maps, of a kind of net or of sheets with one fault.

mod apart;
mod back;
mod classes;
mod desk;
mod faulty;
mod mail;
mod map;
mod meet;
mod sheet;
mod station;
mod tree;
mod ways;

use std::panic::{catch_unwind, UnwindSafe};

fn is_caught(check: impl FnOnce() + UnwindSafe) -> bool {
    catch_unwind(check).is_err()
}
