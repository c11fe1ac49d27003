//! Generators: maps good and damaged, what is gathered, station records, words of mail, nets, calls, and inputs of the
//! program.

pub mod aggregate;
pub mod bytes;
pub mod call;
mod mail;
pub mod map;
pub mod net;
pub mod sheet;
pub mod station;
