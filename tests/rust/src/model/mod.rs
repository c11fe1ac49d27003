//! The whole product after documents 01 and 02: maps, one station, both kinds of net, the program, the claims of demand 3, and the
//! tree behind a total.

pub mod aggregate;
pub mod apart;
pub mod demand;
pub mod mail;
pub mod map;
pub mod meet;
pub mod net;
pub mod refusal;
pub mod set;
pub mod sheet;
pub mod station;
pub mod text;
pub mod tree;

/// Places in a map or a net: k is at most this.
pub const PLACES: usize = 64;

/// For one station 64 stands for k (document 01, "Causes and numbers").
pub const MOST_STATIONS: u8 = PLACES as u8;

/// Places for classes: "c counts, 1 to 8" (document 02, request 2).
pub const CLASSES: usize = 8;

pub const MOST_CLASSES: u8 = CLASSES as u8;
