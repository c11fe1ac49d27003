//! The proved library behind its C interface: one module a layer, one safe function over each exported one.
//!
//! A slice passes as a pointer and a length, what a call alters as a pointer, a map handed over by value; what a call
//! returns is taken apart in `lending`.

#[cfg(feature = "station")]
pub mod lending;
#[cfg(feature = "mail")]
pub mod mail;
#[cfg(feature = "map")]
pub mod map;
#[cfg(feature = "meet")]
pub mod meet;
#[cfg(feature = "meet")]
pub mod net;
#[cfg(feature = "meet")]
pub mod sheet;
#[cfg(feature = "station")]
pub mod station;

/// The subject of the comparisons; each layer's module says how it answers that layer's calls.
pub struct Library;
