//! The same calls as a Rust programmer would write them for speed: sets are words, and only what a step touched is looked
//! at again. The records are the model's; its rules are not used.

pub mod back;
#[cfg(feature = "mail")]
pub mod mail;
pub mod map;
pub mod meet;
pub mod sheet;
mod stations;

/// A refusal's number, and the station or the length that comes with it.
pub type Refusal = (u8, u32);
