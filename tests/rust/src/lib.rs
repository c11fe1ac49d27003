//! The lot tally's independent model, written from documents 01, 02 and 001 (and the header for how mail stands in words),
//! and the machinery that holds the proved library and the built program against it.

pub mod calls;
pub mod compare;
pub mod edges;
pub mod ffi;
pub mod gen;
pub mod model;
pub mod rng;
