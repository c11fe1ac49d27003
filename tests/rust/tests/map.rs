//! The library's line maps against the model.

use conformance::compare::map;
use conformance::edges;
use conformance::ffi::Library;

#[test]
fn examples() {
    edges::maps(&Library);
}

#[test]
fn reading() {
    map::reading(&Library, 30_000);
}

#[test]
fn handing_over() {
    map::handing_over(&Library, 20_000);
}
