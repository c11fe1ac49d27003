//! The library's station events against the model.

use conformance::compare::station;
use conformance::edges;
use conformance::ffi::Library;

#[test]
fn examples() {
    edges::stations(&Library);
}

#[test]
fn fields_at_extremes() {
    station::at_extremes(&Library);
}

#[test]
fn lists_of_events() {
    station::lists(&Library, 50_000);
}
