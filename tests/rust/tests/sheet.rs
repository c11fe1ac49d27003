//! The library's grower sheets against the model.

use conformance::compare::sheet;
use conformance::edges;
use conformance::ffi::Library;

#[test]
fn examples() {
    edges::sheets(&Library);
}

#[test]
fn any_map_and_net() {
    sheet::sheets(&Library, 20_000);
}

#[test]
fn buffers_of_every_length() {
    sheet::rooms(&Library, 60);
}

#[test]
fn lines_add_up() {
    sheet::sums(&Library, 2_000);
}
