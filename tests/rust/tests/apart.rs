//! Steps far apart (document 02, request 9) in the library's nets of stations that meet, with and without totals carried back.

use conformance::compare::apart;
use conformance::edges;
use conformance::ffi::Library;
use conformance::model::meet::{Back, Meet};

#[test]
fn examples() {
    edges::apart(&Library);
}

#[test]
fn without_carrying_back() {
    apart::law::<Meet>(&Library, 4_000, 600);
}

#[test]
fn with_carrying_back() {
    apart::law::<Back>(&Library, 4_000, 600);
}
