//! The library's stations that meet with totals carried back (document 02, request 8) against the model, and demand 3 on every list.

use conformance::compare::net;
use conformance::edges;
use conformance::ffi::Library;
use conformance::model::meet::{Back, Meet};

#[test]
fn examples() {
    edges::tells(&Library);
}

#[test]
fn fresh_nets() {
    net::freshness::<Back>(&Library, 1_500);
}

#[test]
fn any_net() {
    net::hostile::<Back>(&Library, 20_000);
}

#[test]
fn lists_from_fresh_nets() {
    net::lists::<Back>(&Library, 300);
}

/// Tells change nothing of what is reported.
#[test]
fn the_same_is_reported() {
    net::kinds_agree::<Meet, Back>(&Library, &Library, 300);
}

#[test]
fn full_run() {
    net::full_run::<Back>(&Library);
}

#[test]
fn every_class_count() {
    net::every_class_count::<Back>(&Library);
}
