//! The library's stations that meet against the model, and demand 3 on every list.

use conformance::compare::net;
use conformance::edges;
use conformance::ffi::Library;
use conformance::model::meet::Meet;

#[test]
fn examples() {
    edges::nets::<Meet>(&Library);
    edges::orders(&Library);
}

#[test]
fn fresh_nets() {
    net::freshness::<Meet>(&Library, 3_000);
}

#[test]
fn any_net() {
    net::hostile::<Meet>(&Library, 20_000);
}

#[test]
fn lists_from_fresh_nets() {
    net::lists::<Meet>(&Library, 300);
}

#[test]
fn full_run() {
    net::full_run::<Meet>(&Library);
}

#[test]
fn every_class_count() {
    net::every_class_count::<Meet>(&Library);
}
