//! The library's stations with mail against the model, demand 3 on every list, and both kinds against each other.

use conformance::compare::net;
use conformance::edges;
use conformance::ffi::Library;
use conformance::model::mail::Mail;
use conformance::model::meet::Meet;

#[test]
fn examples() {
    edges::nets::<Mail>(&Library);
}

#[test]
fn fresh_nets() {
    net::freshness::<Mail>(&Library, 3_000);
}

#[test]
fn any_net() {
    net::hostile::<Mail>(&Library, 10_000);
}

#[test]
fn lists_from_fresh_nets() {
    net::lists::<Mail>(&Library, 300);
}

#[test]
fn full_run() {
    net::full_run::<Mail>(&Library);
}

#[test]
fn every_class_count() {
    net::every_class_count::<Mail>(&Library);
}

#[test]
fn both_kinds_report_the_same() {
    net::kinds_agree::<Meet, Mail>(&Library, &Library, 200);
}
