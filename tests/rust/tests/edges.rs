//! Document 01's examples on the model, those marked * too, and the edges of document 02, requests 1, 2, 7, 8, 9 and 10.

use conformance::calls::Model;
use conformance::edges;
use conformance::model::mail::Mail;
use conformance::model::meet::Meet;
use conformance::model::text;

#[test]
fn one_station() {
    edges::stations(&Model);
}

#[test]
fn maps() {
    edges::maps(&Model);
}

#[test]
fn stations_that_meet() {
    edges::nets::<Meet>(&Model);
    edges::orders(&Model);
}

#[test]
fn totals_carried_back() {
    edges::tells(&Model);
}

#[test]
fn steps_far_apart() {
    edges::apart(&Model);
}

#[test]
fn sheets() {
    edges::sheets(&Model);
}

#[test]
fn stations_with_mail() {
    edges::nets::<Mail>(&Model);
}

#[test]
fn program() {
    edges::program(|input| text::output(input).into_bytes());
}
