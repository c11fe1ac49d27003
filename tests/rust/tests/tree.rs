//! The tree behind a total in the library's nets of both kinds: the parents alone say what the answers brought.

use conformance::compare::tree;
use conformance::ffi::Library;
use conformance::model::mail::Mail;
use conformance::model::meet::{Back, Meet};

#[test]
fn stations_that_meet() {
    tree::waves::<Meet>(&Library, 1_000);
    tree::largest::<Meet>(&Library);
}

#[test]
fn carrying_back() {
    tree::waves::<Back>(&Library, 1_000);
    tree::largest::<Back>(&Library);
}

#[test]
fn stations_with_mail() {
    tree::waves::<Mail>(&Library, 1_000);
    tree::largest::<Mail>(&Library);
}
