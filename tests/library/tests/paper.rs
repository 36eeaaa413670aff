//! The proved library on the cases of document 01, with the answers that the
//! document gives.

use library::checks::paper;
use library::Library;

#[test]
fn drafts() {
    paper::of_drafts(&Library);
}

#[test]
fn refusals() {
    paper::of_refusals(&Library);
}

#[test]
fn products() {
    paper::of_products(&Library);
}

#[test]
fn orders() {
    paper::of_orders(&Library);
}

#[test]
fn routes_and_listings() {
    paper::of_bytes(&Library);
}
