//! The proved library against the second implementation: the calls that read a
//! lent code or write into a lent buffer.

use library::checks::{bytes, listings, places, routes};
use library::Library;

#[test]
fn routes_by_plans() {
    routes::of_plans(&Library);
}

#[test]
fn routes_of_beginnings() {
    routes::of_beginnings(&Library);
}

#[test]
fn routes_by_damaged_values() {
    routes::of_damaged(&Library);
}

#[test]
fn routes_of_every_byte() {
    routes::of_bytes(&Library);
}

#[test]
fn every_place_of_plans() {
    places::of_every_place(&Library);
}

#[test]
fn no_place_without_a_match() {
    places::of_no_match(&Library);
}

#[test]
fn no_place_in_a_refusal() {
    places::of_no_route(&Library);
}

#[test]
fn every_byte_at_every_place() {
    bytes::at_every_place(&Library);
}

#[test]
fn every_byte_in_long_codes() {
    bytes::in_long_codes(&Library);
}

#[test]
fn several_bytes_at_once() {
    bytes::several_at_once(&Library);
}

#[test]
fn listings_of_plans() {
    listings::of_plans(&Library);
}

#[test]
fn listings_for_every_slot() {
    listings::of_slots(&Library);
}
