//! The version on arrays held to the checks of the library: what is measured
//! must give the same answers, refusals included.

use bench::arrays::Arrays;
use library::checks::{bytes, drafts, every_table, laws, listings};
use library::checks::{paper, places, powers, products, routes, tables};

#[test]
fn cases_of_the_paper() {
    paper::of_drafts(&Arrays);
    paper::of_refusals(&Arrays);
    paper::of_products(&Arrays);
    paper::of_orders(&Arrays);
    paper::of_bytes(&Arrays);
}

#[test]
fn drafts_and_damaged_values() {
    drafts::of_drafts(&Arrays);
    drafts::of_damaged_plans(&Arrays);
    drafts::of_values(&Arrays);
}

#[test]
fn products_of_plans() {
    products::of_one_shape(&Arrays);
    products::at_the_limit_of_pairs(&Arrays);
    products::at_the_limit_of_digits(&Arrays);
    products::refused(&Arrays);
}

#[test]
fn powers_of_plans() {
    powers::small(&Arrays);
    powers::large(&Arrays);
    powers::at_the_limits(&Arrays);
    powers::refused(&Arrays);
}

#[test]
fn laws_of_a_group() {
    laws::of_triples(&Arrays);
    laws::of_powers(&Arrays);
    laws::of_routes(&Arrays);
}

#[test]
fn codes_and_buffers() {
    routes::of_plans(&Arrays);
    routes::of_beginnings(&Arrays);
    routes::of_damaged(&Arrays);
    routes::of_bytes(&Arrays);
    places::of_every_place(&Arrays);
    places::of_no_match(&Arrays);
    places::of_no_route(&Arrays);
    listings::of_plans(&Arrays);
    listings::of_slots(&Arrays);
}

#[test]
fn every_byte_of_a_code() {
    bytes::at_every_place(&Arrays);
    bytes::in_long_codes(&Arrays);
    bytes::several_at_once(&Arrays);
}

#[test]
fn tables_beside_listings() {
    tables::split_from_plans(&Arrays);
    tables::words_above_plans(&Arrays);
    tables::changed_tables(&Arrays);
    every_table::beside_every_plan(&Arrays);
    every_table::beside_some_plans(&Arrays);
    every_table::near_plans(&Arrays);
    every_table::without_a_condition(&Arrays);
}
