//! The proved library beside tables of pairs of any size (E10): no table with the
//! action of a plan is shorter than its listing.

use library::checks::{every_table, tables};
use library::Library;

#[test]
fn tables_split_from_plans() {
    tables::split_from_plans(&Library);
}

#[test]
fn words_above_plans() {
    tables::words_above_plans(&Library);
}

#[test]
fn tables_that_act_otherwise() {
    tables::changed_tables(&Library);
}

#[test]
fn every_table_beside_every_plan() {
    every_table::beside_every_plan(&Library);
}

#[test]
fn every_table_beside_some_plans() {
    every_table::beside_some_plans(&Library);
}

#[test]
fn tables_near_plans() {
    every_table::near_plans(&Library);
}

#[test]
fn shorter_tables_without_a_condition() {
    every_table::without_a_condition(&Library);
}
