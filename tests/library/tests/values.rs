//! The proved library against the second implementation: verdict, keep and
//! is-plan on drafts and on damaged values.

use library::checks::drafts;
use library::Library;

#[test]
fn drafts_of_every_shape() {
    drafts::of_drafts(&Library);
}

#[test]
fn damaged_plans() {
    drafts::of_damaged_plans(&Library);
}

#[test]
fn values_of_any_bytes() {
    drafts::of_values(&Library);
}
