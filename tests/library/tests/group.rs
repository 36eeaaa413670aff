//! The proved library against the second implementation: follow, inverse, same
//! and power; and the laws of a group on the library alone.

use library::checks::{laws, powers, products};
use library::Library;

#[test]
fn products_of_one_shape() {
    products::of_one_shape(&Library);
}

#[test]
fn products_at_the_limit_of_pairs() {
    products::at_the_limit_of_pairs(&Library);
}

#[test]
fn products_at_the_limit_of_digits() {
    products::at_the_limit_of_digits(&Library);
}

#[test]
fn products_refused() {
    products::refused(&Library);
}

#[test]
fn small_powers() {
    powers::small(&Library);
}

#[test]
fn large_powers() {
    powers::large(&Library);
}

#[test]
fn powers_at_the_limits() {
    powers::at_the_limits(&Library);
}

#[test]
fn powers_refused() {
    powers::refused(&Library);
}

#[test]
fn laws_of_triples() {
    laws::of_triples(&Library);
}

#[test]
fn laws_of_powers() {
    laws::of_powers(&Library);
}

#[test]
fn laws_of_routes() {
    laws::of_routes(&Library);
}
