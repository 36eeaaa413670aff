//! The checks of the second implementation: the paper's own cases, every
//! refusal in its order, the mathematics on random plans of all shapes and on
//! tables of any size, the order of U's lines, the plans of X, the counts of the
//! stations, their rights, the places of W, the pairs of H, and the reading of input
//! in pieces.

mod bases;
mod blocks;
mod exercises;
mod following;
mod forms;
mod group;
mod listings;
mod open_plans;
mod pairs_held;
mod paper;
mod places;
mod powers;
mod prepared;
mod random;
mod refusals;
mod rights;
mod routes;
mod stations;
mod stream;
mod surveys;
mod tables;
