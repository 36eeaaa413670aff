//! The proved desk on the session of document 01, and against the second
//! implementation.

use desk_calls::checks::{
    buffers, bytes, damage, feeding, jobs, lines, pairs_held, paper, places, refusals, rights,
    sessions, stations, tables,
};
use desk_calls::Library;

#[test]
fn the_session_of_the_paper() {
    paper::session(&Library);
}

#[test]
fn the_session_of_the_paper_in_jobs() {
    paper::session_in_jobs(&Library);
}

#[test]
fn a_block_without_room() {
    paper::block_without_room(&Library);
}

#[test]
fn places_in_the_listing() {
    paper::places::listed(&Library);
}

#[test]
fn every_place_and_every_block() {
    places::of_full_plans(&Library);
}

#[test]
fn the_longest_blocks() {
    places::of_long_words(&Library);
}

#[test]
fn the_slots_in_their_order() {
    paper::survey(&Library);
}

#[test]
fn exercises_worked_by_hand() {
    paper::exercises(&Library);
}

#[test]
fn exercises_that_are_refused() {
    paper::exercises_refused(&Library);
}

#[test]
fn every_number_of_splits() {
    paper::splits(&Library);
}

#[test]
fn stations_named_as_in_the_paper() {
    paper::stations::naming(&Library);
}

#[test]
fn limits_of_stations_in_the_paper() {
    paper::stations::limits(&Library);
}

#[test]
fn stations_that_are_none() {
    paper::stations::damage(&Library);
}

#[test]
fn refusals_of_calls_in_the_paper() {
    paper::refusals_of_calls(&Library);
}

#[test]
fn full_desks() {
    sessions::of_full_desks(&Library);
}

#[test]
fn sessions_of_lines() {
    sessions::of_lines(&Library);
}

#[test]
fn sessions_with_jobs() {
    sessions::with_jobs(&Library);
}

#[test]
fn lines_of_any_bytes() {
    lines::of_any_bytes(&Library);
}

#[test]
fn lines_at_the_limit() {
    lines::at_the_limit(&Library);
}

#[test]
fn lines_for_every_slot() {
    lines::for_every_slot(&Library);
}

#[test]
fn every_byte_in_words() {
    bytes::in_words(&Library);
}

#[test]
fn every_byte_in_codes() {
    bytes::in_codes(&Library);
}

#[test]
fn every_digit_in_plans() {
    bytes::digits_in_plans(&Library);
}

#[test]
fn jobs_of_every_letter() {
    jobs::of_every_letter(&Library);
}

#[test]
fn jobs_in_chains() {
    jobs::in_chains(&Library);
}

#[test]
fn jobs_of_every_number() {
    jobs::of_every_number(&Library);
}

#[test]
fn jobs_of_every_exercise() {
    jobs::of_every_exercise(&Library);
}

#[test]
fn jobs_of_every_number_of_splits() {
    jobs::of_every_splits(&Library);
}

#[test]
fn exercises_in_lines_and_in_jobs() {
    jobs::beside_lines(&Library);
}

#[test]
fn stations_of_every_number() {
    stations::of_every_number(&Library);
}

#[test]
fn stations_in_lines_and_in_jobs() {
    stations::beside_lines(&Library);
}

#[test]
fn stations_at_their_limits() {
    stations::at_their_limits(&Library);
}

#[test]
fn stations_with_every_damage() {
    stations::damaged(&Library);
}

#[test]
fn rights_given_as_in_the_paper() {
    paper::rights::giving(&Library);
}

#[test]
fn gifts_refused_as_in_the_paper() {
    paper::rights::refused_gifts(&Library);
}

#[test]
fn rights_needed_as_in_the_paper() {
    paper::rights::needed(&Library);
}

#[test]
fn slots_shown_as_in_the_paper() {
    paper::rights::shown(&Library);
}

#[test]
fn rights_that_are_none() {
    paper::rights::damage(&Library);
}

#[test]
fn pairs_held_after_every_change() {
    paper::pairs_held::moving(&Library);
}

#[test]
fn pairs_asked_for_as_in_the_paper() {
    paper::pairs_held::asking(&Library);
}

#[test]
fn the_most_pairs_that_can_be_held() {
    paper::pairs_held::most(&Library);
}

#[test]
fn pairs_held_after_refused_changes() {
    paper::pairs_held::refused_changes(&Library);
}

#[test]
fn sums_that_are_off() {
    paper::pairs_held::damage(&Library);
}

#[test]
fn pairs_asked_for_in_lines_and_in_jobs() {
    pairs_held::beside_lines(&Library);
}

#[test]
fn pairs_asked_for_behind_changes() {
    pairs_held::behind_changes(&Library);
}

#[test]
fn sums_of_all_sizes() {
    pairs_held::damaged(&Library);
}

#[test]
fn rights_of_every_number() {
    rights::of_every_number(&Library);
}

#[test]
fn rights_in_lines_and_in_jobs() {
    rights::beside_lines(&Library);
}

#[test]
fn rights_of_every_record() {
    rights::of_every_record(&Library);
}

#[test]
fn rights_in_chains() {
    rights::in_chains(&Library);
}

#[test]
fn rights_with_every_damage() {
    rights::damaged(&Library);
}

#[test]
fn buffers_of_every_length() {
    buffers::of_every_length(&Library);
}

#[test]
fn buffers_for_some_lines_of_a_block() {
    buffers::of_every_line(&Library);
}

#[test]
fn calls_after_refusals() {
    refusals::one_after_another(&Library);
}

#[test]
fn desks_with_every_damage() {
    damage::of_every_kind(&Library);
}

#[test]
fn desks_with_any_word_changed() {
    damage::of_any_word(&Library);
}

#[test]
fn tables_beside_listings() {
    tables::beside_listings(&Library);
}

#[test]
fn tables_that_act_otherwise() {
    tables::that_act_otherwise(&Library);
}

#[test]
fn the_session_in_pieces() {
    paper::feeding::session(&Library);
}

#[test]
fn refusals_in_a_piece() {
    paper::feeding::refusals(&Library);
}

#[test]
fn long_lines_over_pieces() {
    paper::feeding::long_lines(&Library);
}

#[test]
fn pieces_with_some_room() {
    paper::feeding::room(&Library);
}

#[test]
fn pieces_that_are_refused() {
    paper::feeding::refused(&Library);
}

#[test]
fn long_lines_cut_around_the_limit() {
    feeding::of_long_lines(&Library);
}

#[test]
fn pieces_with_room_for_some_replies() {
    feeding::of_every_room(&Library);
}

#[test]
fn pieces_on_damaged_desks() {
    feeding::of_damaged(&Library);
}

#[test]
fn sessions_cut_anywhere() {
    feeding::cut_anywhere(&Library);
}

#[test]
fn sessions_in_pieces() {
    feeding::of_sessions(&Library);
}
