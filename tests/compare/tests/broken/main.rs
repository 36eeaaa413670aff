//! The comparison tried out: on the reference program as it is, where nothing
//! may fail, and on copies of it with one place spoiled, each of which has to
//! be found. The edits are in `broken/` beside this folder's: what is spoiled, the
//! file, the old text, which has to be there exactly once, and the new text; a few
//! spoil a second place so.

mod copies;
mod pairs_held;
mod places;
mod rights;

use std::fs;

use copies::{build, cases, compare, counts, failures, is_found, leaks, one_case};

#[test]
fn the_reference_itself_passes() {
    let desk = build("reference", false);
    let inputs = fs::read_dir(cases()).unwrap().filter(|entry| {
        let path = entry.as_ref().unwrap().path();
        path.extension().is_some_and(|extension| extension == "in")
    });
    let arguments = ["--cases", &cases(), "--seeds", "0..30", "--pairs", "0..40"];
    let output = compare(&arguments, &[desk.to_str().unwrap()]);
    assert_eq!(counts(&output), (inputs.count() + 30 + 40, 0));
}

#[test]
fn a_wrong_join_is_found() {
    is_found("wrong-join");
}

#[test]
fn a_limit_before_reduction_is_found() {
    is_found("early-limit");
}

#[test]
fn following_the_wrong_way_round_is_found() {
    is_found("wrong-way-round");
}

#[test]
fn a_gap_found_by_counting_is_found() {
    is_found("counted-gap");
}

#[test]
fn a_limit_on_the_last_power_alone_is_found() {
    is_found("last-power-only");
}

#[test]
fn a_missing_line_of_u_is_found() {
    is_found("u-line-missing");
}

#[test]
fn a_survey_by_letter_is_found() {
    is_found("u-slot-order");
}

#[test]
fn a_survey_with_the_fewest_pairs_first_is_found() {
    is_found("u-fewest-first");
}

#[test]
fn a_survey_with_equal_ones_by_the_later_letter_is_found() {
    is_found("u-later-letter-first");
}

#[test]
fn a_survey_with_equal_ones_by_shape_is_found() {
    is_found("u-equal-by-shape");
}

#[test]
fn a_survey_that_compares_digits_is_found() {
    is_found("u-pairs-as-text");
}

#[test]
fn a_lost_last_line_is_found() {
    is_found("lost-last-line");
}

#[test]
fn a_block_in_the_order_of_its_to_words_is_found() {
    is_found("block-in-to-order");
}

#[test]
fn a_block_for_a_from_word_is_found() {
    is_found("block-of-a-from-word");
}

#[test]
fn a_pair_missing_in_a_block_is_found() {
    is_found("block-pair-missing");
}

#[test]
fn a_block_that_is_not_closed_is_found() {
    is_found("block-not-closed");
}

#[test]
fn a_block_that_counts_one_pair_less_is_found() {
    is_found("block-count-short");
}

#[test]
fn a_block_of_words_that_begin_the_code_is_found() {
    is_found("block-of-beginnings");
}

#[test]
fn a_front_that_is_still_refused_is_found() {
    is_found("block-refused");
}

#[test]
fn a_block_before_a_wrong_digit_is_found() {
    is_found("block-before-wrong-digit");
}

#[test]
fn another_multiplier_is_found() {
    is_found("x-other-multiplier");
}

#[test]
fn a_seed_taken_for_a_draw_is_found() {
    is_found("x-seed-is-a-draw");
}

#[test]
fn draws_begun_again_are_found() {
    is_found("x-draws-restarted");
}

#[test]
fn places_from_one_are_found() {
    is_found("x-place-from-one");
}

#[test]
fn swaps_from_the_first_place_up_are_found() {
    is_found("x-swaps-upwards");
}

#[test]
fn swaps_that_never_stay_are_found() {
    is_found("x-swaps-modulo-i");
}

#[test]
fn a_missed_split_is_found() {
    is_found("x-to-split-missed");
}

#[test]
fn long_words_before_many_pairs_are_found() {
    is_found("x-4-before-5");
}

#[test]
fn many_pairs_before_the_seed_are_found() {
    is_found("x-17-after-5");
}

#[test]
fn limits_of_the_reduced_exercise_are_found() {
    is_found("x-limits-after-reduction");
}

#[test]
fn an_exercise_that_is_not_reduced_is_found() {
    is_found("x-not-reduced");
}

#[test]
fn a_seed_of_32_bits_is_found() {
    is_found("x-narrow-seed");
}

#[test]
fn an_exercise_that_is_not_counted_is_found() {
    is_found("x-not-counted");
}

#[test]
fn a_change_counted_for_station_zero_is_found() {
    is_found("z-counted-for-zero");
}

#[test]
fn the_count_of_station_zero_for_all_is_found() {
    leaks("z-count-of-zero-told");
}

#[test]
fn a_sum_of_all_counts_is_found() {
    leaks("z-sum-told");
}

#[test]
fn a_naming_that_is_counted_is_found() {
    is_found("z-counted");
}

#[test]
fn a_ninth_station_is_found() {
    is_found("z-eight-taken");
}

#[test]
fn a_digit_that_wraps_is_found() {
    is_found("z-digit-wrapped");
}

#[test]
fn a_station_of_two_digits_is_found() {
    is_found("z-two-digits");
}

#[test]
fn a_wrong_digit_before_an_open_plan_is_found() {
    is_found("z-18-before-2");
}

#[test]
fn a_station_named_by_a_wrong_digit_is_found() {
    is_found("z-refused-names");
}

#[test]
fn a_station_named_in_an_open_plan_is_found() {
    is_found("z-while-open-names");
}

#[test]
fn an_open_plan_left_open_by_a_naming_is_found() {
    is_found("z-while-open-stays-open");
}

#[test]
fn a_naming_done_in_an_open_plan_is_found() {
    is_found("z-while-open-done");
}

#[test]
fn counts_that_are_forgotten_are_found() {
    is_found("z-counts-forgotten");
}

#[test]
fn a_station_that_a_refusal_forgets_is_found() {
    is_found("z-station-forgotten");
}

#[test]
fn a_station_named_for_one_change_is_found() {
    is_found("z-named-for-one-change");
}

#[test]
fn a_naming_that_replies_a_number_is_found() {
    is_found("z-number-told");
}

/// K on an empty slot with k out of range is record 14 of the case, and needs
/// no record before it.
#[test]
fn a_wrong_order_of_refusals_is_found_and_made_small() {
    let desk = build("wrong-refusal-order", true);
    let (on_cases, on_seeds) = failures(&desk);
    assert!(on_cases > 0 && on_seeds > 0);
    let directory = one_case("refusal-order-case", "k-refusals");
    let saved = directory.join("saved");
    let arguments = ["--cases", directory.to_str().unwrap()];
    let arguments = [&arguments[..], &["--save", saved.to_str().unwrap()]].concat();
    let output = compare(&arguments, &[desk.to_str().unwrap()]);
    let text = String::from_utf8_lossy(&output.stdout);
    for line in [
        "FAILED case k-refusals, fed in one piece: a reply differs at record 14",
        "records in the shortest prefix that shows it: 14",
        "records left after shrinking: 1",
        "record 1: K⇥B⇥1001⇥A",
        "no⇥12",
        "no⇥9",
        "0 passed, 1 failed",
    ] {
        assert!(text.contains(line), "{line} is not in\n{text}");
    }
    let small = fs::read(saved.join("case-k-refusals.shrunk.in")).unwrap();
    assert_eq!(small, b"K\tB\t1001\tA\n");
    let prefix = fs::read(saved.join("case-k-refusals.prefix.in")).unwrap();
    assert!(prefix.ends_with(b"\nK\tB\t1001\tA\n"));
}

#[test]
fn a_desk_that_hangs_is_reported() {
    let directory = one_case("hanging-case", "end-empty-line");
    let arguments = ["--cases", directory.to_str().unwrap(), "--timeout", "1"];
    let output = compare(&arguments, &["sh", "-c", "exec sleep 60"]);
    let text = String::from_utf8_lossy(&output.stdout);
    assert!(text.contains("did not end in its time"), "{text}");
    assert_eq!(counts(&output), (0, 1));
}

#[test]
fn a_desk_that_dies_is_reported() {
    let directory = one_case("dying-case", "session-full");
    let arguments = ["--cases", directory.to_str().unwrap()];
    let dying = compare(
        &arguments,
        &["sh", "-c", "head -c 30 >/dev/null; kill -9 $$"],
    );
    let text = String::from_utf8_lossy(&dying.stdout);
    assert!(text.contains("the program died"), "{text}");
    assert_eq!(counts(&dying), (0, 1));
    assert_eq!(counts(&compare(&arguments, &["true"])), (0, 1));
    assert_eq!(counts(&compare(&arguments, &["cat"])), (0, 1));
    assert_eq!(counts(&compare(&arguments, &["./no-such-desk"])), (0, 1));
}

/// A wrong file is the file's failure, whatever the desk program does.
#[test]
fn a_case_that_the_reference_does_not_give_is_reported() {
    let directory = one_case("wrong-case", "session-full");
    let file = directory.join("session-full.out");
    let text = fs::read_to_string(&file).unwrap();
    fs::write(&file, text.replacen("ok\t1212", "ok\t1221", 1)).unwrap();
    let output = compare(&["--cases", directory.to_str().unwrap()], &["cat"]);
    let text = String::from_utf8_lossy(&output.stdout);
    assert!(
        text.contains("the reference is not what the file expects"),
        "{text}"
    );
    assert!(text.contains("record 6: W⇥A⇥1122"), "{text}");
    assert_eq!(counts(&output), (0, 1));
}

#[test]
fn a_directory_without_cases_fails() {
    let directory = one_case("no-case", "session-full");
    fs::remove_file(directory.join("session-full.in")).unwrap();
    let output = compare(&["--cases", directory.to_str().unwrap()], &["cat"]);
    assert_eq!(counts(&output), (0, 1));
}
