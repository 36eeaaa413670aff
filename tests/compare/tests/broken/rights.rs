//! Copies of the reference program with something wrong about rights (E6). Those by
//! which a station learns of what it may not read `leak`: the pairs of sessions find
//! them too. Some are wrong in another way and keep quiet about it.

use crate::copies::{is_found, keeps_quiet, leaks};

/// A test for each edit, which has to be found in this way.
macro_rules! found {
    ($found:ident: $($test:ident: $edit:literal,)*) => {
        $(
            #[test]
            fn $test() {
                $found($edit);
            }
        )*
    };
}

// What a station learns of slots that it may not read, or of rights that aren't its own.
found! { leaks:
    hidden_slots_counted_by_u_are_found: "g-u-counts-hidden",
    hidden_slots_listed_by_u_are_found: "g-u-lists-hidden",
    an_empty_slot_before_a_missing_right_is_found: "g-9-before-20",
    a_slot_empty_before_c_may_empty_it_is_found: "g-c-9-before-20",
    comparing_with_a_hidden_slot_is_found: "g-s-second-free",
    following_a_hidden_slot_is_found: "g-f-first-free",
    reading_without_a_right_is_found: "g-reading-needs-nothing",
    a_limit_of_pairs_in_all_slots_is_found: "g-pairs-in-all",
    the_rights_of_another_station_are_found: "g-rights-of-the-next",
    a_right_for_all_stations_is_found: "g-given-to-all",
    a_gift_from_another_station_is_found: "g-from-another",
    rights_forgotten_by_refusals_are_found: "g-forgotten-by-refusals",
    a_refused_gift_that_gives_is_found: "g-refused-gives",
}

// Where 20 stands among numbers that tell nothing of a hidden slot.
found! { keeps_quiet:
    a_missing_right_told_as_an_empty_slot_is_found: "g-hidden-as-empty",
    an_exponent_before_a_missing_right_is_found: "g-k-12-before-20",
    a_shape_before_a_missing_right_is_found: "g-p-3-before-20",
    an_exercise_made_before_a_missing_right_is_found: "g-x-20-last",
    a_missing_right_before_a_wrong_slot_is_found: "g-20-before-8",
}

// What U shows.
found! { is_found:
    readable_slots_left_out_by_u_are_found: "g-u-needs-2",
}

// Which right is needed.
found! { is_found:
    reading_with_2_alone_is_found: "g-reading-needs-2",
    writing_with_1_is_found: "g-writing-needs-1",
    emptying_with_1_is_found: "g-c-needs-1",
    emptying_without_a_right_is_found: "g-c-needs-nothing",
    exercises_without_a_right_are_found: "g-x-needs-nothing",
    opening_without_a_right_is_found: "g-p-needs-nothing",
    opening_with_1_is_found: "g-p-needs-1",
    following_with_a_hidden_slot_is_found: "g-f-second-free",
    an_operand_written_with_1_is_found: "g-over-itself-free",
}

// Who has which right.
found! { is_found:
    a_right_on_all_slots_is_found: "g-on-all-slots",
    a_right_never_given_back_is_found: "g-not-given-back",
    a_start_with_1_is_found: "g-starts-with-1",
    rights_forgotten_by_namings_are_found: "g-forgotten-by-z",
    numbers_turned_round_are_found: "g-numbers-turned",
}

// G itself.
found! { is_found:
    a_gift_to_station_0_is_found: "g-for-station-0",
    a_gift_to_oneself_is_found: "g-for-itself",
    a_right_of_3_is_found: "g-right-3-taken",
    rights_above_2_refused_too_late_are_found: "g-right-above-2-is-19",
    a_gift_that_is_counted_is_found: "g-counted",
    a_gift_that_replies_a_number_is_found: "g-number-told",
    the_slot_before_the_station_is_found: "g-8-before-18",
    the_giver_before_the_slot_is_found: "g-19-before-8",
    the_giver_before_the_station_is_found: "g-19-before-18",
    a_gift_to_a_ninth_station_is_found: "g-station-8-taken",
    a_gift_on_a_ninth_slot_is_found: "g-slot-i-taken",
}

// G in an open plan.
found! { is_found:
    a_wrong_station_before_an_open_plan_is_found: "g-18-before-2",
    a_gift_done_in_an_open_plan_is_found: "g-while-open-done",
    a_gift_given_in_an_open_plan_is_found: "g-while-open-gives",
    an_open_plan_left_open_by_a_gift_is_found: "g-while-open-stays-open",
}
