//! Copies of the reference program with something wrong about the pairs of H (E8).

use crate::copies::{is_found_often, leaks_often};

/// A test for each edit, which has to be found in this way.
macro_rules! found {
    ($found:ident: $($test:ident: $edit:literal,)*) => {
        $(
            #[test]
            fn $test() {
                $found($edit);
            }
        )*
    };
}

// What is kept, overwritten and emptied.
found! { is_found_often:
    overwritten_pairs_left_in_the_sum_are_found: "h-overwritten-not-taken-off",
    a_sum_that_c_leaves_is_found: "h-c-leaves-the-sum",
    a_sum_that_c_empties_is_found: "h-c-empties-the-sum",
    typed_pairs_in_the_sum_are_found: "h-e-before-reduction",
    exercised_pairs_before_reduction_are_found: "h-x-before-reduction",
    a_power_0_that_is_not_counted_is_found: "h-k-0-not-counted",
    exercises_that_are_not_in_the_sum_are_found: "h-x-not-noted",
    inverses_that_are_not_in_the_sum_are_found: "h-i-not-noted",
    new_pairs_taken_off_for_old_ones_are_found: "h-new-pairs-taken-off",
    an_own_operand_left_in_the_sum_is_found: "h-own-operand-not-taken-off",
    an_inverse_over_itself_counted_twice_is_found: "h-inverse-over-itself-twice",
    changes_of_station_0_alone_are_found: "h-own-changes-alone",
    the_plan_kept_last_alone_is_found: "h-last-kept-alone",
}

// What a refusal does to the sum.
found! { is_found_often:
    a_plan_taken_off_when_another_is_opened_is_found: "h-p-takes-off",
    pairs_of_an_open_plan_in_the_sum_are_found: "h-open-pairs-counted",
    a_refused_f_that_takes_off_is_found: "h-f-refused-takes-off",
    a_refused_k_that_takes_off_is_found: "h-k-refused-takes-off",
    a_refused_x_that_takes_off_is_found: "h-x-refused-takes-off",
    a_c_without_a_right_that_takes_off_is_found: "h-c-without-a-right-takes-off",
    a_refusal_that_resets_the_sum_is_found: "h-refusal-resets",
}

// The number that H tells.
found! { is_found_often:
    slots_told_for_pairs_are_found: "h-slots-told",
    pairs_readable_to_another_station_are_found: "h-readable-to-1",
    a_sum_of_one_byte_is_found: "h-one-byte",
    a_sum_that_stops_at_255_is_found: "h-capped",
    an_ok_without_the_sum_is_found: "h-ok-alone",
}

// Who may ask, when, and what else it does.
found! { is_found_often:
    another_station_refused_with_20_is_found: "h-20-for-19",
    another_station_refused_with_1_is_found: "h-1-for-19",
    another_station_refused_with_8_is_found: "h-8-for-19",
    another_station_before_an_open_plan_is_found: "h-19-before-2",
    fields_behind_h_are_found: "h-fields-taken",
    an_h_that_is_counted_is_found: "h-counted",
    an_h_answered_in_an_open_plan_is_found: "h-while-open-told",
    an_open_plan_left_open_by_h_is_found: "h-while-open-stays-open",
}

// The sum tells a station of slots that it may not read.
found! { leaks_often:
    an_h_for_every_station_is_found: "h-from-everyone",
}
