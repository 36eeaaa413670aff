//! Copies of the reference program with something wrong about the places of W (E7).

use crate::copies::is_found_often;

/// A test for each edit, which has to be found often.
macro_rules! found {
    ($($test:ident: $edit:literal,)*) => {
        $(
            #[test]
            fn $test() {
                is_found_often($edit);
            }
        )*
    };
}

// Which place a pair has.
found! {
    places_of_w_from_zero_are_found: "place-from-0",
    the_place_1_for_all_pairs_is_found: "place-always-1",
    a_last_place_that_is_one_more_is_found: "place-last-one-more",
    places_of_two_digits_are_found: "place-of-two-digits",
}

// In which order the pairs are counted.
found! {
    places_by_typing_are_found: "place-by-typing",
    places_by_to_words_are_found: "place-by-to-words",
    places_by_length_are_found: "place-by-length",
    places_before_reduction_are_found: "place-before-reduction",
}

// An image.
found! {
    an_image_without_its_place_is_found: "place-missing-image",
    the_place_of_the_block_around_a_word_is_found: "place-of-the-block-around",
    no_place_for_a_code_without_a_tail_is_found: "place-needs-a-tail",
}

// A block.
found! {
    the_lines_of_a_block_counted_from_1_are_found: "place-block-from-1",
    one_place_for_a_whole_block_is_found: "place-block-same",
    a_line_without_its_place_is_found: "place-missing-in-block",
    lines_without_their_places_are_found: "place-missing-blocks",
    a_place_behind_the_closing_ok_is_found: "place-behind-closing-ok",
}
