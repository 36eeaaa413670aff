//! Blocks of W (E1) under plans of 128 pairs: their root, and fronts of every
//! length down to a from-word.

use crate::case::{of, Case, Row};
use crate::plans::{flipped, flips, words_of_seven_ways};

/// Words of seven ways: the front of m digits is begun by 2 to the 8 - m of
/// them, all 128 for the belt alone. Each word's image has its ways turned
/// round, so that the to-words of a block stand in the opposite order.
pub fn of_128_pairs() -> Case {
    let mut case = Case::new("long-block-128-pairs");
    case.load("P|A|2|1", &flips(1), "ok|128");
    for digits in 1..8 {
        case.block("A", &of("1", digits), &flips(1));
    }
    for ways in 1..7 {
        case.block("A", &format!("1{}", of("2", ways)), &flips(1));
    }
    case.ask("W|A|11111111", "ok|12222222|1");
    case.ask("W|A|12222222", "ok|11111111|128");
    case.ask("W|A|1222223", "no|4");
    case.ask("T", "ok|1");
    case
}

/// 112 words of 16 digits and 8 of 15 behind the word of nine ones, and the
/// eight words 12, 112, .. that cover the rest.
pub fn deep_rows() -> Vec<Row> {
    let nine = of("1", 9);
    let turned = |word: &String| (word[1..].to_string(), flipped(word, 1)[1..].to_string());
    let ways: Vec<Row> = words_of_seven_ways().iter().map(turned).collect();
    let (long, last) = ways.split_at(112);
    // Two parts of a block in one: both of the words without their last way.
    let cut = |(from, to): &Row| (from[..6].to_string(), to[..6].to_string());
    let short = last.iter().step_by(2).map(cut);
    let below = long.iter().cloned().chain(short);
    let mut rows: Vec<Row> = below
        .map(|(from, to)| (format!("{nine}{from}"), format!("{nine}{to}")))
        .collect();
    for ones in (1..9).rev() {
        let word = format!("{}2", of("1", ones));
        rows.push((word.clone(), word));
    }
    rows
}

/// Nearly the longest block there is: fronts of every length, from the belt to
/// 15 digits, on either side, and the words themselves.
pub fn of_long_words() -> Case {
    let mut case = Case::new("long-block-16-digits");
    let rows = deep_rows();
    case.load("P|A|2|1", &rows, "ok|128");
    for digits in 1..16 {
        case.block("A", &of("1", digits), &rows);
    }
    for ways in 1..6 {
        case.block("A", &format!("{}{}", of("1", 9), of("2", ways)), &rows);
    }
    for place in [1, 112, 113, 128] {
        case.image("A", place, "", &rows);
    }
    case.ask("T", "ok|1");
    case
}
