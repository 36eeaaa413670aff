//! The places of W (E7) under plans of up to 128 pairs: all of them, those of rows
//! typed in another order, of rows that join, of results and of X's plans. The rows
//! of each rule stand in the order of the listing, and a place is where a row stands.

use crate::case::{of, row, Case, Row};
use crate::exercises::{joined, made};
use crate::plans::{flips, psi};

/// Every place of a plan of 128 pairs, by its from-word, by a digit more and by a
/// code of 1,024 digits. The to-words stand in the opposite order, so that the place
/// of a to-word in its column is another at every pair.
pub fn of_128_pairs() -> Case {
    let mut case = Case::new("long-places-128-pairs");
    case.load("P|A|2|1", &flips(1), "ok|128");
    for place in 1..=128 {
        case.image("A", place, "", &flips(1));
        case.image("A", place, ["1", "2"][place % 2], &flips(1));
    }
    for place in [1, 2, 9, 10, 63, 64, 65, 99, 100, 127, 128] {
        case.image("A", place, &of("12", 508), &flips(1));
    }
    case.ask("T", "ok|1");
    case
}

/// Blocks of every size from 2 lines to all 128, each at the start of the listing, in
/// its middle and at its end, and every block of two.
pub fn of_blocks() -> Case {
    let mut case = Case::new("long-places-blocks");
    let words: Vec<String> = flips(1).into_iter().map(|(from, _)| from).collect();
    case.load("P|A|2|1", &flips(1), "ok|128");
    for digits in 1..8 {
        for word in [&words[0], &words[62], &words[64], &words[127]] {
            case.block("A", &word[..digits], &flips(1));
        }
    }
    for word in words.iter().step_by(2) {
        case.block("A", &word[..7], &flips(1));
    }
    case.ask("T", "ok|1");
    case
}

/// "The place of the pair in the listing": the order of typing doesn't matter.
pub fn of_rows_typed_in_any_order() -> Case {
    let mut case = Case::new("long-places-typed-order");
    let (mut backwards, mut turned, mut dealt) = (flips(1), flips(1), flips(1));
    backwards.reverse();
    turned.rotate_left(37);
    // every other row, and then those between
    dealt.sort_by_key(|(from, _)| from.ends_with('1'));
    for (slot, typed) in [("A", backwards), ("B", turned), ("C", dealt)] {
        case.load(&format!("P|{slot}|2|1"), &typed, "ok|128");
        for place in 1..=128 {
            case.image(slot, place, "", &flips(1));
        }
        for front in ["1", "1212121", "122"] {
            case.block(slot, front, &flips(1));
        }
    }
    case
}

/// Rows as they are typed, and the pairs that are kept of them.
pub struct Joining {
    pub typed: Vec<Row>,
    pub kept: Vec<Row>,
}

/// Words of seven ways, of which those behind 111 and those behind 122 stay as they
/// are: each are 32 rows that join into one.
pub fn half_at_rest() -> Joining {
    let at_rest = |word: &str| word.starts_with("111") || word.starts_with("122");
    let mut typed = flips(3);
    for (from, to) in &mut typed {
        if at_rest(from) {
            to.clone_from(from);
        }
    }
    let mut kept: Vec<Row> = typed.clone();
    kept.retain(|(from, _)| !at_rest(from));
    kept.insert(0, row("111", "111"));
    kept.push(row("122", "122"));
    Joining { typed, kept }
}

/// The places are those of the pairs that are kept: the first and the last are of
/// joined rows, and those between have moved by 31.
pub fn of_rows_that_join() -> Case {
    let mut case = Case::new("long-places-joined");
    let Joining { typed, kept } = half_at_rest();
    case.load("P|A|2|1", &typed, "ok|66");
    for place in 1..=66 {
        case.image("A", place, "", &kept);
    }
    for (place, tail) in [(1, "11111"), (1, "22222"), (66, "11111"), (66, "22222")] {
        case.image("A", place, tail, &kept);
    }
    for front in ["1", "11", "12", "112", "121", "1121111"] {
        case.block("A", front, &kept);
    }
    case
}

/// The places of what F, I and K keep: flips of all ways but the first, ψ's inverse,
/// and ψ's fourteenth power with its inverse, each with every place and the block of
/// the belt.
pub fn of_results() -> Case {
    let mut case = Case::new("long-places-results");
    case.load("P|A|2|1", &flips(1), "ok|128");
    case.load("P|B|2|1", &[row("11", "12"), row("12", "11")], "ok|2");
    case.load("P|C|2|1", &psi(), "ok|3");
    let back = vec![row("11", "111"), row("121", "112"), row("122", "12")];
    let deep = fourteenth();
    let mut deep_back: Vec<Row> = deep.iter().cloned().map(|(f, t)| (t, f)).collect();
    deep_back.sort();
    for (record, rows) in [
        ("F|A|B|D", flips(2)),
        ("F|B|A|D", flips(2)),
        ("I|C|D", back),
        ("K|C|14|D", deep),
        ("K|C|-14|D", deep_back),
    ] {
        case.ask(record, &format!("ok|{}", rows.len()));
        for place in 1..=rows.len() {
            case.image("D", place, "21", &rows);
        }
        case.block("D", "1", &rows);
    }
    case
}

/// ψ to the 14th: ψ takes a 1 away behind 11, and where no more than 112 is left it
/// goes over to 121, from where each further turn adds a 2.
fn fourteenth() -> Vec<Row> {
    let mut rows = vec![row(&of("1", 16), "11")];
    for ones in (2..16).rev() {
        let from = format!("{}2", of("1", ones));
        rows.push((from, format!("1{}1", of("2", 16 - ones))));
    }
    rows.push(row("12", &format!("1{}", of("2", 15))));
    rows
}

/// Every place of some of X's plans, and their listings before: the k-th M line is
/// the pair that W names.
pub fn of_exercises() -> Case {
    let mut case = Case::new("long-places-of-x");
    for ([n, r, s], seed) in [
        ([2, 1, 5], 3),
        ([2, 1, 99], 42),
        ([3, 2, 40], 7),
        ([5, 4, 20], 987_654_321),
        ([9, 9, 14], 2147483646),
    ] {
        let rows = joined(n, made(n, r, s, seed));
        case.ask(
            &format!("X|A|{n}|{r}|{s}|{seed}"),
            &format!("ok|{}", rows.len()),
        );
        case.list(&format!("P|A|{n}|{r}"), &rows);
        for place in 1..=rows.len() {
            case.image("A", place, "1", &rows);
        }
        let front = |word: &str| word[..word.len() - 1].to_string();
        for place in [0, rows.len() / 2, rows.len() - 1] {
            let front = front(&rows[place].0);
            if !front.is_empty() {
                case.block("A", &front, &rows);
            }
        }
    }
    case
}
