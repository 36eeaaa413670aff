//! Plans of X (E3) in every shape, with every number of splits, and at the limits.
//! The rule is worked out here on a list of words that is kept in digit order, and
//! joins by looking for one pair after another.

use crate::case::{Case, Row};

/// The limits of the unreduced plan.
const PAIRS: usize = 128;
const DIGITS: usize = 16;

/// "The next draw is 16807 times the last, modulo 2147483647".
fn draw(last: &mut u64) -> usize {
    *last = *last * 16807 % 2147483647;
    *last as usize
}

/// The r belts after s splits.
fn column(n: usize, r: usize, s: usize, last: &mut u64) -> Vec<String> {
    let mut words: Vec<String> = (1..=r).map(|belt| belt.to_string()).collect();
    for _ in 0..s {
        let place = draw(last) % words.len();
        let parts: Vec<String> = (1..=n)
            .map(|way| format!("{}{way}", words[place]))
            .collect();
        words.splice(place..=place, parts);
    }
    words
}

/// The pairs before reduction.
pub fn made(n: usize, r: usize, s: usize, seed: u64) -> Vec<Row> {
    let mut last = seed;
    let from = column(n, r, s, &mut last);
    let mut to = column(n, r, s, &mut last);
    for i in (1..to.len()).rev() {
        let other = draw(&mut last) % (i + 1);
        to.swap(i, other);
    }
    from.into_iter().zip(to).collect()
}

/// Joins the first n pairs that do, again and again. In a list in digit order the
/// parts of a block stand behind each other.
pub fn joined(n: usize, mut rows: Vec<Row>) -> Vec<Row> {
    let block = |rows: &[Row]| -> Option<Row> {
        let (from, to) = (rows[0].0.strip_suffix('1')?, rows[0].1.strip_suffix('1')?);
        let parts = (1..=n).map(|way| (format!("{from}{way}"), format!("{to}{way}")));
        let are_parts = !from.is_empty() && !to.is_empty() && parts.eq(rows.iter().cloned());
        are_parts.then(|| (from.to_string(), to.to_string()))
    };
    while let Some((place, row)) = (0..(rows.len() + 1).saturating_sub(n))
        .find_map(|place| Some((place, block(&rows[place..place + n])?)))
    {
        rows.splice(place..place + n, [row]);
    }
    rows
}

/// Whether a word of these pairs has over 16 digits.
pub fn too_long(rows: &[Row]) -> bool {
    let long = |word: &String| word.len() > DIGITS;
    rows.iter().any(|(from, to)| long(from) || long(to))
}

/// X of these fields, and L behind it where it is granted and asked for.
fn exercise(case: &mut Case, [n, r, s]: [usize; 3], seed: u64, listed: bool) {
    let record = format!("X|A|{n}|{r}|{s}|{seed}");
    let rows = made(n, r, s, seed);
    if rows.len() > PAIRS {
        return case.ask(&record, "no|5");
    }
    if too_long(&rows) {
        return case.ask(&record, "no|4");
    }
    let rows = joined(n, rows);
    case.ask(&record, &format!("ok|{}", rows.len()));
    if listed {
        case.list(&format!("P|A|{n}|{r}"), &rows);
    }
}

/// Every shape, with some splits and another seed each.
pub fn of_every_shape() -> Case {
    let mut case = Case::new("long-x-every-shape");
    for n in 2..=9 {
        for r in 1..=9 {
            let seed = 100_000_007 * (9 * n + r) as u64 % 2147483647;
            exercise(&mut case, [n, r, 1 + 20 / (n + r)], seed, true);
        }
    }
    case.ask("T", "ok|72");
    case
}

/// Every s from 0 to 99: in shape (2,1) by three seeds, of which 5 and 19 end in a
/// word of 17 digits, and in other shapes until the pairs are too many.
pub fn of_every_s() -> Case {
    let mut case = Case::new("long-x-every-s");
    for (n, r, seed) in [
        (2, 1, 5),
        (2, 1, 19),
        (2, 1, 42),
        (2, 9, 1246),
        (3, 1, 22),
        (3, 9, 1),
        (5, 4, 987_654_321),
        (9, 9, 2147483646),
    ] {
        for s in 0..=99 {
            exercise(&mut case, [n, r, s], seed, false);
        }
    }
    case
}

/// Words of 16 digits in both columns; 128 pairs; and what is just beyond: 129
/// pairs, words of 17 digits in either column, and both at once.
pub fn at_the_limits() -> Case {
    let mut case = Case::new("long-x-limits");
    exercise(&mut case, [2, 1, 99], 42, true);
    exercise(&mut case, [9, 8, 15], 1, true);
    for (fields, seed) in BEYOND {
        exercise(&mut case, fields, seed, false);
    }
    exercise(&mut case, [2, 9, 99], 2147483646, true);
    case.ask("T", "ok|3");
    case
}

/// A word of 17 digits in the from column, in the to column and in both, and one
/// that would go by a join; 129 pairs, and 129 of which three would join; 199 pairs
/// with words of 17 digits among them.
pub const BEYOND: [([usize; 3], u64); 7] = [
    ([2, 1, 99], 5),
    ([2, 1, 99], 19),
    ([2, 1, 99], 29),
    ([2, 1, 99], 195),
    ([3, 1, 64], 1),
    ([3, 1, 64], 1357),
    ([3, 1, 99], 22),
];
