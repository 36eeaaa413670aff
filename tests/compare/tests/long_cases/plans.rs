//! Plans of up to 128 pairs: kept and joined, followed and raised to powers, at
//! the limits and beyond.

use crate::case::{of, row, Case, Row};

/// All words of belt 1 with seven ways of two, in order: 128 of them.
pub fn words_of_seven_ways() -> Vec<String> {
    let way = |number: usize, place: usize| if number >> place & 1 == 0 { '1' } else { '2' };
    (0..128)
        .map(|number| {
            let ways: String = (0..7).rev().map(|place| way(number, place)).collect();
            format!("1{ways}")
        })
        .collect()
}

/// The word with every way from `start` on turned round, 1 for 2.
pub fn flipped(word: &str, start: usize) -> String {
    let turn = |(place, digit)| match digit {
        '1' if place >= start => '2',
        '2' if place >= start => '1',
        _ => digit,
    };
    word.chars().enumerate().map(turn).collect()
}

/// All words of seven ways, each to the one with the ways from `start` on
/// turned round. The last way always turns, so two parts of a block never
/// have their images in order, and nothing joins.
pub fn flips(start: usize) -> Vec<Row> {
    let words = words_of_seven_ways();
    let image = |word: String| (word.clone(), flipped(&word, start));
    words.into_iter().map(image).collect()
}

pub fn still() -> Vec<Row> {
    let words = words_of_seven_ways();
    words.into_iter().map(|word| (word.clone(), word)).collect()
}

/// The plan called ψ.
pub fn psi() -> Vec<Row> {
    vec![row("111", "11"), row("112", "121"), row("12", "122")]
}

/// The plan called φ, behind any word.
pub fn phi_behind(word: &str) -> Vec<Row> {
    let pairs = [("11", "22"), ("12", "21"), ("2", "1")];
    pairs
        .iter()
        .map(|(from, to)| (format!("{word}{from}"), format!("{word}{to}")))
        .collect()
}

/// 128 pairs pass, and all of them are kept where nothing joins.
pub fn kept() -> Case {
    let mut case = Case::new("long-128-pairs-kept");
    case.load("P|A|2|1", &flips(1), "ok|128");
    case.list("P|A|2|1", &flips(1));
    case.ask("K|A|2|B", "ok|1");
    case.list("P|B|2|1", &[row("1", "1")]);
    case.ask("I|A|C", "ok|128");
    case.ask("S|A|C", "ok|1");
    case.ask("U", "A|2|1|128\nC|2|1|128\nB|2|1|1\nok|3");
    case
}

/// 128 pairs that move nothing join to one, whatever their order.
pub fn joined() -> Case {
    let mut case = Case::new("long-128-pairs-joined");
    let mut rows = still();
    case.load("P|A|2|1", &rows, "ok|1");
    rows.reverse();
    case.load("P|B|2|1", &rows, "ok|1");
    rows.rotate_left(37);
    case.load("P|C|2|1", &rows, "ok|1");
    case.list("P|C|2|1", &[row("1", "1")]);
    case.ask("T", "ok|3");
    case
}

/// The 129th pair is 5, unless one of its words is 4.
pub fn too_many() -> Case {
    let mut case = Case::new("long-129-pairs");
    for (last, reply) in [
        ("M|1|1", "no|5"),
        ("M|11111111|11111111", "no|5"),
        ("M||1", "no|4"),
        ("M|1|3", "no|4"),
        ("M|1|11111111111111111", "no|4"),
        ("M|1", "no|1"),
    ] {
        case.ask("P|A|2|1", "");
        for (from, to) in still() {
            case.ask(&format!("M|{from}|{to}"), "");
        }
        case.ask(last, reply);
        case.ask("E", "no|2");
    }
    case.ask("U", "ok|0");
    case
}

/// *a then b* with 129 pairs that do not join, and with exactly 128. Plan B
/// exchanges the two parts of 1 1111111 alone, so one pair of A is split.
pub fn followed_too_far() -> Case {
    let mut case = Case::new("long-following-129-pairs");
    case.load("P|A|2|1", &flips(1), "ok|128");
    let mut rows = vec![row("111111111", "111111112"), row("111111112", "111111111")];
    for ones in (0..7).rev() {
        let word = format!("1{}2", of("1", ones));
        rows.push((word.clone(), word));
    }
    case.load("P|B|2|1", &rows, "ok|9");
    case.ask("F|A|B|C", "no|11");
    case.ask("F|B|A|C", "no|11");
    case.ask("F|A|B|Z", "no|8");
    case.load("P|D|2|1", &[row("11", "12"), row("12", "11")], "ok|2");
    case.ask("F|A|D|C", "ok|128");
    case.list("P|C|2|1", &flips(2));
    case.ask("F|B|B|B", "ok|1");
    case.ask("T", "ok|5");
    case
}

/// Shape (4,9): the two ways behind some belts turned round, 1 for 4 and 2
/// for 3; the other belts stay as they are.
pub fn turned_belts(belts: &[usize]) -> Vec<Row> {
    let mut rows = Vec::new();
    for belt in 1..=9 {
        if !belts.contains(&belt) {
            rows.push(row(&belt.to_string(), &belt.to_string()));
            continue;
        }
        for (x, y) in (1..=4).flat_map(|x| (1..=4).map(move |y| (x, y))) {
            rows.push((format!("{belt}{x}{y}"), format!("{belt}{}{}", 5 - x, 5 - y)));
        }
    }
    rows
}

/// The table of *a then b* has 144 pairs, 16 for each of nine belts. The
/// belts 4 to 6 come back and join, so 6 times 16 and 3 pairs are kept.
pub fn reduced_in_time() -> Case {
    let mut case = Case::new("long-following-reduces-in-time");
    case.load("P|A|4|9", &turned_belts(&[1, 2, 3, 4, 5, 6]), "ok|99");
    case.load("P|B|4|9", &turned_belts(&[4, 5, 6, 7, 8, 9]), "ok|99");
    case.ask("F|A|B|C", "ok|99");
    case.list("P|C|4|9", &turned_belts(&[1, 2, 3, 7, 8, 9]));
    case.ask("F|C|B|D", "ok|99");
    case.ask("S|D|A", "ok|1");
    case.ask("F|A|A|E", "ok|9");
    case.list("P|E|4|9", &turned_belts(&[]));
    case.ask("T", "ok|5");
    case
}

/// Shape (2,9): φ behind each of the 36 words of a belt and two ways, with 3
/// pairs at each, 108 in all.
pub fn phi_everywhere() -> Vec<Row> {
    let mut rows = Vec::new();
    for belt in 1..=9 {
        for ways in ["11", "12", "21", "22"] {
            rows.extend(phi_behind(&format!("{belt}{ways}")));
        }
    }
    rows
}

/// A plan of 108 pairs that has as many in its inverse and in its third power;
/// its square has 4 where it has 3, 144 in all; its fourth power moves nothing.
pub fn power_in_between() -> Case {
    let mut case = Case::new("long-power-in-between");
    case.load("P|A|2|9", &phi_everywhere(), "ok|108");
    case.ask("K|A|1|B", "ok|108");
    for k in ["2", "3", "4", "-2", "-3", "-4", "1000", "-1000"] {
        case.ask(&format!("K|A|{k}|B"), "no|11");
    }
    case.ask("F|A|A|B", "no|11");
    case.ask("S|A|B", "ok|1");
    case.ask("K|A|-1|C", "ok|108");
    case.ask("I|A|D", "ok|108");
    case.ask("S|C|D", "ok|1");
    case.ask("S|A|D", "ok|0");
    case.ask("F|A|D|E", "ok|9");
    case.ask("K|A|0|F", "ok|9");
    case.ask("S|E|F", "ok|1");
    case.ask("K|A|1001|F", "no|12");
    case.ask("T", "ok|6");
    case
}
