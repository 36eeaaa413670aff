//! U with plans of one, two and three digits of pairs (E2): the most pairs first,
//! and equal ones by slot letter.

use crate::case::{row, Case};
use crate::plans::{flips, phi_everywhere, psi, turned_belts};

/// Eight numbers of pairs from 1 to 128, in four shapes. Their digits have
/// another order: 99 and 9 would come before 128. Then a square that moves
/// nothing brings the largest to the end, and an inverse the smallest to the
/// front, before its equal.
pub fn of_large_plans() -> Case {
    let mut case = Case::new("long-u-order");
    case.load("P|A|2|1", &psi(), "ok|3");
    case.load("P|B|4|9", &turned_belts(&[1, 2, 3, 4, 5, 6]), "ok|99");
    case.ask("K|A|14|C", "ok|16");
    case.ask("K|A|7|D", "ok|9");
    case.load("P|E|5|2", &[row("1", "2"), row("2", "1")], "ok|2");
    case.ask("K|A|0|F", "ok|1");
    case.load("P|G|2|9", &phi_everywhere(), "ok|108");
    case.load("P|H|2|1", &flips(1), "ok|128");
    let (large, b) = ("H|2|1|128", "B|4|9|99");
    let small = "C|2|1|16\nD|2|1|9\nA|2|1|3\nE|5|2|2";
    let reply = format!("{large}\nG|2|9|108\n{b}\n{small}\nF|2|1|1\nok|8");
    case.ask("U", &reply);
    case.ask("K|H|2|H", "ok|1");
    let reply = format!("G|2|9|108\n{b}\n{small}\nF|2|1|1\nH|2|1|1\nok|8");
    case.ask("U", &reply);
    case.ask("I|G|F", "ok|108");
    let reply = format!("F|2|9|108\nG|2|9|108\n{b}\n{small}\nH|2|1|1\nok|8");
    case.ask("U", &reply);
    case.ask("T", "ok|10");
    case
}
