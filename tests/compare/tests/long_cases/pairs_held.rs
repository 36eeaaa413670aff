//! H with plans of many pairs (E8): all that eight slots can hold, plans that fall to
//! one pair, and plans of X of many sizes over each other.

use crate::case::{row, Case};
use crate::exercises::{joined, made};
use crate::plans::{flips, phi_everywhere, psi, still};

/// The slots and the sum of their pairs, beside a case that asks for it.
struct Held {
    case: Case,
    pairs: [usize; 8],
}

impl Held {
    fn new(name: &'static str) -> Held {
        let case = Case::new(name);
        Held {
            case,
            pairs: [0; 8],
        }
    }

    /// Enters that a slot now holds so many pairs, 0 if it was emptied, and asks.
    fn now(&mut self, slot: char, pairs: usize) {
        self.pairs[slot as usize - 'A' as usize] = pairs;
        self.ask();
    }

    fn ask(&mut self) {
        let sum: usize = self.pairs.iter().sum();
        self.case.ask("H", &format!("ok|{sum}"));
    }

    fn emptied(&mut self, slot: char) {
        self.case.ask(&format!("C|{slot}"), "ok");
        self.now(slot, 0);
    }
}

/// Eight times 128 pairs, past 255 and 256 and up to 1,024. Over each other they stay as
/// many. The square of A moves nothing and is one pair; so is a power 0 over a full slot.
pub fn of_eight_full_slots() -> Case {
    let mut held = Held::new("long-h-eight-full-slots");
    for (start, slot) in (1..).zip('A'..='H') {
        let opening = format!("P|{slot}|2|1");
        held.case.load(&opening, &flips(start.min(7)), "ok|128");
        held.now(slot, 128);
    }
    held.case.ask("I|A|B", "ok|128");
    held.ask();
    held.case.load("P|C|2|1", &flips(7), "ok|128");
    held.ask();
    for (record, slot) in [("K|A|2|A", 'A'), ("K|B|0|B", 'B'), ("K|A|0|C", 'C')] {
        held.case.ask(record, "ok|1");
        held.now(slot, 1);
    }
    held.case.ask("F|H|H|D", "ok|1");
    held.now('D', 1);
    held.case.ask("F|H|A|D", "ok|128");
    held.now('D', 128);
    for slot in "HADCGBFE".chars() {
        held.emptied(slot);
    }
    held.case.ask("T", "ok|23");
    held.case
}

/// An open plan of 128 pairs isn't held, whatever ends it: H itself, a 129th pair, a
/// column, or an E, which keeps one pair of the 128.
pub fn of_open_plans() -> Case {
    let mut held = Held::new("long-h-open-plan");
    held.case.load("P|A|2|1", &psi(), "ok|3");
    held.now('A', 3);
    for (record, reply) in [("H", "no|2"), ("M|1|1", "no|5"), ("M|1|3", "no|4")] {
        held.case.ask("P|A|2|1", "");
        for (from, to) in still() {
            held.case.ask(&format!("M|{from}|{to}"), "");
        }
        held.case.ask(record, reply);
        held.ask();
    }
    let mut short = flips(1);
    short.pop();
    held.case.load("P|B|2|1", &short, "no|7|F");
    held.ask();
    held.case.load("P|B|2|1", &still(), "ok|1");
    held.now('B', 1);
    held.case.load("P|B|2|1", &flips(1), "ok|128");
    held.now('B', 128);
    held.case.load("P|B|2|1", &still(), "ok|1");
    held.now('B', 1);
    held.case
}

/// Results that break a limit leave the sum, here with plans of 108 pairs: the square
/// has 144, and the fourth power would be one pair a belt.
pub fn of_refused_results() -> Case {
    let mut held = Held::new("long-h-refused-results");
    for slot in ['A', 'B'] {
        let opening = format!("P|{slot}|2|9");
        held.case.load(&opening, &phi_everywhere(), "ok|108");
        held.now(slot, 108);
    }
    held.case.load("P|C|2|1", &[row("1", "1")], "ok|1");
    held.now('C', 1);
    for (record, reply) in [
        ("F|A|B|A", "no|11"),
        ("F|A|B|C", "no|11"),
        ("K|A|2|B", "no|11"),
        ("K|A|4|C", "no|11"),
        ("K|B|1001|B", "no|12"),
        ("F|A|C|B", "no|10"),
        ("I|D|A", "no|9"),
    ] {
        held.case.ask(record, reply);
        held.ask();
    }
    held.case.ask("I|A|C", "ok|108");
    held.now('C', 108);
    // one pair a belt
    held.case.ask("F|A|C|B", "ok|9");
    held.now('B', 9);
    held.case.ask("K|A|0|A", "ok|9");
    held.now('A', 9);
    held.emptied('C');
    held.case
}

/// Shapes and splits whose plans have 1 to 128 pairs.
const EXERCISED: [[usize; 3]; 9] = [
    [2, 1, 12],
    [9, 8, 15],
    [3, 1, 2],
    [5, 4, 31],
    [2, 2, 0],
    [2, 1, 1],
    [4, 4, 40],
    [7, 9, 9],
    [2, 9, 30],
];

/// Plans of X by turns over all slots, of which every fifth turn empties one.
pub fn of_exercises() -> Case {
    let mut held = Held::new("long-h-exercises");
    for turn in 0..90 {
        let slot = "CFAHDBEG".as_bytes()[turn * 3 % 8] as char;
        if turn % 5 == 4 && held.pairs[slot as usize - 'A' as usize] > 0 {
            held.emptied(slot);
            continue;
        }
        let [n, r, s] = EXERCISED[turn % 9];
        let seed = 1 + 97 * turn as u64;
        let pairs = joined(n, made(n, r, s, seed)).len();
        let record = format!("X|{slot}|{n}|{r}|{s}|{seed}");
        held.case.ask(&record, &format!("ok|{pairs}"));
        held.now(slot, pairs);
    }
    held.case
}
