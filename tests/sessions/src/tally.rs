//! Which replies an output holds and how often: a tally by kind, and the
//! kinds that a long run of sessions has to have met. Refusals 13, 14 and 15
//! are given by library calls alone, and 16 needs four thousand million
//! changes, so no session meets them. Of U not only the lines are counted but
//! also the replies that show something of their order, and of W where in the listing
//! its images are and its blocks begin; X, Z, G and H have to meet
//! their own refusals, some of which other records have too, and each record that
//! names slots has to lack a right now and then.

use std::collections::BTreeMap;
use std::fmt;

/// The refusals that sessions can meet, in the form of the tally.
const REFUSALS: &[&str] = &[
    "no 1", "no 2", "no 3", "no 4", "no 5", "no 6 F", "no 6 T", "no 7 F", "no 7 T", "no 8", "no 9",
    "no 10", "no 11", "no 12", "no 17", "no 18", "no 19", "no 20",
];

/// The other replies that sessions can meet.
const GRANTED: &[&str] = &[
    "ok", "ok value", "ok image", "P line", "M line", "E line", "U line", "B line",
];

/// The replies to U by which orders of its lines can be told apart: the lines
/// don't stand by their letters, or two of them have as many pairs.
pub const SURVEYS: &[&str] = &["U moved", "U tie"];

/// The replies of W by their places (E7): images with places of one, two and three
/// digits, and blocks that begin at the start of the listing and behind it.
pub const PLACES: &[&str] = &[
    "image at 1",
    "image to 9",
    "image to 99",
    "image to 128",
    "block at 1",
    "block to 99",
    "block to 128",
];

/// The replies that X alone has to meet.
pub const EXERCISES: &[&str] = &[
    "ok value", "no 1", "no 2", "no 3", "no 4", "no 5", "no 8", "no 17",
];

/// The replies that Z alone has to meet.
pub const NAMINGS: &[&str] = &["ok", "no 1", "no 2", "no 18"];

/// The replies that G alone has to meet.
pub const GRANTS: &[&str] = &["ok", "no 1", "no 2", "no 8", "no 18", "no 19"];

/// The replies that H alone has to meet.
pub const PAIRS_HELD: &[&str] = &["ok value", "no 1", "no 2", "no 19"];

/// The reply that each record has to meet which names a slot and needs a right.
pub const RIGHTS: &[&str] = &["no 20"];

/// How often each kind of reply came up.
#[derive(Default, Clone, PartialEq, Eq, Debug)]
pub struct Tally {
    counts: BTreeMap<String, u64>,
}

/// Counts the reply lines of an output by their kind, the replies to U, whose lines
/// are closed by another, by what they show, and those of W by their places, a block
/// by that of its first line.
pub fn tally(output: &[u8]) -> Tally {
    let mut tally = Tally::default();
    let mut held = Vec::new();
    let mut in_block = false;
    for line in output.split_inclusive(|&byte| byte == b'\n') {
        let line = line.strip_suffix(b"\n").unwrap_or(line);
        let kind = kind(line);
        if kind == "U line" {
            held.push(line);
        } else {
            tally.count_survey(&held);
            held.clear();
        }
        let begins_block = kind == "B line" && !in_block;
        in_block = kind == "B line";
        if begins_block {
            tally.raise(&format!("block {}", reach(line)));
        } else if kind == "ok image" {
            tally.raise(&format!("image {}", reach(line)));
        }
        tally.raise(&kind);
    }
    tally
}

/// How far down the listing the place of a line is. A block that doesn't begin at its
/// start is behind it, whether its place has one digit or two.
fn reach(line: &[u8]) -> &'static str {
    let block = line.starts_with(b"B");
    match last_field(line) {
        b"1" => "at 1",
        [_] if !block => "to 9",
        [_] | [_, _] => "to 99",
        _ => "to 128",
    }
}

/// The last field of a line, of one of U the number of pairs, of one of W the place.
fn last_field(line: &[u8]) -> &[u8] {
    let mut fields = line.rsplit(|&byte| byte == b'\t');
    fields.next().unwrap_or(line)
}

fn kind(line: &[u8]) -> String {
    let fields: Vec<&[u8]> = line.split(|&byte| byte == b'\t').collect();
    match fields.as_slice() {
        [b"ok"] => "ok".to_string(),
        [b"ok", _] => "ok value".to_string(),
        [b"ok", _, _] => "ok image".to_string(),
        [b"no", ..] => String::from_utf8_lossy(line).replace('\t', " "),
        [b"P", _, _, _] => "P line".to_string(),
        [b"M", _, _] => "M line".to_string(),
        [b"E"] => "E line".to_string(),
        // A front has a belt at least, so that its from-words have more than one digit;
        // n has one.
        [b"B", from, _, _] if from.len() > 1 => "B line".to_string(),
        [slot, _, _, _] if slot.len() == 1 => "U line".to_string(),
        _ => "other".to_string(),
    }
}

impl Tally {
    fn raise(&mut self, kind: &str) {
        *self.counts.entry(kind.to_string()).or_default() += 1;
    }

    /// Counts what the lines of one U show.
    fn count_survey(&mut self, held: &[&[u8]]) {
        if !held.is_sorted_by_key(|line| line[0]) {
            self.raise("U moved");
        }
        let in_a_row = |pair: &[&[u8]]| last_field(pair[0]) == last_field(pair[1]);
        if held.windows(2).any(in_a_row) {
            self.raise("U tie");
        }
    }

    /// Adds the counts of another tally to this one.
    pub fn add(&mut self, other: &Tally) {
        for (kind, count) in &other.counts {
            *self.counts.entry(kind.clone()).or_default() += count;
        }
    }

    pub fn count(&self, kind: &str) -> u64 {
        self.counts.get(kind).copied().unwrap_or(0)
    }

    /// The kinds that came up with their counts, in one line.
    pub fn line(&self) -> String {
        let parts = self.counts.iter();
        let parts: Vec<String> = parts
            .map(|(kind, count)| format!("{kind}: {count}"))
            .collect();
        parts.join(", ")
    }

    /// The kinds that a full range of sessions has to meet and that this
    /// tally has not; each refusal for a column counts on its own.
    pub fn missing(&self) -> Vec<&'static str> {
        let known = [REFUSALS, GRANTED, SURVEYS, PLACES].concat();
        self.missing_of(&known)
    }

    /// Those of some kinds that this tally has not.
    pub fn missing_of(&self, kinds: &[&'static str]) -> Vec<&'static str> {
        let kinds = kinds.iter().copied();
        kinds.filter(|kind| self.count(kind) == 0).collect()
    }
}

impl fmt::Display for Tally {
    fn fmt(&self, out: &mut fmt::Formatter<'_>) -> fmt::Result {
        let granted = GRANTED.iter().chain(SURVEYS).chain(PLACES);
        let known = granted.chain(REFUSALS).copied();
        for kind in known.clone() {
            writeln!(out, "  {kind:<12} {:>9}", self.count(kind))?;
        }
        for (kind, count) in &self.counts {
            if !known.clone().any(|name| name == kind) {
                writeln!(out, "  {kind:<12} {count:>9}")?;
            }
        }
        Ok(())
    }
}

#[cfg(test)]
mod tests {
    use super::*;

    #[test]
    fn each_line_is_counted_under_its_kind() {
        let output =
            b"ok\t3\nok\nno\t12\nno\t7\tT\nP\tA\t2\t1\nM\t1\t1\nE\nB\t11\t1\t1\nB\t2\t1\t1\nok\t1\nok\t11\t2\n";
        let tally = tally(output);
        assert_eq!(tally.count("ok value"), 2);
        let once = [
            "ok", "ok image", "no 12", "no 7 T", "P line", "M line", "E line", "B line", "U line",
        ];
        assert!(once.iter().all(|kind| tally.count(kind) == 1));
        assert_eq!(tally.count("no 7 F"), 0);
        assert_eq!(tally.count("other"), 0);
    }

    #[test]
    fn a_kind_that_never_came_up_is_missing() {
        let all: String = REFUSALS
            .iter()
            .map(|kind| kind.replace(' ', "\t") + "\n")
            .collect();
        let granted = "ok\nok\t1\t1\nP\tA\t2\t1\nM\t1\t1\nE\nB\t11\t1\t1\nok\t1\t2\n\
                       ok\t1\t10\nB\t11\t1\t9\nok\t1\t128\nB\t11\t1\t127\n";
        let surveys = "H\t2\t1\t4\nA\t2\t1\t3\nB\t9\t1\t3\nok\t3\n";
        let mut tally = tally((all.clone() + granted + surveys).as_bytes());
        assert!(tally.missing().is_empty());
        for kind in ["no 11", "no 6 T", "U tie"] {
            tally.counts.remove(kind);
        }
        assert_eq!(tally.missing(), ["no 6 T", "no 11", "U tie"]);
        assert!(tally.missing_of(EXERCISES).is_empty());
        tally.counts.remove("no 17");
        assert_eq!(tally.missing_of(EXERCISES), ["no 17"]);
        assert!(tally.missing_of(NAMINGS).is_empty());
        tally.counts.remove("no 18");
        assert_eq!(tally.missing_of(NAMINGS), ["no 18"]);
        assert_eq!(tally.missing_of(GRANTS), ["no 18"]);
        assert!(tally.missing_of(PAIRS_HELD).is_empty());
        assert!(tally.missing_of(RIGHTS).is_empty());
        for kind in ["no 19", "no 20"] {
            tally.counts.remove(kind);
        }
        assert_eq!(tally.missing_of(GRANTS), ["no 18", "no 19"]);
        assert_eq!(tally.missing_of(RIGHTS), ["no 20"]);
        assert_eq!(tally.missing_of(PAIRS_HELD), ["no 19"]);
    }

    /// A reply to U is closed by its number, so that two of them aren't one.
    #[test]
    fn the_orders_of_u_are_counted() {
        for (output, moved, tie) in [
            ("ok\t0\n", 0, 0),
            ("H\t2\t1\t9\nok\t1\n", 0, 0),
            ("A\t2\t1\t9\nB\t2\t1\t4\nok\t2\n", 0, 0),
            ("B\t2\t1\t9\nA\t2\t1\t4\nok\t2\n", 1, 0),
            ("A\t2\t1\t4\nB\t9\t9\t4\nok\t2\n", 0, 1),
            ("A\t2\t1\t14\nB\t2\t1\t4\nok\t2\n", 0, 0),
            ("C\t2\t1\t9\nA\t2\t1\t4\nB\t2\t1\t4\nok\t3\n", 1, 1),
            ("B\t2\t1\t4\nok\t1\nA\t2\t1\t4\nok\t1\n", 0, 0),
            (
                "B\t2\t1\t4\nA\t2\t1\t2\nok\t2\nB\t2\t1\t4\nA\t2\t1\t2\nok\t2\n",
                2,
                0,
            ),
        ] {
            let tally = tally(output.as_bytes());
            let seen = SURVEYS.iter().map(|kind| tally.count(kind));
            assert_eq!(seen.collect::<Vec<u64>>(), [moved, tie], "{output}");
        }
    }

    /// A block is counted by its first line; an ok of two fields closes it.
    #[test]
    fn the_places_of_w_are_counted() {
        for (output, seen) in [
            ("ok\t1\nok\t12\n", [0, 0, 0, 0, 0, 0, 0]),
            ("ok\t1\t1\nok\t1\t1\n", [2, 0, 0, 0, 0, 0, 0]),
            ("ok\t1\t2\nok\t1\t9\nok\t1\t10\n", [0, 2, 1, 0, 0, 0, 0]),
            ("ok\t1\t99\nok\t1\t100\nok\t1\t128\n", [0, 0, 1, 2, 0, 0, 0]),
            ("B\t11\t1\t1\nB\t12\t2\t2\nok\t2\n", [0, 0, 0, 0, 1, 0, 0]),
            ("B\t11\t1\t2\nB\t12\t2\t3\nok\t2\n", [0, 0, 0, 0, 0, 1, 0]),
            (
                "B\t11\t1\t99\nB\t12\t2\t100\nok\t2\nB\t11\t1\t100\nok\t1\n",
                [0, 0, 0, 0, 0, 1, 1],
            ),
        ] {
            let tally = tally(output.as_bytes());
            let counts = PLACES.iter().map(|kind| tally.count(kind));
            assert_eq!(counts.collect::<Vec<u64>>(), seen, "{output}");
        }
    }

    #[test]
    fn tallies_add_up() {
        let mut sum = tally(b"ok\nno\t1\n");
        sum.add(&tally(b"no\t1\nno\t2\n"));
        assert_eq!((sum.count("no 1"), sum.count("no 2")), (2, 1));
    }

    #[test]
    fn an_empty_output_and_an_empty_line_are_told_apart() {
        assert_eq!(tally(b""), Tally::default());
        assert_eq!(tally(b"\n").count("other"), 1);
        assert_eq!(tally(b"o").count("other"), 1);
    }
}
