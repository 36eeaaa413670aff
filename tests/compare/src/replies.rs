//! The replies of a range of sessions, counted by the letters of their records: what
//! came up, and what has to and did not.

use crate::judge::Step;
use sessions::{tally, Tally, EXERCISES, GRANTS, NAMINGS, PAIRS_HELD, RIGHTS};
use std::collections::BTreeMap;

/// From so many seeds on, a reply that never came up is a failure.
const FULL_RANGE: u64 = 200;

/// The replies to the records of each letter, over all sessions.
pub type Replies = BTreeMap<char, Tally>;

/// The replies that the records of one letter have to meet.
const OWN: [(char, &[&str]); 13] = [
    ('X', EXERCISES),
    ('Z', NAMINGS),
    ('G', GRANTS),
    ('H', PAIRS_HELD),
    ('P', RIGHTS),
    ('X', RIGHTS),
    ('F', RIGHTS),
    ('I', RIGHTS),
    ('K', RIGHTS),
    ('S', RIGHTS),
    ('W', RIGHTS),
    ('L', RIGHTS),
    ('C', RIGHTS),
];

/// What the replies of a range of seeds come to: those that never came up, if any,
/// from any record or from one that has its own, and whether that is a failure.
pub fn verdict(replies: &Replies, seeds: u64) -> Option<(bool, String)> {
    let mut missing: Vec<String> = total(replies)
        .missing()
        .into_iter()
        .map(Into::into)
        .collect();
    for (letter, kinds) in OWN {
        let own = replies.get(&letter).cloned().unwrap_or_default();
        let own = own.missing_of(kinds);
        missing.extend(own.iter().map(|kind| format!("{kind} to {letter}")));
    }
    if missing.is_empty() {
        return None;
    }
    Some((seeds >= FULL_RANGE, missing.join(", ")))
}

/// The tally of all letters.
pub fn total(replies: &Replies) -> Tally {
    let mut all = Tally::default();
    replies.values().for_each(|replies| all.add(replies));
    all
}

/// Counts the replies to these records under their letters.
pub fn count(replies: &mut Replies, steps: &[Step]) {
    for step in steps {
        let letter = operation(&step.record);
        let replies = replies.entry(letter).or_default();
        replies.add(&tally(&step.reply));
    }
}

/// The letter of a record, or a question mark where it has no known one.
fn operation(record: &[u8]) -> char {
    let body = record.strip_suffix(b"\n").unwrap_or(record);
    let letter = body.split(|&byte| byte == b'\t').next();
    match letter {
        Some([letter]) if b"PMEFIKSWLCTUXZGH".contains(letter) => *letter as char,
        _ => '?',
    }
}

#[cfg(test)]
mod tests {
    use super::*;
    use crate::judge::expected;
    use reference::Desk;
    use sessions::{PLACES, SURVEYS};
    use std::collections::BTreeSet;

    #[test]
    fn a_reply_that_never_came_up_fails_a_full_range_only() {
        let few = Replies::from([('C', tally(b"ok\nno\t1\n")), ('X', tally(b"no\t17\n"))]);
        let (fails, missing) = verdict(&few, FULL_RANGE).unwrap();
        assert!(fails && missing.contains("no 12") && !missing.contains("no 1,"));
        assert!(missing.contains("no 1 to X") && !missing.contains("no 17"));
        assert!(missing.contains("ok to Z") && missing.contains("no 18 to Z"));
        assert!(missing.contains("no 19 to G") && missing.contains("no 20 to S"));
        assert!(missing.contains("no 19 to H") && missing.contains("ok value to H"));
        assert!(!verdict(&few, FULL_RANGE - 1).unwrap().0);
    }

    #[test]
    fn a_full_range_of_sessions_meets_every_reply() {
        let mut replies = Replies::new();
        for seed in 0..FULL_RANGE {
            count(&mut replies, &expected(&sessions::session(seed)));
        }
        assert_eq!(verdict(&replies, FULL_RANGE), None);
        let all = total(&replies);
        assert!(all.count("B line") > 10_000, "{}", all.line());
        for (kinds, least) in [(SURVEYS, 200), (PLACES, 40)] {
            for kind in kinds {
                assert!(all.count(kind) > least, "{kind}: {}", all.line());
            }
        }
        assert_eq!(all.count("no 13") + all.count("other"), 0);
        for (letter, kinds) in OWN {
            let own = &replies[&letter];
            for kind in kinds {
                assert!(own.count(kind) > 15, "{kind} to {letter}: {}", own.line());
            }
            let least = if kinds == RIGHTS { 25 } else { 800 };
            assert!(own.count(kinds[0]) > least, "to {letter}: {}", own.line());
        }
    }

    /// Where all stations have as many changes, T says nothing of whose count it is.
    #[test]
    fn stations_come_to_counts_of_their_own() {
        let mut apart = 0;
        for seed in 0..FULL_RANGE {
            let mut desk = Desk::new();
            desk.feed(&sessions::session(seed), &mut Vec::new());
            let counts = desk.stations().counts();
            let different: BTreeSet<u64> = counts.into_iter().collect();
            apart += u64::from(different.len() > 3);
        }
        assert!(apart > FULL_RANGE / 2, "{apart} sessions");
    }

    #[test]
    fn a_record_is_counted_under_its_letter() {
        assert_eq!(operation(b"P\tA\t2\t1\n"), 'P');
        assert_eq!(operation(b"T"), 'T');
        assert_eq!(operation(b"T\r\n"), '?');
        assert_eq!(operation(b"\n"), '?');
        assert_eq!(operation(b"X\t1\n"), 'X');
        assert_eq!(operation(b"Z\t1\n"), 'Z');
        assert_eq!(operation(b"G\t1\n"), 'G');
        assert_eq!(operation(b"H\n"), 'H');
        assert_eq!(operation(b"h\n"), '?');
        assert_eq!(operation(b"Y\t1\n"), '?');
    }
}
