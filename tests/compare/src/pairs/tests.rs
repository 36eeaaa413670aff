//! The pairs themselves: that they are what E6 speaks of, that they differ in what
//! the observed station can't see, and that the reference gives it the same replies.

use std::collections::BTreeMap;

use reference::{session, Desk, Right};

use super::{leak, pair, Leak, Pair, Side};
use crate::judge::lines;

const PAIRS: u64 = 400;

/// The desks of both sides at each record of the observed station.
fn desks_at_its_records(pair: &Pair) -> [Vec<(Vec<u8>, Desk)>; 2] {
    pair.sides.each_ref().map(|side| {
        let (mut desk, mut at, mut found) = (Desk::new(), 0, Vec::new());
        for line in lines(&side.input) {
            let its = side.turns.iter().any(|turn| turn.contains(&at));
            assert_eq!(its, desk.stations().named() == pair.station);
            if line.starts_with(b"Z\t") && line[2] < b'8' && line.len() == 4 {
                assert!(desk.open_plan().is_none(), "turns are whole");
            }
            if its {
                found.push((line.to_vec(), desk.clone()));
            }
            desk.feed(line, &mut Vec::new());
            at += line.len();
        }
        found
    })
}

/// The premise of E6, looked at record by record.
#[test]
fn pairs_agree_on_what_the_station_sees() {
    for seed in 0..PAIRS {
        let pair = pair(seed);
        let [one, other] = desks_at_its_records(&pair);
        assert_eq!(one.len(), other.len());
        for ((record, here), (same, there)) in one.iter().zip(&other) {
            assert_eq!(record, same, "pair {seed}");
            for slot in b'A'..=b'H' {
                let rights = [here, there].map(|desk| desk.stations().rights());
                let [right, beside] = rights.map(|rights| rights.of(pair.station, slot));
                assert_eq!(right, beside, "pair {seed}");
                if right > Right::Nothing {
                    assert_eq!(here.plan(slot), there.plan(slot), "pair {seed}");
                }
            }
        }
    }
}

/// They differ in hidden slots, held on one side and empty on the other too, in the
/// counts and rights of others, and in what was refused before.
#[test]
fn pairs_differ_in_what_the_station_does_not_see() {
    let mut found: BTreeMap<&str, usize> = BTreeMap::new();
    for seed in 0..PAIRS {
        let pair = pair(seed);
        let [one, other] = desks_at_its_records(&pair);
        for ((record, here), (_, there)) in one.iter().zip(&other) {
            let mut count = |kind, holds| *found.entry(kind).or_default() += usize::from(holds);
            let hidden = |slot: &u8| {
                let rights = here.stations().rights();
                rights.of(pair.station, *slot) == Right::Nothing
            };
            let hidden: Vec<u8> = (b'A'..=b'H').filter(hidden).collect();
            let apart = |slot: &u8| here.plan(*slot) != there.plan(*slot);
            let held = |slot: &u8| here.plan(*slot).is_some() != there.plan(*slot).is_some();
            let named = |slot: &u8| record.windows(2).any(|pair| pair == [b'\t', *slot]);
            count("hidden differs", hidden.iter().any(apart));
            count("hidden held once", hidden.iter().any(held));
            count(
                "named, hidden, held once",
                hidden.iter().any(|s| held(s) && named(s)),
            );
            let number = |desk: &Desk| (b'A'..=b'H').filter(|s| desk.plan(*s).is_some()).count();
            let survey = record == b"U\n" && number(here) != number(there);
            count("U with other numbers held", survey);
            let counts = [here, there].map(|desk| desk.stations().counts());
            count("counts", counts[0] != counts[1]);
            count("T with other sums", {
                let sums = counts.map(|counts| counts.iter().sum::<u64>());
                record == b"T\n" && sums[0] != sums[1]
            });
            let sums = [here, there].map(|desk| desk.pairs_held().number());
            count("H with other sums", record == b"H\n" && sums[0] != sums[1]);
            let rights = [here, there].map(|desk| desk.stations().rights());
            count("rights of others", rights[0] != rights[1]);
        }
    }
    assert!(found.values().all(|times| *times > 300), "{found:?}");
}

/// Every station is observed, and its records meet all replies: that is where two
/// sides could differ.
#[test]
fn pairs_meet_every_reply() {
    let mut replies: BTreeMap<String, usize> = BTreeMap::new();
    let mut stations = [0; 8];
    for seed in 0..PAIRS {
        let pair = pair(seed);
        stations[usize::from(pair.station)] += 1;
        for turn in 0..pair.sides[0].turns.len() {
            let mut desk = |input: &[u8]| Ok::<_, ()>(session(input));
            let text = pair.sides[0].replies(turn, &mut desk).expect("replies");
            for line in lines(&text) {
                let line = String::from_utf8_lossy(line).replace('\t', " ");
                let kind = match line.split(' ').next() {
                    Some("no") => line.trim().to_string(),
                    first => first.unwrap_or_default().trim().to_string(),
                };
                *replies.entry(kind).or_default() += 1;
            }
        }
    }
    for kind in [
        "no 1", "no 2", "no 3", "no 4", "no 7 T", "no 8", "no 9", "no 10", "no 11", "no 12",
        "no 17", "no 18", "no 19", "no 20", "ok", "P", "M", "E", "B", "A", "H",
    ] {
        let times = replies.get(kind).copied().unwrap_or(0);
        assert!(times > 10, "{times} of {kind}");
    }
    assert!(stations.iter().all(|times| *times > 20), "{stations:?}");
}

#[test]
fn the_reference_gives_the_station_the_same_replies() {
    for seed in 0..PAIRS {
        let found = leak(&pair(seed), |input| Ok::<_, ()>(session(input)));
        assert_eq!(found, Ok(None), "pair {seed}");
    }
}

/// A desk whose replies tell something of all input so far is seen in the first turn
/// where that differs.
#[test]
fn a_leak_is_told() {
    let side = |input: &str, turn: std::ops::Range<usize>| Side {
        input: input.into(),
        turns: vec![turn],
    };
    let pair = Pair {
        station: 1,
        sides: [side("Z\t1\nT\n", 4..6), side("X\nZ\t1\nT\n", 6..8)],
    };
    let told = |input: &[u8]| Ok::<_, ()>(vec![b'.'; lines(input).len().pow(2)]);
    let found = Leak {
        turn: 0,
        records: b"T\n".to_vec(),
        replies: [vec![b'.'; 3], vec![b'.'; 5]],
    };
    assert_eq!(leak(&pair, told), Ok(Some(found)));
    assert_eq!(leak(&pair, |input| Ok::<_, ()>(session(input))), Ok(None));
    assert_eq!(leak(&pair, |_| Err("hung")), Err("hung"));
}
