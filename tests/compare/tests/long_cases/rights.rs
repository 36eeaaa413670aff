//! Every right on every slot that a record names (E6), held and empty, and every
//! right of every station.

use crate::case::Case;

/// A slot with the right on it and whether it holds a plan.
type Place = (char, usize, bool);

/// The plan in slot H, which changes 11 and 12: it is its own inverse, and *it then
/// it* moves nothing.
const SWAP: &str = "X|H|2|1|2|1";

/// Every choice of a right and of a plan or none for these slots.
fn choices(slots: &str) -> Vec<Vec<Place>> {
    slots.chars().fold(vec![Vec::new()], |chosen, slot| {
        let more = |places: &Vec<Place>| {
            let places = places.clone();
            (0..6).map(move |one| {
                let place = (slot, one % 3, one / 3 == 0);
                [&places[..], &[place]].concat()
            })
        };
        chosen.iter().flat_map(more).collect()
    })
}

/// Station 0 fills or empties the slots and gives the rights, and another station
/// sends the record.
fn attempt(case: &mut Case, station: usize, places: &[Place], record: &str, reply: &str) {
    case.ask("Z|0", "ok");
    for (slot, right, held) in places {
        case.ask(&format!("I|H|{slot}"), "ok|2");
        if !held {
            case.ask(&format!("C|{slot}"), "ok");
        }
        case.ask(&format!("G|{station}|{slot}|{right}"), "ok");
    }
    case.ask(&format!("Z|{station}"), "ok");
    case.ask(record, reply);
}

/// The reply to a record that reads the slots in front and writes those behind: 20
/// where a right is missing, then 9 where a slot that has to be held isn't.
fn reply<'a>(read: &[Place], written: &[Place], emptied: bool, done: &'a str) -> &'a str {
    let lacks = |places: &[Place], need| places.iter().any(|(_, right, _)| *right < need);
    let empty = |places: &[Place]| places.iter().any(|(_, _, held)| !held);
    if lacks(read, 1) || lacks(written, 2) {
        "no|20"
    } else if empty(read) || emptied && empty(written) {
        "no|9"
    } else {
        done
    }
}

/// F with every right on a, b and c, each of them held and empty.
pub fn of_following() -> Case {
    let mut case = Case::new("long-rights-of-following");
    case.ask(SWAP, "ok|2");
    for (turn, places) in choices("ABC").into_iter().enumerate() {
        let answer = reply(&places[..2], &places[2..], false, "ok|1");
        attempt(&mut case, 1 + turn % 7, &places, "F|A|B|C", answer);
    }
    case.ask("U", "H|2|1|2\nok|1");
    case
}

/// The other records that name slots, with every right on each of them.
pub fn of_each_record() -> Case {
    let mut case = Case::new("long-rights-of-each-record");
    case.ask(SWAP, "ok|2");
    for (turn, places) in choices("AB").into_iter().enumerate() {
        let station = 1 + turn % 7;
        let (read, written) = places.split_at(1);
        for (record, answer) in [
            ("S|A|B", reply(&places, &[], false, "ok|1")),
            ("S|B|A", reply(&places, &[], false, "ok|1")),
            ("I|A|B", reply(read, written, false, "ok|2")),
            ("K|A|2|B", reply(read, written, false, "ok|1")),
        ] {
            attempt(&mut case, station, &places, record, answer);
        }
        let shown = |(_, right, held): &&Place| *right > 0 && *held;
        let shown = places.iter().filter(shown).map(|place| place.0);
        let shown: Vec<char> = shown.chain(['H']).collect();
        let lines = shown.iter().map(|slot| format!("{slot}|2|1|2\n"));
        let list = format!("{}ok|{}", lines.collect::<String>(), shown.len());
        attempt(&mut case, station, &places, "U", &list);
    }
    for (turn, place) in choices("A").into_iter().enumerate() {
        let station = 7 - turn % 7;
        let listing = "P|A|2|1\nM|11|12\nM|12|11\nE";
        let block = "B|11|12|1\nB|12|11|2\nok|2";
        for (record, answer) in [
            ("L|A", reply(&place, &[], false, listing)),
            ("W|A|11", reply(&place, &[], false, "ok|12|1")),
            ("W|A|1", reply(&place, &[], false, block)),
            ("W|A|3", reply(&place, &[], false, "no|4")),
            ("C|A", reply(&[], &place, true, "ok")),
            ("X|A|2|1|0|1", reply(&[], &place, false, "ok|1")),
            ("X|A|2|1|0|0", reply(&[], &place, false, "no|17")),
            ("P|A|0|1", reply(&[], &place, false, "no|3")),
            ("P|A|2|1", reply(&[], &place, false, "")),
        ] {
            attempt(&mut case, station, &place, record, answer);
        }
        // the plan is open where the right is there, and kept without a second look
        let opened = place[0].1 == 2;
        case.ask("M|1|1", if opened { "" } else { "no|2" });
        case.ask("E", if opened { "ok|1" } else { "no|2" });
    }
    case
}

/// The right of each station on each slot has a place of its own: here it is what
/// the number of the station and the place of the slot leave over 3.
pub fn of_every_station() -> Case {
    let mut case = Case::new("long-rights-of-every-station");
    let right = |station: usize, slot: char| match station {
        0 => 2,
        _ => (station + slot as usize) % 3,
    };
    for slot in 'A'..='H' {
        case.ask(&format!("X|{slot}|2|1|2|1"), "ok|2");
    }
    for station in 1..8 {
        for slot in 'A'..='H' {
            let right = right(station, slot);
            case.ask(&format!("G|{station}|{slot}|{right}"), "ok");
        }
    }
    for station in (0..8).rev() {
        case.ask(&format!("Z|{station}"), "ok");
        let has = |need| move |slot: &char| right(station, *slot) >= need;
        for slot in 'A'..='H' {
            let read = if has(1)(&slot) { "ok|12|1" } else { "no|20" };
            case.ask(&format!("W|{slot}|11"), read);
            let written = if has(2)(&slot) { "ok|2" } else { "no|20" };
            case.ask(&format!("I|{slot}|{slot}"), written);
        }
        let shown: Vec<char> = ('A'..='H').filter(has(1)).collect();
        let lines = shown.iter().map(|slot| format!("{slot}|2|1|2\n"));
        let lines: String = lines.collect();
        case.ask("U", &format!("{lines}ok|{}", shown.len()));
        let before = if station == 0 { 8 } else { 0 };
        let changes = before + ('A'..='H').filter(has(2)).count();
        case.ask("T", &format!("ok|{changes}"));
    }
    case
}
