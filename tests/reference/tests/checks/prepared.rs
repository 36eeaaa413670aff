//! A desk with plans of two shapes in it, and the check of its reply to one
//! more record: the ground of the checks of refusals.

use reference::{Desk, PairsHeld, Plan, Stations, STATIONS};

use crate::paper::lines;

/// A desk with ψ in A, an exchange of two belts in B (shape 3, 2), nothing in
/// C and a plan with words of 16 digits in D. Station 0 made it and has this count.
pub fn prepared(count: u64) -> Desk {
    let mut counts = [0; STATIONS];
    counts[0] = count;
    typed_by(0, counts)
}

/// The same desk with these counts. The station that is named typed the plans, so
/// that they are three of its changes.
pub fn typed_by(station: u8, mut counts: [u64; STATIONS]) -> Desk {
    counts[usize::from(station)] -= 3;
    let stations = Stations::new(station, counts);
    let mut desk = Desk::with_contents(Default::default(), None, stations);
    let mut out = Vec::new();
    desk.feed(
        &lines(
            "P A 2 1
             M 111 11
             M 112 121
             M 12 122
             E
             P B 3 2
             M 1 2
             M 2 1
             E
             K A 14 D",
        ),
        &mut out,
    );
    assert_eq!(out, b"ok\t3\nok\t2\nok\t16\n");
    desk
}

/// All that a desk holds besides an open plan.
fn contents(desk: &Desk) -> (Vec<Option<Plan>>, PairsHeld, Stations) {
    let plans = (b'A'..=b'H').map(|slot| desk.plan(slot).cloned());
    let pairs_held = desk.pairs_held().clone();
    (plans.collect(), pairs_held, desk.stations().clone())
}

/// Asserts the reply to one more line, and that a refusal "changes nothing
/// else".
pub fn check_on(mut desk: Desk, record: &[u8], reply: &str) {
    let before = contents(&desk);
    let mut out = Vec::new();
    desk.feed(&[record, b"\n"].concat(), &mut out);
    let shown = String::from_utf8_lossy(record).into_owned();
    assert_eq!(String::from_utf8(out).unwrap(), reply, "to {shown}");
    if reply.starts_with("no") {
        assert_eq!(contents(&desk), before, "after {shown}");
    }
}

/// The same on the prepared desk, with spaces for tabs in both texts.
pub fn check(record: &str, reply: &str) {
    let record = record.replace(' ', "\t");
    let reply = reply.replace(' ', "\t") + "\n";
    check_on(prepared(3), record.as_bytes(), &reply);
}
