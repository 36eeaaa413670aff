//! The pairs held (E8) beside the second implementation: H in a line and by number of
//! every station, changes of all kinds with H behind each, and values with any sum.

use super::side_by_side::SideBySide;
use crate::calls::Calls;
use crate::random::desks::{full, prepared, restrict, some_desk, with_psi_open};
use crate::random::jobs::{any_job, some_job};
use crate::random::Rng;
use crate::values::{Desk, Job, STATIONS};

/// H with any fields, which it doesn't have.
fn asking(rng: &mut Rng) -> Job {
    any_job(rng, b'H')
}

/// Desks of all kinds, with and without a plan open.
fn desks(rng: &mut Rng) -> Vec<Desk> {
    let mut all = vec![Desk::FRESH, prepared(), with_psi_open(&prepared(), b'A')];
    for _ in 0..10 {
        let mut desk = some_desk(rng);
        restrict(rng, &mut desk);
        let full = full(rng);
        all.extend([desk, full, full.without_open()]);
    }
    all
}

/// H of every station, with any right and at any count, in a line and by number: one
/// answer and one desk.
pub fn beside_lines(calls: &dyn Calls) {
    let mut rng = Rng::new(801);
    let mut both = SideBySide::new(calls, &Desk::FRESH);
    for mut desk in desks(&mut rng) {
        for station in 0..STATIONS as u32 {
            desk.control.station = station;
            *desk.count() = *rng.pick(&[0, 5, 3_999_999_999, 4_000_000_000]);
            both.start(&desk);
            let said = both.line(b"H");
            let (reply, after) = (both.reply().to_vec(), *both.desk());
            both.start(&desk);
            let done = both.job(asking(&mut rng));
            assert_eq!((said.number, said.column), (done.number, done.column));
            assert_eq!(after, *both.desk(), "after H on {desk:?}");
            if done.number == 0 {
                assert_eq!(reply, format!("ok\t{}\n", done.value).into_bytes());
                let kind = if done.value > 255 { "wide" } else { "narrow" };
                both.tally.count(kind);
            }
        }
    }
    both.tally.demand(20, &["H 0", "H 2", "H 19"]);
    both.tally.demand(5, &["wide", "narrow"]);
}

/// Changes by jobs and by lines on desks of all kinds, done and refused, and what
/// station 0 hears behind each.
pub fn behind_changes(calls: &dyn Calls) {
    let mut rng = Rng::new(802);
    let mut both = SideBySide::new(calls, &Desk::FRESH);
    for desk in desks(&mut rng) {
        both.start(&desk);
        for _ in 0..40 {
            let before = both.desk().control.pairs;
            match rng.below(4) {
                0 => both.line(some_change(&mut rng).as_bytes()).number,
                _ => both.job(some_job(&mut rng)).number,
            };
            let after = both.desk().control.pairs;
            both.tally.count_if(after > before, "risen");
            both.tally.count_if(after < before, "fallen");
            let named = both.desk().control.station;
            both.line(b"Z\t0");
            both.line(b"H");
            both.line(format!("Z\t{named}").as_bytes());
        }
        assert!(both.is_desk(), "a desk stays a desk");
    }
    both.tally.demand(50, &["risen", "fallen"]);
    both.tally
        .demand(20, &["H 0", "9", "10", "11", "12", "16", "20"]);
}

/// A line that changes a slot if it is done, over any other or over itself.
fn some_change(rng: &mut Rng) -> String {
    let slot = |rng: &mut Rng| char::from(b'A' + rng.below(8) as u8);
    let (a, b, c) = (slot(rng), slot(rng), slot(rng));
    match rng.below(8) {
        0 => format!("C\t{a}"),
        1 => format!("I\t{a}\t{a}"),
        2 => format!("F\t{a}\t{b}\t{b}"),
        3 => format!("F\t{a}\t{a}\t{a}"),
        4 => format!("K\t{a}\t0\t{b}"),
        5 => format!("K\t{a}\t-1\t{c}"),
        6 => format!("X\t{a}\t2\t{}\t0\t1", 1 + rng.below(9)),
        _ => format!("X\t{a}\t9\t8\t{}\t1", rng.below(17)),
    }
}

/// Every sum up to twice what slots can hold, all that end in the same byte as the right
/// one and many others; and chosen ones by every call: a value with another sum than its
/// slots count gets 15 and stays as it came.
pub fn damaged(calls: &dyn Calls) {
    let mut rng = Rng::new(803);
    let mut both = SideBySide::new(calls, &Desk::FRESH);
    let mut value = prepared();
    let right = value.control.pairs;
    let same_byte = (right % 256..=u16::MAX).step_by(256);
    let many = (2048..=u16::MAX).step_by(37);
    for sum in (0..2048).chain(same_byte).chain(many) {
        value.control.pairs = sum;
        both.start(&value);
        assert_eq!(both.is_desk(), sum == right, "{sum} pairs");
    }
    for desk in desks(&mut rng) {
        let right = desk.control.pairs;
        let open = desk.blocks[8].pairs as u16;
        let slots: Vec<u16> = desk.blocks.iter().map(|block| block.pairs as u16).collect();
        let near = [right.wrapping_sub(1), right + 1, right + open, 0, u16::MAX];
        let far = (0..16).map(|bit| right ^ 1 << bit).chain([right + 1024]);
        let without = slots[..8].iter().map(|pairs| right - pairs);
        for sum in near.into_iter().chain(far).chain(without).chain([right]) {
            let mut value = desk;
            value.control.pairs = sum;
            let sound = sum == right;
            both.start(&value);
            assert_eq!(both.is_desk(), sound, "{value:?}");
            for line in [&b"H"[..], b"T", b"C\tA", b"E", b""] {
                both.start(&value);
                let number = both.line(line).number;
                assert_eq!(number == 15, !sound, "{value:?}");
            }
            for job in [asking(&mut rng), some_job(&mut rng)] {
                both.start(&value);
                let number = both.job(job).number;
                assert_eq!(number == 15, !sound, "{value:?}");
                assert!(sound || *both.desk() == value);
            }
        }
    }
    both.tally.demand(30, &["is a desk", "is no desk", "H 15"]);
}
