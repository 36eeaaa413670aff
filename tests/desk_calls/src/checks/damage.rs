//! Values that are no desk: each must be refused with 15 by every call, and all
//! of it left as it came, with whatever was lent.

use library::PLACES;

use super::side_by_side::SideBySide;
use crate::calls::Calls;
use crate::random::damage::{all, damaged};
use crate::random::desks::{prepared, some_desk, with_psi_open};
use crate::random::jobs::{any_job, some_job};
use crate::random::Rng;
use crate::values::{Desk, BLOCKS, WORDS};

/// Lines that would be done, refused, or be no record at all.
const LINES: [&[u8]; 15] = [
    b"T",
    b"U",
    b"H",
    b"",
    b"C\tA",
    b"E",
    b"M\t1\t1",
    b"L\tA",
    b"W\tA\t1",
    b"P\tA\t2\t1",
    b"K\tA\t0\tB",
    b"X\tA\t2\t1\t3\t7",
    b"Z\t1",
    b"Z\t8",
    &[b'1'; 1101],
];

/// Every kind of damage, to random desks and to the prepared one.
pub fn of_every_kind(calls: &dyn Calls) {
    let mut rng = Rng::new(501);
    let mut both = SideBySide::new(calls, &Desk::FRESH);
    let desks = [prepared(), with_psi_open(&prepared(), b'C')];
    let random: Vec<Desk> = (0..12).map(|_| some_desk(&mut rng)).collect();
    for desk in desks.iter().chain(&random) {
        both.start(desk);
        assert!(both.is_desk(), "sound: {desk:?}");
        both.line(b"U");
        for damage in all() {
            let spoiled = damaged(&mut rng, desk, damage);
            both.start(&spoiled);
            let name = damage.0;
            assert!(!both.is_desk(), "{name}: {spoiled:?}");
            for line in LINES {
                let answer = both.line_into(line, *rng.pick(&[0, 5, 5000]));
                assert_eq!(answer.number, 15, "{name}");
            }
            for job in [some_job(&mut rng), any_job(&mut rng, b'T')] {
                assert_eq!(both.job(job).number, 15, "{name}");
            }
            assert!(*both.desk() == spoiled, "{name}");
        }
    }
    both.tally.demand(1000, &["15"]);
    both.tally.demand(10, &["is a desk", "is no desk"]);
}

/// One word or one field changed by chance, every value of the letter of the open
/// plan, and every bit of the sum: some are desks still. A number of pairs comes with
/// the sum as it was, and with one that is right for it.
pub fn of_any_word(calls: &dyn Calls) {
    let mut rng = Rng::new(502);
    let mut both = SideBySide::new(calls, &Desk::FRESH);
    let desks = [prepared(), with_psi_open(&prepared(), b'C'), Desk::FRESH];
    for desk in desks {
        for open in 0..=255 {
            let mut changed = desk;
            changed.opened = open;
            ask(&mut rng, &mut both, &changed);
        }
        // every fifth place, and the two at the ends of each column
        let ends = (0..WORDS / PLACES).flat_map(|c| [c * PLACES, c * PLACES + PLACES - 1]);
        for place in (0..WORDS).step_by(5).chain(ends) {
            let mut changed = desk;
            changed.columns[place] ^= 1 << rng.below(64);
            ask(&mut rng, &mut both, &changed);
        }
        for block in 0..BLOCKS {
            for value in [0, 1, 2, 3, 9, 10, 128, 129, 255] {
                let mut arity = desk;
                arity.blocks[block].arity = value;
                let mut roots = desk;
                roots.blocks[block].roots = value;
                let mut pairs = desk;
                pairs.blocks[block].pairs = value.into();
                let mut settled = pairs;
                settled.settle();
                for changed in [arity, roots, pairs, settled] {
                    ask(&mut rng, &mut both, &changed);
                }
            }
        }
        for bit in 0..16 {
            let mut changed = desk;
            changed.control.pairs ^= 1 << bit;
            ask(&mut rng, &mut both, &changed);
        }
    }
    both.tally
        .demand(10, &["is a desk", "is no desk", "0", "15"]);
}

fn ask(rng: &mut Rng, both: &mut SideBySide, desk: &Desk) {
    both.start(desk);
    both.is_desk();
    let line = *rng.pick(&LINES);
    both.line(line);
    both.start(desk);
    both.job(some_job(rng));
}
