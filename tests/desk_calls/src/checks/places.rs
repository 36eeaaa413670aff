//! The places of W (E7) beside the second implementation: every place and every block
//! of full plans, each in a buffer that it fills and in one that is a byte short, down
//! to the longest replies there are.

use std::collections::BTreeSet;

use library::packed::{plan_value, unpack};
use library::random::bases::{deep_basis, every_shape, most_splits};
use library::random::plans;
use reference::Shape;

use super::side_by_side::SideBySide;
use crate::calls::Calls;
use crate::random::Rng;
use crate::values::{Desk, LONGEST_REPLY};

/// Every from-word and every front of full plans with one belt or two, and of the
/// others some from-words and the belts.
pub fn of_full_plans(calls: &dyn Calls) {
    let mut rng = Rng::new(901);
    let mut both = SideBySide::new(calls, &Desk::FRESH);
    let mut longest = 0;
    for shape in every_shape() {
        let splits = most_splits(shape);
        let deep = deep_basis(&mut rng, shape, splits);
        let rows = match shape.roots % 2 {
            0 => plans::paired(&mut rng, shape, splits),
            _ => plans::permuted(&mut rng, &deep),
        };
        let plan = plans::kept(shape, &rows);
        let mut desk = Desk::FRESH;
        desk.hold(5, &plan_value(&plan));
        both.start(&desk);
        let every = shape.roots < 3;
        let words = plan.pairs().keys();
        for (place, word) in (1..).zip(words) {
            if every || rng.chance(10) {
                ask(&mut both, word);
                both.tally.count(format!("place {place}"));
            }
        }
        for front in fronts(&desk) {
            if every || front.len() == 1 {
                longest = longest.max(ask(&mut both, &front));
            }
        }
    }
    let places: Vec<String> = (1..=128).map(|place| format!("place {place}")).collect();
    both.tally.demand(1, &places);
    both.tally.demand(100, &["0", "14", "a block"]);
    assert!(longest > 3000, "the longest block has {longest} bytes");
}

/// W of a code in F, in a buffer of just the right length and in one that is a byte
/// short; says how long the reply is.
fn ask(both: &mut SideBySide, code: &[u8]) -> usize {
    let line = [b"W\tF\t", code].concat();
    let length = both.line(&line).length;
    assert!(length > 0 && length <= LONGEST_REPLY, "{length} bytes");
    assert_eq!(both.line_into(&line, length).number, 0, "it just fits");
    let short = both.line_into(&line, length - 1);
    assert_eq!(short.number, 14, "a byte short");
    length
}

/// Every proper beginning of a from-word of F.
fn fronts(desk: &Desk) -> BTreeSet<Vec<u8>> {
    let plan = desk.value(5);
    let words = plan.from[..plan.pairs].iter().map(|word| unpack(*word));
    let proper = |word: Vec<u8>| -> Vec<Vec<u8>> {
        let lengths = 1..word.len();
        lengths.map(|length| word[..length].to_vec()).collect()
    };
    words.flat_map(proper).collect()
}

/// The block of the belt under a plan of 128 pairs of which 112 have words of 16
/// digits in both columns, and eight of 15: as long as replies get, and nothing of it
/// is written where a byte is missing.
pub fn of_long_words(calls: &dyn Calls) {
    let shape = Shape { arity: 2, roots: 1 };
    let mut deep = vec![vec![b'1'; 9]];
    for _ in 0..6 {
        deep = deep.iter().flat_map(|word| shape.parts(word)).collect();
    }
    let (split, last) = deep.split_at(56);
    let mut column: Vec<Vec<u8>> = split.iter().flat_map(|word| shape.parts(word)).collect();
    column.extend(last.iter().cloned());
    column.extend(
        (1..9)
            .rev()
            .map(|ones| [vec![b'1'; ones], vec![b'2']].concat()),
    );
    let long = column.iter().filter(|word| word.len() == 16).count();
    assert_eq!((column.len(), long), (128, 112));
    let mut turned = column.clone();
    turned[..112].reverse();
    turned[112..120].reverse();
    let rows: Vec<_> = column.into_iter().zip(turned).collect();
    let plan = plans::kept(shape, &rows);
    assert_eq!(plan.size(), 128, "nothing joins");
    let mut desk = Desk::FRESH;
    desk.hold(5, &plan_value(&plan));
    let mut both = SideBySide::new(calls, &desk);
    assert_eq!(ask(&mut both, b"1"), 4835);
    for room in [4617, 4618, 4619, 4834] {
        let answer = both.line_into(b"W\tF\t1", room);
        assert_eq!(answer.number, 14, "with {room} bytes");
    }
    for room in [4835, LONGEST_REPLY] {
        let answer = both.line_into(b"W\tF\t1", room);
        assert_eq!((answer.number, answer.length), (0, 4835));
    }
}
