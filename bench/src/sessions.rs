//! Inputs of a desk that are measured: eight plans of 128 pairs, typed into the
//! slots A to H, and then many records of one kind, made from a fixed seed. The
//! plans permute the words of one basis, so that products and powers of them
//! stay within the limits. X makes plans of its own.

use library::random::bases::{even_basis, splits_within};
use library::random::{plans, Rng};
use reference::{Plan, Shape, Word};

/// The shape of all plans that are measured: that of binary trees.
const SHAPE: Shape = Shape { arity: 2, roots: 1 };
const PAIRS: usize = 128;

/// An input, how many records of its kind there are to share the time, and how
/// many records are to be refused.
pub struct Session {
    pub name: &'static str,
    pub records: usize,
    pub refused: usize,
    pub input: String,
}

/// All inputs, in the order of the table. Operands are in A to D, results go
/// to E to H. M by itself is a plan that is typed and then dropped, because a
/// record that doesn't belong to it is refused.
pub fn sessions() -> Vec<Session> {
    let rng = &mut Rng::new(2026);
    let words = even_basis(rng, SHAPE, splits_within(SHAPE, PAIRS));
    let typed = typed(rng, &words);
    let session = |name, records: usize, record: &mut dyn FnMut(usize) -> String| {
        let mut input = typed.concat();
        (0..records).for_each(|place| input += &record(place));
        Session {
            name,
            records,
            refused: 0,
            input,
        }
    };
    let mut all = vec![
        session("W, 12 to 40 digits", 1_000_000, &mut |_| {
            let length = rng.between(12, 40);
            route(rng, &words, length)
        }),
        session("W, 1,000 digits", 50_000, &mut |_| route(rng, &words, 1000)),
        session("F, 128 pairs", 10_000, &mut |_| {
            let [a, b] = [(); 2].map(|()| letter(rng, b'A', 4));
            format!("F\t{a}\t{b}\t{}\n", letter(rng, b'E', 4))
        }),
        session("I, 128 pairs", 50_000, &mut |_| {
            format!("I\t{}\t{}\n", letter(rng, b'A', 4), letter(rng, b'E', 4))
        }),
        session("K, power 10, 128 pairs", 1_000, &mut |_| {
            let a = letter(rng, b'A', 4);
            format!("K\t{a}\t10\t{}\n", letter(rng, b'E', 4))
        }),
        session("a plan: P, 128 M, E", 1_000, &mut |place| {
            typed[place % 8].clone()
        }),
        session("M", 2_000, &mut |place| {
            typed[place % 8].replace("E\n", "W\tA\t1\n")
        }),
    ];
    if let Some(pairs) = all.last_mut() {
        pairs.refused = pairs.records;
        pairs.records *= PAIRS;
    }
    all.push(session("W block, 2 to 128 pairs", 20_000, &mut |_| {
        front(rng, &words)
    }));
    all.extend(exercises(rng, &typed.concat()));
    all.push(session("T", 1_000_000, &mut |_| "T\n".to_string()));
    all.push(session("H", 1_000_000, &mut |_| "H\n".to_string()));
    all.push(session("Z", 1_000_000, &mut |_| {
        format!("Z\t{}\n", letter(rng, b'0', 8))
    }));
    all.push(session("G", 1_000_000, &mut |_| {
        let (station, slot) = (letter(rng, b'1', 7), letter(rng, b'A', 8));
        format!("G\t{station}\t{slot}\t{}\n", letter(rng, b'0', 3))
    }));
    let limited = "G\t1\tE\t1\nG\t1\tF\t0\nG\t2\tA\t0\nZ\t1\n";
    all.push(session(
        "W, 12 to 40 digits, of station 1",
        1_000_000,
        &mut |place| {
            let length = rng.between(12, 40);
            let before = if place == 0 { limited } else { "" };
            before.to_string() + &route_in(rng, &words, length, 4)
        },
    ));
    all
}

/// X behind the typed plans: with few splits in every shape by turns, and with the
/// most, where a word of 17 digits comes up by some of the seeds.
fn exercises(rng: &mut Rng, typed: &str) -> [Session; 2] {
    let mut record = |shape: Shape, splits: u8, seed: u64| {
        let (slot, Shape { arity, roots }) = (letter(rng, b'E', 4), shape);
        let refused = Plan::exercise(shape, splits, seed).is_err();
        let line = format!("X\t{slot}\t{arity}\t{roots}\t{splits}\t{seed}\n");
        (line, usize::from(refused))
    };
    let mut few = |place: u64| {
        let (arity, roots) = (2 + place % 8, 1 + place / 8 % 9);
        let [arity, roots] = [arity, roots].map(|number| number as u8);
        record(Shape { arity, roots }, 10, place + 1)
    };
    let few: Vec<(String, usize)> = (0..20_000).map(&mut few).collect();
    let many = (0..2_000).map(|place| record(SHAPE, 99, place + 1));
    let many: Vec<(String, usize)> = many.collect();
    [("X, 10 splits, every shape", few), ("X, 99 splits", many)].map(|(name, records)| Session {
        name,
        records: records.len(),
        refused: records.iter().map(|(_, refused)| refused).sum(),
        input: records
            .iter()
            .fold(typed.to_string(), |input, (line, _)| input + line),
    })
}

/// The records that keep a plan of 128 pairs in each slot, in any order.
fn typed(rng: &mut Rng, words: &[Word]) -> Vec<String> {
    (b'A'..=b'H')
        .map(|slot| loop {
            let mut rows = plans::permuted(rng, words);
            if plans::kept(SHAPE, &rows).size() == PAIRS {
                rng.shuffle(&mut rows);
                let pairs: String = rows
                    .iter()
                    .map(|(from, to)| format!("M\t{}\t{}\n", digits(from), digits(to)))
                    .collect();
                return format!("P\t{}\t2\t1\n{pairs}E\n", char::from(slot));
            }
        })
        .collect()
}

fn digits(word: &Word) -> String {
    word.iter().map(|digit| char::from(*digit)).collect()
}

/// One of so many letters or digits.
fn letter(rng: &mut Rng, first: u8, count: usize) -> char {
    char::from(first + rng.below(count) as u8)
}

/// A record that asks for the block of a front of a word of the basis, of any
/// length from the belt on.
fn front(rng: &mut Rng, words: &[Word]) -> String {
    let word = digits(rng.pick(words));
    let front = &word[..rng.between(1, word.len() - 1)];
    format!("W\t{}\t{front}\n", letter(rng, b'A', 8))
}

/// A record that routes a code of this many digits, or of as many as the word
/// of the basis has that it begins with.
fn route(rng: &mut Rng, words: &[Word], length: usize) -> String {
    route_in(rng, words, length, 8)
}

/// The same in one of the first slots.
fn route_in(rng: &mut Rng, words: &[Word], length: usize, slots: usize) -> String {
    let mut code = digits(rng.pick(words));
    while code.len() < length {
        code.push(if rng.chance(50) { '1' } else { '2' });
    }
    format!("W\t{}\t{code}\n", letter(rng, b'A', slots))
}
