//! Records by chance for the turns of a pair: all letters, on slots that a choice
//! gives, with plans of a few shapes, so that they often meet their like. Some are
//! wrong. A plan comes as a whole, or breaks off where it is refused.

use sessions::Rng;

/// Pairs of small plans of shape (2, 1), the last of which is none.
const PLANS: &[&[(&str, &str)]] = &[
    &[("1", "1")],
    &[("11", "12"), ("12", "11")],
    &[("111", "11"), ("112", "121"), ("12", "122")],
    &[("111", "122"), ("112", "121"), ("12", "11")],
    &[("11", "11"), ("121", "121"), ("122", "1221")],
];

const SHAPES: &[&str] = &["2\t1", "2\t1", "2\t1", "3\t1", "2\t2"];
const POWERS: &[&str] = &["0", "1", "-1", "2", "3", "15", "1000", "1001"];
const CODES: &[&str] = &["1", "11", "12", "112", "1122", "21", "3", "", "x"];

/// Lines that are wrong by themselves.
const WRONG: &[&str] = &[
    "",
    "Y",
    "T\t",
    "H\t",
    "Z\t8",
    "Z\t12",
    "M\t1\t1",
    "E",
    "G\t1\tA\t3",
    "X\tA",
];

/// The lines of a record, or of a whole plan, each with its byte 10. Every slot in it
/// is one that the choice gives.
pub fn some(rng: &mut Rng, slot: &mut dyn FnMut(&mut Rng) -> u8) -> Vec<u8> {
    let [a, b, c] = [slot(rng), slot(rng), slot(rng)].map(char::from);
    let shape = *rng.pick(SHAPES);
    let line = match rng.below(25) {
        0..=3 => return typed(rng, a),
        4..=6 => {
            let (splits, seed) = (rng.below(7), rng.between(0, 40));
            format!("X\t{a}\t{shape}\t{splits}\t{seed}")
        }
        7..=9 => format!("F\t{a}\t{b}\t{c}"),
        10 | 11 => format!("I\t{a}\t{b}"),
        12 | 13 => format!("K\t{a}\t{}\t{b}", rng.pick(POWERS)),
        14 => format!("C\t{a}"),
        15 | 16 => format!("S\t{a}\t{b}"),
        17 | 18 => format!("W\t{a}\t{}", rng.pick(CODES)),
        19 => format!("L\t{a}"),
        20 | 21 => "U".into(),
        22 | 23 => "T".into(),
        _ => (*rng.pick(WRONG)).into(),
    };
    format!("{line}\n").into_bytes()
}

/// G with any station, slot and right.
pub fn gift(rng: &mut Rng) -> Vec<u8> {
    let slot = char::from(b'A' + rng.below(8) as u8);
    let (station, right) = (rng.below(9), rng.below(3));
    format!("G\t{station}\t{slot}\t{right}\n").into_bytes()
}

/// A plan for a slot, sometimes spoiled, interrupted or of another shape.
fn typed(rng: &mut Rng, slot: char) -> Vec<u8> {
    let rows = *rng.pick(PLANS);
    let shape = if rng.chance(90) { "2\t1" } else { "2\t0" };
    let mut lines = vec![format!("P\t{slot}\t{shape}")];
    lines.extend(rows.iter().map(|(from, to)| format!("M\t{from}\t{to}")));
    match rng.below(8) {
        0 => lines.push(if slot < 'E' { "T" } else { "H" }.into()),
        1 => lines.push("M\t1\t0".into()),
        _ => {}
    }
    lines.push("E".into());
    lines
        .iter()
        .flat_map(|line| format!("{line}\n").into_bytes())
        .collect()
}
