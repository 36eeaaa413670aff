//! The places of W (change request E7) on random plans of all shapes: what W names is
//! a line of the listing that L gives, whatever the order of typing and whichever
//! record kept the plan.

use reference::{session, Plan, Word};

use crate::random::{shapes, Random};

/// P, M and E records for slot A, the rows in this order.
fn typed(plan: &Plan, rows: &[(Word, Word)]) -> Vec<u8> {
    let shape = plan.shape();
    let mut records = format!("P\tA\t{}\t{}\n", shape.arity, shape.roots).into_bytes();
    for (from, to) in rows {
        records.extend([b"M\t", from.as_slice(), b"\t", to, b"\n"].concat());
    }
    records.extend(b"E\n");
    records
}

/// The rows of a plan, some of them split into their parts, in any order.
fn split_and_shuffled(random: &mut Random, plan: &Plan) -> Vec<(Word, Word)> {
    let shape = plan.shape();
    let mut rows = Vec::new();
    let mut room = 128 - plan.size();
    for (from, to) in plan.pair_list() {
        let short = from.len().max(to.len()) < 16;
        let more = usize::from(shape.arity) - 1;
        if short && room >= more && random.one_in(3) {
            room -= more;
            rows.extend(shape.parts(&from).into_iter().zip(shape.parts(&to)));
        } else {
            rows.push((from, to));
        }
    }
    random.shuffle(&mut rows);
    rows
}

/// What stands behind the last tab of a line, and the line before it.
fn last_field(line: &str) -> (&str, usize) {
    let (before, place) = line.rsplit_once('\t').expect("a line has fields");
    (before, place.parse().expect("a place is a number"))
}

/// The plan in A is listed, and W is asked for the from-word of every M line: the
/// k-th line is the one with the place k.
fn places_are_lines_of_the_listing(before: &[u8], plan: &Plan) {
    let mut input = [before, b"L\tA\n"].concat();
    for from in plan.pairs().keys() {
        input.extend([b"W\tA\t", from.as_slice(), b"\n"].concat());
    }
    let replies = String::from_utf8(session(&input)).expect("replies are text");
    let lines: Vec<&str> = replies.lines().collect();
    let (rest, images) = lines.split_at(lines.len() - plan.size());
    let listed = &rest[rest.len() - plan.size() - 1..rest.len() - 1];
    assert!(listed.iter().all(|line| line.starts_with("M\t")));
    for (k, (image, line)) in (1..).zip(images.iter().zip(listed)) {
        let (image, place) = last_field(image);
        let to = line.rsplit('\t').next().expect("a to-word");
        assert_eq!((image, place), (&*format!("ok\t{to}"), k));
    }
}

#[test]
fn places_do_not_follow_the_order_of_typing() {
    let mut random = Random::new(71);
    let (mut plans, mut joined, mut many) = (0, 0, 0);
    for shape in shapes() {
        for _ in 0..4 {
            let size = random.size();
            let plan = random.plan(shape, size);
            let rows = split_and_shuffled(&mut random, &plan);
            joined += usize::from(rows.len() > plan.size());
            many += usize::from(plan.size() > 99);
            plans += 1;
            places_are_lines_of_the_listing(&typed(&plan, &rows), &plan);
        }
    }
    assert!(
        plans == 288 && joined > 100 && many > 20,
        "{plans} {joined} {many}"
    );
}

#[test]
fn places_of_plans_that_records_keep() {
    let mut random = Random::new(72);
    let (mut inverses, mut squares) = (0, 0);
    for shape in shapes() {
        let size = random.size();
        let plan = random.plan(shape, size);
        let before = typed(&plan, &plan.pair_list());
        let inverse = [&before[..], b"I\tA\tA\n"].concat();
        places_are_lines_of_the_listing(&inverse, &plan.inverse());
        inverses += usize::from(plan.inverse() != plan);
        if let Ok(square) = plan.then(&plan) {
            for record in [&b"F\tA\tA\tA\n"[..], b"K\tA\t2\tA\n"] {
                let before = [&before[..], record].concat();
                places_are_lines_of_the_listing(&before, &square);
            }
            squares += 1;
        }
        let (arity, roots) = (shape.arity, shape.roots);
        let seed = 1 + random.next() % 1000;
        let made = format!("X\tA\t{arity}\t{roots}\t3\t{seed}\n");
        let plan = Plan::exercise(shape, 3, seed).expect("three splits are within the limits");
        places_are_lines_of_the_listing(made.as_bytes(), &plan);
    }
    assert!(inverses > 40 && squares > 40, "{inverses} {squares}");
}
