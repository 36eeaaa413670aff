//! Same action exactly for the same listing, on random plans of all shapes,
//! and listings read back into a desk. Like and unlike plans are counted.

use reference::{session, Desk, Plan, Refusal, Shape, Word};

use crate::random::{shapes, Random};

/// Long codes that show any difference of two plans: where they differ, they
/// differ below a word of the common expansion, and that is a from-word.
fn telling_codes(random: &mut Random, a: &Plan, b: &Plan) -> Vec<Word> {
    let from_words = a.pairs().keys().chain(b.pairs().keys());
    from_words
        .map(|word| random.extended(a.shape(), word, 34))
        .collect()
}

/// Two plans on the same shape: now and then the same one by another way.
fn two_plans(random: &mut Random, shape: Shape) -> (Plan, Plan) {
    let a = random.plan(shape, 16);
    let b = match random.below(4) {
        0 => random.plan(shape, 16),
        1 => a.inverse(),
        2 => {
            let c = random.plan(shape, 16);
            let round = a.then(&c).and_then(|ac| ac.then(&c.inverse()));
            round.unwrap_or(c)
        }
        _ => {
            // The pairs of a with two to-words exchanged.
            let mut typed = a.pair_list();
            let last = typed.len() - 1;
            let (one, other) = (typed[0].1.clone(), typed[last].1.clone());
            typed[0].1 = other;
            typed[last].1 = one;
            Plan::keep(shape, &typed).unwrap()
        }
    };
    (a, b)
}

#[test]
fn same_action_exactly_for_same_listing() {
    let mut random = Random::new(19);
    let (mut alike, mut unlike) = (0, 0);
    for shape in shapes() {
        for _ in 0..30 {
            let (a, b) = two_plans(&mut random, shape);
            let codes = telling_codes(&mut random, &a, &b);
            let same_images = codes.iter().all(|code| a.image(code) == b.image(code));
            assert_eq!(a.same(&b), Ok(same_images));
            assert_eq!(a.list(b'A') == b.list(b'A'), same_images);
            assert_eq!(a == b, same_images);
            alike += usize::from(same_images);
            unlike += usize::from(!same_images);
        }
    }
    assert!(alike > 300 && unlike > 300, "{alike} {unlike}");
}

#[test]
fn other_shapes_are_refused() {
    let mut random = Random::new(20);
    let all = shapes();
    let mut different = 0;
    for _ in 0..200 {
        let (one, other) = (*random.pick(&all), *random.pick(&all));
        let (a, b) = (random.plan(one, 12), random.plan(other, 12));
        if one != other {
            assert_eq!(a.then(&b), Err(Refusal::ShapesDiffer));
            assert_eq!(a.same(&b), Err(Refusal::ShapesDiffer));
            different += 1;
        }
    }
    assert!(different > 100);
}

#[test]
fn listings_read_back() {
    let mut random = Random::new(22);
    for shape in shapes() {
        for _ in 0..6 {
            let size = random.size();
            let plan = random.plan(shape, size);
            let listing = plan.list(b'C');
            let mut desk = Desk::new();
            let mut out = Vec::new();
            desk.feed(&listing, &mut out);
            assert_eq!(out, format!("ok\t{}\n", plan.size()).into_bytes());
            assert_eq!(desk.plan(b'C'), Some(&plan));
            let again = session(&[listing.as_slice(), b"L\tC\n"].concat());
            assert_eq!(again, [out, listing].concat());
        }
    }
}
