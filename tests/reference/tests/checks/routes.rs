//! Routes and matches on random plans of all shapes, by looking at every pair:
//! images with their places, codes too short and wrong codes, all of them counted.

use reference::{Image, Match, Plan, Refusal};

use crate::random::{shapes, Random};

#[test]
fn routes_and_short_codes() {
    let mut random = Random::new(21);
    let (mut images, mut short, mut wrong) = (0, 0, 0);
    for shape in shapes() {
        for _ in 0..10 {
            let plan = random.plan(shape, 40);
            for _ in 0..6 {
                let length = 1 + random.below(5);
                let mut code = random.code(shape, length);
                if random.one_in(5) {
                    let place = random.below(code.len());
                    code[place] = *random.pick(b"0:/ 9");
                }
                let (matched, expected) = expected_route(&plan, &code);
                assert_eq!(plan.matched(&code), matched);
                match &expected {
                    Ok(_) => images += 1,
                    Err(Refusal::CodeTooShort) => short += 1,
                    Err(_) => wrong += 1,
                }
                assert_eq!(plan.route(&code), expected);
            }
        }
    }
    assert!(
        images > 300 && short > 300 && wrong > 300,
        "{images} {short} {wrong}"
    );
}

/// A match and a route by looking at every pair of the listing.
fn expected_route(plan: &Plan, code: &[u8]) -> (Match, Result<Image, Refusal>) {
    let none = Match {
        tail: code.len(),
        place: 0,
    };
    if !plan.shape().is_code(code) {
        return (none, Err(Refusal::BadWord));
    }
    let listed = plan.pair_list();
    let mut matching = (1..).zip(&listed).filter(|(_, (f, _))| code.starts_with(f));
    match matching.next() {
        Some((place, (from, to))) => {
            assert!(matching.next().is_none(), "no from-word begins another");
            let (_, tail) = code.split_at(from.len());
            let digits = [to, tail].concat();
            let tail = tail.len();
            (Match { tail, place }, Ok(Image { digits, place }))
        }
        None => {
            let mut longer = listed.iter().filter(|(f, _)| f.starts_with(code));
            assert!(longer.next().is_some(), "each belt is covered");
            (none, Err(Refusal::CodeTooShort))
        }
    }
}
