//! The laws of a group on random plans of all shapes, with the limits of a
//! plan and without them. Granted and refused cases are counted.

use reference::maps::{self, Pairs};
use reference::plan::within_limits;
use reference::Plan;

use crate::random::{shapes, Random};

#[test]
fn group_laws() {
    let mut random = Random::new(14);
    let (mut granted, mut refused) = (0, 0);
    for shape in shapes() {
        let one = Plan::identity(shape);
        for _ in 0..24 {
            let sizes = [random.size(), random.size(), random.size()];
            let [a, b, c] = sizes.map(|size| random.plan(shape, size));
            assert_eq!(a.then(&one), Ok(a.clone()));
            assert_eq!(one.then(&a), Ok(a.clone()));
            assert_eq!(a.then(&a.inverse()), Ok(one.clone()));
            assert_eq!(a.inverse().then(&a), Ok(one.clone()));
            assert_eq!(a.inverse().inverse(), a);
            let left = a.then(&b).and_then(|ab| ab.then(&c));
            let right = b.then(&c).and_then(|bc| a.then(&bc));
            if let (Ok(left), Ok(right)) = (&left, &right) {
                assert_eq!(left, right);
                granted += 1;
            } else {
                refused += 1;
            }
            if let Ok(ab) = a.then(&b) {
                assert_eq!(b.inverse().then(&a.inverse()), Ok(ab.inverse()));
            }
        }
    }
    assert!(granted > 300 && refused > 100, "{granted} {refused}");
}

/// Without the limits associativity has no exceptions.
#[test]
fn associativity_without_limits() {
    let mut random = Random::new(15);
    let mut beyond = 0;
    for shape in shapes() {
        let follow = |a: &Pairs, b: &Pairs| maps::reduce(shape, maps::then(a, b));
        for _ in 0..8 {
            let sizes = [random.size(), random.size(), random.size()];
            let [a, b, c] = sizes.map(|size| random.plan(shape, size).pairs().clone());
            let left = follow(&follow(&a, &b), &c);
            assert_eq!(left, follow(&a, &follow(&b, &c)));
            beyond += usize::from(!within_limits(&left));
        }
    }
    assert!(beyond > 50, "{beyond}");
}
