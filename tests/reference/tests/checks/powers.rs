//! Powers on random plans of all shapes: their sums and products, zero and
//! negative ones, the limits on the way, and codes moved in turn. Granted and
//! refused cases are counted.

use reference::maps;
use reference::plan::within_limits;
use reference::{Plan, Refusal, Shape, Word};

use crate::random::{shapes, Random};

#[test]
fn powers_add_and_multiply() {
    let mut random = Random::new(16);
    let (mut sums, mut products, mut refused) = (0, 0, 0);
    for shape in shapes() {
        for _ in 0..16 {
            let size = random.size();
            let a = random.plan(shape, size);
            let (j, k) = (random.below(13) as i64 - 6, random.below(13) as i64 - 6);
            let (aj, ak) = (a.power(j), a.power(k));
            if let (Ok(aj), Ok(ak), Ok(sum)) = (&aj, &ak, a.power(j + k)) {
                assert_eq!(aj.then(ak), Ok(sum));
                sums += 1;
            } else {
                refused += 1;
            }
            let power_of_power = aj.and_then(|aj| aj.power(k));
            if let (Ok(power), Ok(product)) = (power_of_power, a.power(j * k)) {
                assert_eq!(power, product);
                products += 1;
            } else {
                refused += 1;
            }
        }
    }
    assert!(
        sums > 300 && products > 300 && refused > 100,
        "{sums} {products} {refused}"
    );
}

#[test]
fn small_and_negative_powers() {
    let mut random = Random::new(17);
    let (mut granted, mut refused) = (0, 0);
    for shape in shapes() {
        for _ in 0..12 {
            let size = random.size();
            let a = random.plan(shape, size);
            assert_eq!(a.power(0), Ok(Plan::identity(shape)));
            assert_eq!(a.power(1), Ok(a.clone()));
            assert_eq!(a.power(2), a.then(&a));
            assert_eq!(a.power(-1), Ok(a.inverse()));
            assert_eq!(a.power(1001), Err(Refusal::ExponentRange));
            assert_eq!(a.power(-1001), Err(Refusal::ExponentRange));
            let k = 2 + random.below(20) as i64;
            let up = a.power(k);
            assert_eq!(a.power(-k), a.inverse().power(k));
            assert_eq!(a.power(-k), up.clone().map(|plan| plan.inverse()));
            assert_eq!(up.is_ok(), powers_keep_to_limits(&a, k));
            granted += usize::from(up.is_ok());
            refused += usize::from(up.is_err());
        }
    }
    assert!(granted > 100 && refused > 100, "{granted} {refused}");
}

/// φ of the paper inside each of 40 blocks: 120 pairs, its square 160, its
/// third power 120 again and its fourth 1 for each belt. "11, some reduced
/// power from 1 up to the size of k breaks a limit", the last one or not.
#[test]
fn a_power_on_the_way_breaks_a_limit() {
    let shape = Shape { arity: 2, roots: 5 };
    let phi = [("11", "22"), ("12", "21"), ("2", "1")];
    let blocks = Random::new(23).basis(shape, 35);
    let inside = |block: &Word, way: &str| [block, way.as_bytes()].concat();
    let typed: Vec<(Word, Word)> = blocks
        .iter()
        .flat_map(|block| phi.map(|(from, to)| (inside(block, from), inside(block, to))))
        .collect();
    let plan = Plan::keep(shape, &typed).unwrap();
    assert_eq!((blocks.len(), plan.size()), (40, 120));
    assert_eq!(plan.inverse().size(), 120);
    for k in [2, 3, 4, 5, 1000, -2, -3, -4] {
        assert_eq!(plan.power(k), Err(Refusal::ResultLimit), "{k}");
    }
    assert_eq!(plan.then(&plan.inverse()), Ok(Plan::identity(shape)));
}

/// Whether every reduced power from 1 to k, worked out without limits, keeps
/// to them.
fn powers_keep_to_limits(plan: &Plan, k: i64) -> bool {
    let mut power = plan.pairs().clone();
    let mut kept = within_limits(&power);
    for _ in 1..k {
        power = maps::reduce(plan.shape(), maps::then(plan.pairs(), &power));
        kept = kept && within_limits(&power);
    }
    kept
}

/// A power moves a code as its plan does so many times in a row.
#[test]
fn powers_move_codes_in_turn() {
    let mut random = Random::new(18);
    let mut granted = 0;
    for shape in shapes() {
        for _ in 0..8 {
            let a = random.plan(shape, 20);
            let k = 1 + random.below(12) as i64;
            let (Ok(up), Ok(down)) = (a.power(k), a.power(-k)) else {
                continue;
            };
            granted += 1;
            let code = random.code(shape, 20 + 16 * k as usize);
            let step = |code: Word, _| a.image(&code).unwrap();
            let moved = (0..k).fold(code.clone(), step);
            assert_eq!(up.image(&code), Some(moved.clone()));
            assert_eq!(down.image(&moved), Some(code));
        }
    }
    assert!(granted > 200, "{granted}");
}
