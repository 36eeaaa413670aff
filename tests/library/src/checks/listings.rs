//! Listings: every slot byte, buffers of just the right length, longer, shorter
//! and empty, plans of all sizes and damaged values. A listing is also read
//! back: typed again, it must be kept as the same plan.

use super::buffers::{self, compare as compare_buffer, lengths, output_length, AMPLE};
use super::tally::Tally;
use crate::calls::Calls;
use crate::listed::Listed;
use crate::packed::{plan_value, value};
use crate::random::bases::{deep_basis, every_shape, most_splits, some_shape};
use crate::random::damage::damaged;
use crate::random::{plans, Rng};
use crate::values::Plan;

/// Random plans of each shape, and full ones with words of 16 digits.
pub fn of_plans(calls: &dyn Calls) {
    let mut rng = Rng::new(501);
    let mut tally = Tally::default();
    for shape in every_shape() {
        let full = deep_basis(&mut rng, shape, most_splits(shape));
        let full = plan_value(&plans::kept(shape, &plans::permuted(&mut rng, &full)));
        let mut listed = vec![
            full,
            plan_value(&plans::kept(shape, &plans::identity(shape))),
        ];
        listed.extend([(); 4].map(|()| plan_value(&plans::plan(&mut rng, shape))));
        for plan in listed {
            let slot = b'A' + rng.below(8) as u8;
            compare(calls, &plan, slot, &mut tally);
            read_back(calls, &plan, slot);
        }
    }
    tally.demand(500, &["0", "14"]);
    tally.demand(20, &["more than 3,000 bytes"]);
}

/// Every byte as the slot: 8, and before it 15.
pub fn of_slots(calls: &dyn Calls) {
    let mut rng = Rng::new(502);
    let mut tally = Tally::default();
    for slot in 0..=255 {
        let shape = some_shape(&mut rng);
        let plan = plan_value(&plans::plan(&mut rng, shape));
        compare(calls, &plan, slot, &mut tally);
        for _ in 0..3 {
            compare(calls, &damaged(&mut rng, &plan), slot, &mut tally);
        }
    }
    tally.demand(
        8,
        &["0", "8", "14", "15", "8 with no room", "15 with a bad slot"],
    );
}

fn compare(calls: &dyn Calls, plan: &Plan, slot: u8, tally: &mut Tally) {
    let ask: buffers::Ask<_> = &|calls, out| calls.list(plan, slot, out);
    let output = output_length(ask);
    for length in lengths(output) {
        let answer = compare_buffer(calls, ask, length, length);
        tally.count(answer.number.to_string());
        tally.count_if(answer.length > 3000, "more than 3,000 bytes");
        tally.count_if(answer.number == 8 && length == 0, "8 with no room");
        let bad_slot = !(b'A'..=b'H').contains(&slot);
        tally.count_if(answer.number == 15 && bad_slot, "15 with a bad slot");
    }
}

/// The rows of a listing, typed in the other order, are kept as the plan.
fn read_back(calls: &dyn Calls, plan: &Plan, slot: u8) {
    let mut out = [0; AMPLE];
    let written = calls.list(plan, slot, &mut out);
    let mut listed = Listed::read(&out[..written.length]);
    listed.rows.reverse();
    let kept = calls.keep(&value(listed.shape, &listed.rows));
    assert_eq!(
        (kept.number, kept.plan),
        (0, *plan),
        "read back from {listed}"
    );
}
