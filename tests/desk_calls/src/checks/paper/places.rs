//! What E7 says of W: which line of the plan to look at, in images and in blocks.
//! Nothing here asks the second implementation.

use super::reply;
use crate::calls::Calls;

/// Rows typed out of order, some of which join, and images that stand in another
/// order than the from-words: the places are those of the listing.
pub fn listed(calls: &dyn Calls) {
    let mut desk = calls.fresh();
    for line in [
        "P\tA\t2\t1",
        "M\t122\t111",
        "M\t1211\t1211",
        "M\t111\t122",
        "M\t1212\t1212",
        "M\t112\t112",
    ] {
        reply(calls, &mut desk, line, "");
    }
    reply(calls, &mut desk, "E", "ok\t4\n");
    let listing = "P\tA\t2\t1\nM\t111\t122\nM\t112\t112\nM\t121\t121\nM\t122\t111\nE\n";
    reply(calls, &mut desk, "L\tA", listing);
    let whole = "B\t111\t122\t1\nB\t112\t112\t2\nB\t121\t121\t3\nB\t122\t111\t4\nok\t4\n";
    for (code, said) in [
        ("111", "ok\t122\t1\n"),
        ("1122", "ok\t1122\t2\n"),
        ("121", "ok\t121\t3\n"),
        ("1212", "ok\t1212\t3\n"),
        ("122", "ok\t111\t4\n"),
        ("12221", "ok\t11121\t4\n"),
        ("11", "B\t111\t122\t1\nB\t112\t112\t2\nok\t2\n"),
        ("12", "B\t121\t121\t3\nB\t122\t111\t4\nok\t2\n"),
        ("1", whole),
    ] {
        reply(calls, &mut desk, &format!("W\tA\t{code}"), said);
    }
}
