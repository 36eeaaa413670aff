//! The processor's time of other programs, by C's getrusage.

/// The processor's time of all programs that were started here and have ended.
pub fn seconds_of_children() -> f64 {
    let mut usage = Usage {
        user: [0; 2],
        system: [0; 2],
        rest: [0; 14],
    };
    // SAFETY: a struct of C's layout, lent to the call alone.
    let status = unsafe { getrusage(CHILDREN, &mut usage) };
    assert_eq!(status, 0, "getrusage knows the children");
    let seconds = |[seconds, micros]: [i64; 2]| seconds as f64 + micros as f64 * 1e-6;
    seconds(usage.user) + seconds(usage.system)
}

/// C's `struct rusage`: two times, each of seconds and microseconds, and
/// fourteen numbers that aren't asked for here.
#[repr(C)]
struct Usage {
    user: [i64; 2],
    system: [i64; 2],
    rest: [i64; 14],
}

/// C's `RUSAGE_CHILDREN`.
const CHILDREN: i32 = -1;

extern "C" {
    fn getrusage(who: i32, usage: *mut Usage) -> i32;
}
