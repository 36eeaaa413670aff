//! Codes, lines and last lines at their limits and one byte beyond.

use crate::case::{of, row, Case};
use crate::plans::psi;

/// A routed code has at most 1,024 digits; its image may have more.
pub fn long_codes() -> Case {
    let mut case = Case::new("long-codes");
    case.load("P|A|2|1", &psi(), "ok|3");
    let mut route = |code: &str, reply: &str| case.ask(&format!("W|{code}"), reply);
    let ones = |count: usize| of("1", count);
    route(
        &format!("A|12{}", ones(1022)),
        &format!("ok|122{}|3", ones(1022)),
    );
    route(
        &format!("A|{}", ones(1024)),
        &format!("ok|{}|1", ones(1023)),
    );
    route(
        &format!("A|112{}", of("2", 1021)),
        &format!("ok|121{}|2", of("2", 1021)),
    );
    route(&format!("A|{}3", ones(1023)), "no|4");
    for slot in ["A|no|4", "B|no|9", "Z|no|8"] {
        let (slot, reply) = slot.split_once('|').unwrap();
        route(&format!("{slot}|12{}", ones(1023)), reply);
        route(&format!("{slot}|{}", ones(1096)), reply);
    }
    case.ask("I|A|B", "ok|3");
    case.ask("K|A|-14|C", "ok|16");
    case.ask(
        &format!("W|B|{}", of("1", 1024)),
        &format!("ok|{}|1", of("1", 1025)),
    );
    case.ask(
        &format!("W|C|{}", of("1", 1024)),
        &format!("ok|{}|1", of("1", 1038)),
    );
    case.ask(&format!("W|C|{}", of("1", 1025)), "no|4");
    case.ask("T", "ok|3");
    case
}

/// Lines hold at most 1,100 bytes. `W|A|` and `M|1|` have four bytes, so the
/// code or word that makes 1,100 has 1,096; one byte more, and it is 1.
pub fn long_lines() -> Case {
    let mut case = Case::new("long-lines");
    case.load("P|A|2|1", &[row("1", "1")], "ok|1");
    let (fits, over) = (of("1", 1096), of("1", 1097));
    for (slot, reply) in [("A", "no|4"), ("B", "no|9"), ("Z", "no|8")] {
        case.ask(&format!("W|{slot}|{fits}"), reply);
        case.ask(&format!("W|{slot}|{over}"), "no|1");
    }
    case.ask(&format!("M|1|{fits}"), "no|2");
    case.ask(&format!("M|1|{over}"), "no|1");
    for (line, reply) in [
        (format!("M|1|{fits}"), "no|4"),
        (format!("M|1|{over}"), "no|1"),
        (format!("W|A|{fits}"), "no|2"),
        (format!("W|A|{over}"), "no|1"),
    ] {
        case.ask("P|B|2|1", "");
        case.ask(&line, reply);
        case.ask("E", "no|2");
    }
    case.ask("U", "A|2|1|1\nok|1");
    case.ask("T", "ok|1");
    case
}

/// A longer line, up to its byte 10, is one refusal: what stands behind its
/// first 1,100 bytes is not another record, and the next line is.
pub fn long_garbage() -> Case {
    let mut case = Case::new("long-garbage");
    let garbage = of("x", 1100);
    case.ask(&garbage, "no|1");
    case.ask(&format!("{garbage}T"), "no|1");
    case.ask(&format!("{garbage}|T"), "no|1");
    case.ask("T", "ok|0");
    case.ask(&of("|", 1100), "no|1");
    case.ask(&of("|", 1101), "no|1");
    case.ask(&of("T", 2202), "no|1");
    case.ask(&of("T|", 5000), "no|1");
    case.ask(&of("x", 70_000), "no|1");
    case.ask("T", "ok|0");
    case
}

/// A line that is too long names no station, whatever it begins with, and the named
/// one stays; 1,100 bytes of Z are refused for their form.
pub fn long_namings() -> Case {
    let mut case = Case::new("long-namings");
    case.ask("Z|3", "ok");
    case.load("P|A|2|1", &[row("1", "1")], "ok|1");
    for line in [
        format!("Z|{}", of("1", 1098)),
        format!("Z|{}", of("1", 1099)),
        format!("Z|1|{}", of("1", 1096)),
        format!("Z|1|{}", of("1", 1097)),
        format!("{}|Z|1", of("x", 1100)),
        of("Z|1|", 2000),
    ] {
        case.ask(&line, "no|1");
        case.ask("T", "ok|1");
        case.ask("P|B|2|1", "");
        case.ask(&line, "no|1");
        case.ask("E", "no|2");
        case.ask("T", "ok|1");
    }
    case.ask("Z|1", "ok");
    case.ask("T", "ok|0");
    case
}

pub fn last_line(name: &'static str, digits: usize, reply: &str) -> Case {
    let mut case = Case::new(name);
    case.ask("T", "ok|0");
    case.ask(&format!("W|A|{}", of("1", digits)), reply);
    case.cut()
}
