//! What is aimed at. Each run ends with these, and with whether they are reached.

/// The most times the arrays' time that a call of the library may take.
pub fn of_call(name: &str) -> f64 {
    if name.starts_with("follow, 128 pairs") {
        1.5
    } else {
        2.0
    }
}

/// The same of a record by the desk program, where there is an aim.
pub fn of_record(name: &str) -> Option<f64> {
    match name.bytes().next() {
        Some(b'W' | b'F' | b'I' | b'K') => Some(1.2),
        Some(b'M' | b'a' | b'X') => Some(1.5),
        _ => None,
    }
}

/// The most times the desk program's time that a record may take by desk_feed.
pub const FEED: f64 = 1.3;

/// The most times the time of the loop that only finds lines, for routes.
pub const LINES: f64 = 6.0;

/// How much faster than the second implementation, for routes.
pub const SECOND: f64 = 1.7;

/// The milliseconds of a start.
pub const START: f64 = 20.0;

/// An aim, what was measured, and whether that reaches it.
pub struct Aim {
    text: String,
    measured: f64,
    reached: bool,
}

impl Aim {
    pub fn at_most(name: &str, what: &str, most: f64, measured: f64) -> Aim {
        Aim {
            text: format!("{name}: {what} at most {most}"),
            measured,
            reached: measured <= most,
        }
    }

    /// The milliseconds of a start, of a program.
    pub fn start(name: &str, measured: f64) -> Aim {
        Aim {
            text: format!("{name}: start under {START} ms"),
            measured,
            reached: measured < START,
        }
    }

    pub fn at_least(name: &str, what: &str, least: f64, measured: f64) -> Aim {
        Aim {
            text: format!("{name}: {what} at least {least}"),
            measured,
            reached: measured >= least,
        }
    }
}

/// The aims of a run line by line, and how many are reached.
pub fn report(aims: &[Aim]) -> String {
    let mut lines = String::new();
    for aim in aims {
        let word = if aim.reached { "reached" } else { "missed" };
        lines += &format!("- {}: {:.2}, {word}\n", aim.text, aim.measured);
    }
    let reached = aims.iter().filter(|aim| aim.reached).count();
    lines + &format!("\n{reached} of {} aims reached\n", aims.len())
}

#[cfg(test)]
mod tests {
    use super::*;

    #[test]
    fn aims_of_names() {
        assert_eq!(of_call("follow, 128 pairs, one basis"), 1.5);
        assert_eq!(of_call("follow, 32 pairs, one basis"), 2.0);
        let names = [
            "W block, 2 to 128 pairs",
            "a plan: P, 128 M, E",
            "M",
            "H",
            "Z",
        ];
        let aims = [Some(1.2), Some(1.5), Some(1.5), None, None];
        assert_eq!(names.map(of_record), aims);
    }

    #[test]
    fn aims_are_reached_or_missed() {
        let aims = [
            Aim::at_most("W", "desk / lines", 6.0, 6.01),
            Aim::at_least("W", "second / desk", 1.7, 1.7),
            Aim::start("desk", 20.0),
        ];
        let lines = "- W: desk / lines at most 6: 6.01, missed\n\
                     - W: second / desk at least 1.7: 1.70, reached\n\
                     - desk: start under 20 ms: 20.00, missed\n\
                     \n1 of 3 aims reached\n";
        assert_eq!(report(&aims), lines);
    }
}
