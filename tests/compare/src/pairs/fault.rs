//! What is wrong with a desk program on a pair of sessions, and how it is told.

use super::{leak, Leak, Pair};
use crate::program::{Feeding, Program, Trouble};
use crate::report::{self, block};

/// A station that gets other replies, or a run that came to no good end.
pub struct Fault {
    pub headline: String,
    pub details: String,
    pub hung: bool,
}

/// What is wrong with the program on a pair, if anything.
pub fn fault(pair: &Pair, program: &Program) -> Option<Fault> {
    let found = leak(pair, |input| {
        let run = program.run(input, Feeding::Whole);
        match run.trouble {
            None => Ok(run.output),
            Some(trouble) => Err(trouble),
        }
    });
    match found {
        Ok(leak) => leak.map(|leak| leaking(pair.station, &leak)),
        Err(trouble) => Some(troubled(trouble)),
    }
}

fn leaking(station: u8, leak: &Leak) -> Fault {
    let turn = leak.turn + 1;
    let [one, other] = &leak.replies;
    let parts = [
        ("its records", &leak.records),
        ("replies in the first session", one),
        ("replies in the second", other),
    ];
    let parts = parts.map(|(title, lines)| format!("  {title}\n{}", block(lines)));
    Fault {
        headline: format!("station {station} gets other replies in its turn {turn}"),
        details: parts.concat(),
        hung: false,
    }
}

fn troubled(trouble: Trouble) -> Fault {
    let hung = trouble == Trouble::Hung;
    let told = report::Fault {
        trouble: Some(trouble),
        difference: None,
    };
    Fault {
        headline: told.headline(),
        details: String::new(),
        hung,
    }
}
