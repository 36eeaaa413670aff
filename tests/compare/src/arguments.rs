//! The arguments of the program `compare`: which cases, which seeds, how much
//! time a run may take, and the desk program with its own arguments.

use std::ops::Range;
use std::path::PathBuf;
use std::time::Duration;

/// What the program is called with.
#[derive(Debug, PartialEq, Eq)]
pub struct Arguments {
    pub cases: Option<PathBuf>,
    pub seeds: Range<u64>,
    /// The seeds of pairs of sessions.
    pub pairs: Range<u64>,
    pub timeout: Duration,
    /// How many faults are made small; the others get one line each.
    pub details: usize,
    /// Where the inputs that show a fault are written, if anywhere.
    pub save: Option<PathBuf>,
    pub command: Vec<String>,
}

pub const USAGE: &str = "usage: compare [--cases DIR] [--seeds FROM..TO] [--pairs FROM..TO] \
                         [--timeout SECONDS] [--details NUMBER] [--save DIR] -- COMMAND [ARGUMENT..]";

/// The time for a run where none is given.
const TIMEOUT: Duration = Duration::from_secs(20);
/// The faults made small where no number is given.
const DETAILS: usize = 3;

impl Arguments {
    pub fn parse(given: &[String]) -> Result<Arguments, String> {
        let mut arguments = Arguments {
            cases: None,
            seeds: 0..0,
            pairs: 0..0,
            timeout: TIMEOUT,
            details: DETAILS,
            save: None,
            command: Vec::new(),
        };
        let mut rest = given.iter();
        while let Some(name) = rest.next() {
            if name == "--" {
                arguments.command = rest.by_ref().cloned().collect();
                break;
            }
            let value = rest.next().ok_or(format!("{name} needs a value"))?;
            arguments.set(name, value)?;
        }
        if arguments.command.is_empty() {
            return Err("the command of a desk program is missing".into());
        }
        let seeds = [&arguments.seeds, &arguments.pairs];
        if arguments.cases.is_none() && seeds.iter().all(|seeds| seeds.is_empty()) {
            return Err("there is nothing to do without cases and seeds".into());
        }
        Ok(arguments)
    }

    fn set(&mut self, name: &str, value: &str) -> Result<(), String> {
        match name {
            "--cases" => self.cases = Some(value.into()),
            "--seeds" => self.seeds = seeds(value).ok_or(format!("not seeds: {value}"))?,
            "--pairs" => self.pairs = seeds(value).ok_or(format!("not seeds: {value}"))?,
            "--timeout" => {
                let seconds = value.parse().map_err(|_| format!("not seconds: {value}"))?;
                self.timeout = Duration::from_secs(seconds);
            }
            "--details" => {
                self.details = value
                    .parse()
                    .map_err(|_| format!("not a number: {value}"))?;
            }
            "--save" => self.save = Some(value.into()),
            _ => return Err(format!("unknown argument {name}")),
        }
        Ok(())
    }
}

/// A range as in `0..200`: the first seed, and the one behind the last.
fn seeds(text: &str) -> Option<Range<u64>> {
    let (from, to) = text.split_once("..")?;
    Some(from.parse().ok()?..to.parse().ok()?)
}

#[cfg(test)]
mod tests {
    use super::*;

    fn parse(line: &str) -> Result<Arguments, String> {
        let given: Vec<String> = line.split(' ').map(String::from).collect();
        Arguments::parse(&given)
    }

    #[test]
    fn everything_can_be_given() {
        let line = "--cases c --seeds 3..9 --pairs 2..5 --timeout 7 --details 0 --save s \
                    -- desk --cases x";
        let expected = Arguments {
            cases: Some("c".into()),
            seeds: 3..9,
            pairs: 2..5,
            timeout: Duration::from_secs(7),
            details: 0,
            save: Some("s".into()),
            command: vec!["desk".into(), "--cases".into(), "x".into()],
        };
        assert_eq!(parse(line), Ok(expected));
    }

    #[test]
    fn wrong_arguments_are_told() {
        for line in [
            "--cases c",
            "--cases c --",
            "-- desk",
            "--seeds 3 -- desk",
            "--seeds 5..5 -- desk",
            "--seeds 5..5 --pairs 1..1 -- desk",
            "--pairs 3 -- desk",
            "--timeout soon --cases c -- desk",
            "--speed 3 --cases c -- desk",
            "--cases",
        ] {
            assert!(parse(line).is_err(), "{line}");
        }
    }
}
