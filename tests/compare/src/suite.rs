//! The whole comparison: every case and every session is run on the desk
//! program, whole and in odd pieces, and judged, and the pairs of sessions are held
//! to each other. Faults are told with the
//! record that caused them and made small; at the end stand the tally of the
//! replies and the numbers of what passed and what failed.

use crate::arguments::Arguments;
use crate::judge::{expected, judge, lines, Step};
use crate::pairs;
use crate::program::{Feeding, Program, Trouble};
use crate::replies::{count, total, verdict, Replies};
use crate::report::{block, manner, Fault};
use crate::shrink::{shortest_prefix, shrink, Effort};
use std::fs;
use std::io::{self, Write};
use std::path::{Path, PathBuf};
use std::time::Duration;

/// Inputs up to this length are also fed byte by byte.
const SHORT: usize = 400;
/// The runs that may hang before the rest is left out.
const PATIENCE: usize = 5;
/// The most runs and the most time that making one fault small may take.
const TRIALS: usize = 400;
const TRIAL_TIME: Duration = Duration::from_secs(30);

/// A comparison in progress.
pub struct Suite<'a> {
    arguments: &'a Arguments,
    program: Program,
    out: &'a mut dyn Write,
    passed: usize,
    failed: usize,
    hung: usize,
    replies: Replies,
}

/// Runs everything and writes the report; true if nothing failed.
pub fn run(arguments: &Arguments, out: &mut dyn Write) -> io::Result<bool> {
    let program = Program {
        command: arguments.command.clone(),
        timeout: arguments.timeout,
    };
    let mut suite = Suite {
        arguments,
        program,
        out,
        passed: 0,
        failed: 0,
        hung: 0,
        replies: Replies::new(),
    };
    suite.everything()?;
    suite.statistics()?;
    let (passed, failed) = (suite.passed, suite.failed);
    writeln!(suite.out, "{passed} passed, {failed} failed")?;
    Ok(failed == 0)
}

/// The inputs of a directory of cases, in the order of their names.
fn case_inputs(directory: &Path) -> io::Result<Vec<PathBuf>> {
    let mut inputs = Vec::new();
    for entry in fs::read_dir(directory)? {
        let path = entry?.path();
        if path.extension().is_some_and(|extension| extension == "in") {
            inputs.push(path);
        }
    }
    inputs.sort();
    Ok(inputs)
}

/// What is wrong with a run of the program on an input, if anything.
fn find_fault(program: &Program, steps: &[Step], feeding: Feeding) -> Option<Fault> {
    let input: Vec<u8> = steps
        .iter()
        .flat_map(|step| step.record.iter().copied())
        .collect();
    let run = program.run(&input, feeding);
    let difference = judge(steps, &run.output);
    if run.trouble.is_none() && difference.is_none() {
        return None;
    }
    Some(Fault {
        trouble: run.trouble,
        difference,
    })
}

impl Suite<'_> {
    /// All cases and all sessions, unless the program hangs too often.
    fn everything(&mut self) -> io::Result<()> {
        if let Some(directory) = &self.arguments.cases {
            self.cases(directory)?;
        }
        for seed in self.arguments.seeds.clone() {
            if self.hung < PATIENCE {
                self.seed(seed)?;
            }
        }
        for seed in self.arguments.pairs.clone() {
            if self.hung < PATIENCE {
                self.pair(seed)?;
            }
        }
        if self.hung >= PATIENCE {
            self.failed += 1;
            writeln!(
                self.out,
                "FAILED: the program hung {PATIENCE} times, the rest is left out"
            )?;
        }
        Ok(())
    }

    fn cases(&mut self, directory: &Path) -> io::Result<()> {
        let inputs = case_inputs(directory)?;
        if inputs.is_empty() {
            self.failed += 1;
            writeln!(self.out, "FAILED: no cases in {}", directory.display())?;
        }
        for path in inputs {
            if self.hung >= PATIENCE {
                break;
            }
            let name = path.file_stem().unwrap_or_default().to_string_lossy();
            let input = fs::read(&path)?;
            let output = fs::read(path.with_extension("out"))?;
            self.case(&format!("case {name}"), &input, &output)?;
        }
        Ok(())
    }

    /// One case: the reference has to give the output on file, and then the
    /// program has to give what the reference gives.
    fn case(&mut self, name: &str, input: &[u8], output: &[u8]) -> io::Result<()> {
        let steps = expected(input);
        if let Some(difference) = judge(&steps, output) {
            self.failed += 1;
            let fault = Fault {
                trouble: None,
                difference: Some(difference),
            };
            writeln!(
                self.out,
                "FAILED {name}: the reference is not what the file expects"
            )?;
            writeln!(self.out, "    (expected: the reference, got: the file)")?;
            return write!(self.out, "{}", fault.details());
        }
        let pieces = if input.len() <= SHORT {
            Feeding::Bytes
        } else {
            Feeding::Cuts(input.len() as u64)
        };
        self.check(name, steps, &[Feeding::Whole, pieces])
    }

    fn seed(&mut self, seed: u64) -> io::Result<()> {
        let steps = expected(&sessions::session(seed));
        count(&mut self.replies, &steps);
        let feedings = [Feeding::Whole, Feeding::Cuts(seed)];
        self.check(&format!("seed {seed}"), steps, &feedings)
    }

    /// One pair of sessions: a station has to get the same replies in both.
    fn pair(&mut self, seed: u64) -> io::Result<()> {
        let Some(fault) = pairs::fault(&pairs::pair(seed), &self.program) else {
            self.passed += 1;
            return Ok(());
        };
        self.failed += 1;
        self.hung += usize::from(fault.hung);
        writeln!(self.out, "FAILED pair {seed}: {}", fault.headline)?;
        if self.failed <= self.arguments.details {
            write!(self.out, "{}", fault.details)?;
        }
        Ok(())
    }

    /// Judges the program on one input, in every manner of feeding.
    fn check(&mut self, name: &str, steps: Vec<Step>, feedings: &[Feeding]) -> io::Result<()> {
        for &feeding in feedings {
            if let Some(fault) = find_fault(&self.program, &steps, feeding) {
                self.failed += 1;
                return self.tell(name, &steps, feeding, &fault);
            }
        }
        self.passed += 1;
        Ok(())
    }

    fn tell(
        &mut self,
        name: &str,
        steps: &[Step],
        feeding: Feeding,
        fault: &Fault,
    ) -> io::Result<()> {
        let manner = manner(feeding);
        writeln!(
            self.out,
            "FAILED {name}, fed {manner}: {}",
            fault.headline()
        )?;
        self.hung += usize::from(fault.trouble == Some(Trouble::Hung));
        let started = !matches!(fault.trouble, Some(Trouble::NotStarted(_)));
        if self.failed <= self.arguments.details && started {
            self.tell_details(name, steps, feeding)?;
        }
        Ok(())
    }

    /// The shortest prefix that shows a fault, the fault on it, and what is
    /// left of it after shrinking.
    fn tell_details(&mut self, name: &str, steps: &[Step], feeding: Feeding) -> io::Result<()> {
        let records: Vec<&[u8]> = steps.iter().map(|step| step.record.as_slice()).collect();
        let program = &self.program;
        let mut fails = |some: &[&[u8]]| {
            let steps = expected(&some.concat());
            find_fault(program, &steps, feeding).is_some()
        };
        let mut effort = Effort::new(TRIALS, TRIAL_TIME);
        let length = shortest_prefix(&records, &mut effort, &mut fails);
        let prefix = &records[..length];
        let small = shrink(prefix, &mut effort, &mut fails).concat();
        let prefix = prefix.concat();
        self.tell_input(name, "prefix", &prefix, feeding)?;
        self.tell_input(name, "shrunk", &small, feeding)
    }

    /// An input that shows a fault, and the fault that it shows.
    fn tell_input(
        &mut self,
        name: &str,
        kind: &str,
        input: &[u8],
        feeding: Feeding,
    ) -> io::Result<()> {
        let count = lines(input).len();
        let title = match kind {
            "prefix" => format!("records in the shortest prefix that shows it: {count}"),
            _ => format!("records left after shrinking: {count}"),
        };
        writeln!(self.out, "  {title}")?;
        write!(self.out, "{}", block(input))?;
        match find_fault(&self.program, &expected(input), feeding) {
            Some(fault) => {
                writeln!(self.out, "  on it, {}:", fault.headline())?;
                write!(self.out, "{}", fault.details())?;
            }
            None => writeln!(self.out, "  on it, the fault does not show every time")?,
        }
        if let Some(directory) = &self.arguments.save {
            fs::create_dir_all(directory)?;
            let file = directory.join(format!("{}.{kind}.in", name.replace(' ', "-")));
            fs::write(&file, input)?;
            writeln!(self.out, "  written to {}", file.display())?;
        }
        Ok(())
    }

    /// The tally of the sessions' replies; on a full range of seeds every
    /// reply that a session can meet has to be in it.
    fn statistics(&mut self) -> io::Result<()> {
        if self.replies.is_empty() {
            return Ok(());
        }
        for (letter, replies) in &self.replies {
            writeln!(self.out, "replies to {letter}: {}", replies.line())?;
        }
        write!(self.out, "all replies:\n{}", total(&self.replies))?;
        let seeds = self.arguments.seeds.end - self.arguments.seeds.start;
        match verdict(&self.replies, seeds) {
            None => Ok(()),
            Some((true, missing)) => {
                self.failed += 1;
                writeln!(self.out, "FAILED statistics: never came up: {missing}")
            }
            Some((false, missing)) => {
                writeln!(self.out, "never came up in these few sessions: {missing}")
            }
        }
    }
}
