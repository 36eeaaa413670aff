//! Runs a desk program once on each input of some folders, through pipes and in
//! odd pieces, and holds what it writes to the second implementation: the cases
//! and what the fuzzing found, on the program as it is delivered. An input that
//! the harnesses wouldn't try is wrong too.

use std::fs;
use std::process::ExitCode;
use std::time::Duration;

use compare::judge::{expected, judge};
use compare::program::{Feeding, Program};
use fuzz::{is_tried, sum, told};

/// The time that one run may take.
const PATIENCE: Duration = Duration::from_secs(30);

fn main() -> ExitCode {
    let given: Vec<String> = std::env::args().skip(1).collect();
    let [program, folders @ ..] = &given[..] else {
        eprintln!("usage: again PROGRAM FOLDER..");
        return ExitCode::FAILURE;
    };
    let program = Program {
        command: vec![program.clone()],
        timeout: PATIENCE,
    };
    let mut inputs = 0;
    let mut wrong = 0;
    let entries = |folder| fs::read_dir(folder).expect("a folder of inputs");
    for entry in folders.iter().flat_map(entries) {
        let path = entry.expect("an input").path();
        let input = fs::read(&path).expect("an input");
        inputs += 1;
        if let Some(fault) = fault(&program, &input) {
            wrong += 1;
            println!("{}: {fault}", path.display());
        }
    }
    println!("{inputs} inputs, {wrong} of them wrong");
    match wrong == 0 && inputs > 0 {
        true => ExitCode::SUCCESS,
        false => ExitCode::FAILURE,
    }
}

/// What is wrong with a run on an input, if anything.
fn fault(program: &Program, input: &[u8]) -> Option<String> {
    if !is_tried(input) {
        return Some("it isn't tried".into());
    }
    let feeding = match sum(input) % 2 {
        0 => Feeding::Whole,
        _ => Feeding::Cuts(sum(input)),
    };
    let run = program.run(input, feeding);
    if let Some(trouble) = run.trouble {
        return Some(format!("{trouble:?}"));
    }
    judge(&expected(input), &run.output).map(|difference| told(&difference))
}
