//! Compares a desk program with the second implementation, on cases from a
//! directory and on sessions from a range of seeds, and with itself on pairs of
//! sessions that one station can't tell apart. The last line says how
//! many passed and failed; the exit status is 0 only if none failed.

use compare::arguments::{Arguments, USAGE};
use compare::suite;
use std::io;
use std::process::ExitCode;

fn main() -> ExitCode {
    let given: Vec<String> = std::env::args().skip(1).collect();
    let arguments = match Arguments::parse(&given) {
        Ok(arguments) => arguments,
        Err(why) => {
            eprintln!("compare: {why}\n{USAGE}");
            return ExitCode::from(2);
        }
    };
    match suite::run(&arguments, &mut io::stdout()) {
        Ok(true) => ExitCode::SUCCESS,
        Ok(false) => ExitCode::FAILURE,
        Err(error) => {
            eprintln!("compare: {error}");
            ExitCode::from(2)
        }
    }
}
