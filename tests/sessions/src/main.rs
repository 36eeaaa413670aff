//! Prints the session of a seed, in full or its first records only, so that
//! a session named in a report can be looked at or fed to a desk by hand:
//! `sessions SEED [RECORDS]`.

use std::io::{self, Write};
use std::process::ExitCode;

fn main() -> ExitCode {
    let arguments: Vec<String> = std::env::args().skip(1).collect();
    let numbers: Option<Vec<u64>> = arguments.iter().map(|text| text.parse().ok()).collect();
    let bytes = match numbers.as_deref() {
        Some([seed]) => sessions::session(*seed),
        Some([seed, records]) => first_records(sessions::session(*seed), *records as usize),
        _ => {
            eprintln!("usage: sessions SEED [RECORDS]");
            return ExitCode::FAILURE;
        }
    };
    match io::stdout().write_all(&bytes) {
        Ok(()) => ExitCode::SUCCESS,
        Err(error) => {
            eprintln!("sessions: {error}");
            ExitCode::FAILURE
        }
    }
}

/// The bytes up to and with the given number of lines.
fn first_records(bytes: Vec<u8>, records: usize) -> Vec<u8> {
    let lines = bytes.split_inclusive(|&byte| byte == b'\n');
    lines.take(records).flatten().copied().collect()
}
