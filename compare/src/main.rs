//! Compares the verified house with a plain implementation, and measures both.
//!
//! `compare [SEED] [INPUTS]` gives both the same random inputs; `speed [SECTION]` measures.

mod compare;
mod days;
mod encoded;
mod plain;
mod random;
mod requests;
mod sheets;
mod speed;
mod verified;

use std::process::ExitCode;

const USAGE: &str = "usage: compare compare [SEED] [INPUTS], or compare speed [SECTION]";

/// The n-th argument as a number, or a default.
fn number(arguments: &[String], n: usize, default: u64) -> Result<u64, String> {
    match arguments.get(n) {
        None => Ok(default),
        Some(text) => text
            .parse()
            .map_err(|_| format!("{text}: no number\n{USAGE}")),
    }
}

fn run(arguments: &[String]) -> Result<bool, String> {
    match arguments.first().map(String::as_str) {
        Some("compare") => {
            let seed = number(arguments, 1, 1)?;
            Ok(compare::compare(seed, number(arguments, 2, 100_000)?))
        }
        Some("speed") => {
            speed::measure(arguments.get(1).map(String::as_str));
            Ok(true)
        }
        _ => Err(USAGE.to_string()),
    }
}

fn main() -> ExitCode {
    let arguments: Vec<String> = std::env::args().skip(1).collect();
    match run(&arguments) {
        Ok(true) => ExitCode::SUCCESS,
        Ok(false) => ExitCode::FAILURE,
        Err(message) => {
            eprintln!("{message}");
            ExitCode::from(2)
        }
    }
}
