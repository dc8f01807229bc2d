//! Tests of the C functions from Rust.

mod bytes;
mod calls;
mod model;
mod original;
mod random;
mod refusals;
mod report;
mod rng;

use std::process::ExitCode;

use calls::Calls;
use report::Report;

const USAGE: &str = "usage:
    boundary [--self] refusals                      every refusal, alone and with higher ones
    boundary [--self] random SEED COUNT             so many random calls, compared with the plain implementation
    boundary [--self] original exhaustive           runs of small worlds, compared with the original Rust
    boundary [--self] original random SEED COUNT    so many random events, compared with the original Rust
    boundary [--self] model SEED COUNT              so many takes, compared with the model of packets and follower
--self tests the plain implementation in place of the archive.
--exact, before all else, lends blocks of memory of exactly the size, for a tool that watches memory.
The original Rust is asked through the program `oracle` beside this one, or the one that POWER_POLICY_ORACLE names.";

fn number<T: std::str::FromStr>(text: &str) -> Result<T, String> {
    text.parse().map_err(|_| format!("{text} is no number"))
}

/// What is tested: the archive, or the plain implementation.
fn under_test(itself: bool) -> Result<&'static dyn Calls, String> {
    if itself {
        return Ok(&calls::Plain);
    }
    #[cfg(feature = "archive")]
    return Ok(&calls::Archive);
    #[cfg(not(feature = "archive"))]
    Err("built without the archive: only --self runs".to_owned())
}

fn run(arguments: &[&str]) -> Result<bool, String> {
    let arguments = match arguments {
        ["--exact", rest @ ..] => {
            calls::lend_exactly();
            rest
        }
        all => all,
    };
    let (itself, arguments) = match arguments {
        ["--self", rest @ ..] => (true, rest),
        rest => (false, rest),
    };
    let calls = under_test(itself)?;
    let mut report = Report::default();
    match *arguments {
        ["refusals"] => refusals::run(&mut report, calls),
        ["random", seed, count] => random::run(&mut report, calls, number(seed)?, number(count)?),
        ["original", "exhaustive"] => original::run(&mut report, calls, &["exhaustive"]),
        ["original", "random", seed, count] => {
            number::<u64>(seed)?;
            number::<u64>(count)?;
            original::run(&mut report, calls, &["stream", seed, count]);
        }
        ["model", seed, count] => model::run(&mut report, calls, number(seed)?, number(count)?),
        _ => return Err(USAGE.to_owned()),
    }
    Ok(report.finish())
}

fn main() -> ExitCode {
    let arguments: Vec<String> = std::env::args().skip(1).collect();
    let arguments: Vec<&str> = arguments.iter().map(String::as_str).collect();
    match run(&arguments) {
        Ok(true) => ExitCode::SUCCESS,
        Ok(false) => ExitCode::FAILURE,
        Err(message) => {
            eprintln!("boundary: {message}");
            println!("0 passed, 1 failed");
            ExitCode::FAILURE
        }
    }
}
