//! Writes answers of the original Rust.

use std::{
    io::{self, BufWriter, Write},
    process::ExitCode,
};

use oracle::{check, exhaustive, interface, random, records, run::Run, scenario, stream, text};

const USAGE: &str = "usage:
    oracle interface sample|full        vectors of the interface, 49 bytes each
    oracle records sample|full          vectors of bytes that may be no record, 49 bytes each
    oracle service demo [SEED EVENTS]   checks random events and prints counts
    oracle service sample SEED EVENTS   prints random events as text
    oracle service stream SEED EVENTS   random events as a stream of bytes
    oracle service exhaustive           all events of small worlds as a stream
    oracle service sample-stream        a short stream with every branch";

fn write(parts: impl IntoIterator<Item: AsRef<[u8]>>) -> io::Result<()> {
    let mut output = BufWriter::new(io::stdout().lock());
    for part in parts {
        output.write_all(part.as_ref())?;
    }
    output.flush()
}

fn write_streams(runs: impl IntoIterator<Item = Run>) -> io::Result<()> {
    write(runs.into_iter().map(|run| stream::bytes(&run)))
}

/// Whole random runs until there are as many events.
fn random_runs(seed: u64, events: usize) -> impl Iterator<Item = Run> {
    let mut made = 0;
    random::Runs::new(seed).take_while(move |run| {
        let wanted = made < events;
        made += run.events.len();
        wanted
    })
}

fn demo(seed: u64, events: usize) -> Result<(), String> {
    let counts = check::demo(seed, events)?;
    print!("{counts}");
    let missing = counts.missing();
    if missing.is_empty() {
        Ok(())
    } else {
        Err(format!("never came up: {}", missing.join(", ")))
    }
}

fn number<T: std::str::FromStr>(text: &str) -> Result<T, String> {
    text.parse().map_err(|_| format!("{text} is no number"))
}

fn run(arguments: &[&str]) -> Result<(), String> {
    let written = match *arguments {
        ["interface", "sample"] => write(interface::sample()),
        ["interface", "full"] => write(interface::full()),
        ["records", "sample"] => write(records::sample()),
        ["records", "full"] => write(records::full()),
        ["service", "demo"] => return demo(1, 3000),
        ["service", "demo", seed, events] => return demo(number(seed)?, number(events)?),
        ["service", "sample", seed, events] => {
            write(random_runs(number(seed)?, number(events)?).map(|run| text::text(&run)))
        }
        ["service", "stream", seed, events] => {
            write_streams(random_runs(number(seed)?, number(events)?))
        }
        ["service", "exhaustive"] => write_streams(exhaustive::runs()),
        ["service", "sample-stream"] => write_streams(scenario::sample()),
        _ => return Err(USAGE.into()),
    };
    written.map_err(|error| error.to_string())
}

fn main() -> ExitCode {
    let arguments: Vec<String> = std::env::args().skip(1).collect();
    let arguments: Vec<&str> = arguments.iter().map(String::as_str).collect();
    match run(&arguments) {
        Ok(()) => ExitCode::SUCCESS,
        Err(message) => {
            eprintln!("oracle: {message}");
            ExitCode::FAILURE
        }
    }
}
