//! `model`: the programs follow and sheet, the state records and the generators.

use std::env;
use std::io::{self, Read, Write};
use std::process::ExitCode;

use link_model::follower::Follower;
use link_model::program::{Frames, follow, sheet};
use link_model::record::record;
use link_model::{generate, packet};

const USAGE: &str = "usage:
  model follow                < stream > lines
  model sheet                 < stream > page 2> refusals
  model state                 < stream > records
  model state-each            < stream > records
  model gen-packets SEED N    > stream
  model gen-damaged SEED N    > stream
  model gen-short [all]       > stream
  model gen-takes SEED N      > stream
  model gen-events SEED N     > stream
";

fn main() -> ExitCode {
    let arguments: Vec<String> = env::args().skip(1).collect();
    let words: Vec<&str> = arguments.iter().map(String::as_str).collect();
    let done = match words.as_slice() {
        ["follow"] => input().and_then(|stream| output(&follow(&stream))),
        ["sheet"] => input().and_then(|stream| write_sheet(&stream)),
        ["state"] => input().and_then(|stream| state(&stream)),
        ["state-each"] => input().and_then(|stream| state_each(&stream)),
        ["gen-short"] => output(&generate::short_stream(false)),
        ["gen-short", "all"] => output(&generate::short_stream(true)),
        [generator, seed, count] => {
            let (Ok(seed), Ok(count)) = (seed.parse(), count.parse()) else {
                return usage();
            };
            match *generator {
                "gen-packets" => output(&generate::packet_stream(seed, count)),
                "gen-damaged" => output(&generate::damaged_stream(seed, count)),
                "gen-takes" => output(&generate::take_stream(seed, count)),
                "gen-events" => output(&generate::event_stream(seed, count)),
                _ => return usage(),
            }
        }
        _ => return usage(),
    };
    match done {
        Ok(()) => ExitCode::SUCCESS,
        Err(error) => {
            eprintln!("model: {error}");
            ExitCode::FAILURE
        }
    }
}

fn usage() -> ExitCode {
    eprint!("{USAGE}");
    ExitCode::from(2)
}

fn input() -> io::Result<Vec<u8>> {
    let mut bytes = Vec::new();
    io::stdin().lock().read_to_end(&mut bytes)?;
    Ok(bytes)
}

fn output(bytes: &[u8]) -> io::Result<()> {
    let mut out = io::stdout().lock();
    out.write_all(bytes)?;
    out.flush()
}

/// The page. Where standard error takes no more it goes on all the same.
fn write_sheet(stream: &[u8]) -> io::Result<()> {
    let sheet = sheet(stream);
    let _ = io::stderr().lock().write_all(&sheet.refused);
    output(&sheet.page)
}

/// One record after each packet, all taken by one follower.
fn state(stream: &[u8]) -> io::Result<()> {
    let mut out = io::BufWriter::new(io::stdout().lock());
    let mut follower = Follower::new();
    let mut frames = Frames::new(stream);
    while let Ok(Some(bytes)) = frames.next_packet() {
        let outcome = follower.take(bytes);
        out.write_all(&record(outcome, &follower))?;
    }
    out.flush()
}

/// One record after each packet, each taken by its own follower, which has taken an
/// empty picture 0 before.
fn state_each(stream: &[u8]) -> io::Result<()> {
    let mut out = io::BufWriter::new(io::stdout().lock());
    let picture = packet::write(&packet::Packet::Picture(packet::Picture {
        number: 0,
        display: packet::Display::empty(),
    }));
    let mut frames = Frames::new(stream);
    while let Ok(Some(bytes)) = frames.next_packet() {
        let mut follower = Follower::new();
        follower
            .take(&picture)
            .expect("an empty picture 0 is taken");
        let outcome = follower.take(bytes);
        out.write_all(&record(outcome, &follower))?;
    }
    out.flush()
}
