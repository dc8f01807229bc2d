//! usage: demo [--packets] [SEED]
//!
//! A console goes through a day, its packets go over a bad link, and the desk that follows it is shown beside it, a line for
//! each step. It ends with 1 if the desk ever shows a number with other content than the console held at it.
//!
//! With `--packets` it writes what the link handed over in place of the table, in that order, each packet or picture after its
//! length: the stream that the program `follow` reads.

mod console;
mod day;
mod link;
mod table;
mod watch;

use std::{
    env,
    io::{self, Write},
    process::ExitCode,
};

/// Over this link the desk waits, catches up, and is lost in both ways.
const SEED: u64 = 237;

fn main() -> ExitCode {
    let mut arguments: Vec<String> = env::args().skip(1).collect();
    let packets = arguments.first().is_some_and(|first| first == "--packets");
    if packets {
        arguments.remove(0);
    }
    let seed = match arguments.as_slice() {
        [] => Some(SEED),
        [seed] => seed.parse().ok(),
        _ => None,
    };
    let Some(seed) = seed else {
        eprintln!("usage: demo [--packets] [SEED], a number");
        return ExitCode::from(2);
    };
    let table = match table::day(seed) {
        Ok(table) => table,
        Err(error) => {
            eprintln!("demo: {error}");
            return ExitCode::FAILURE;
        }
    };
    let output = if packets {
        table.packets
    } else {
        table.text.into_bytes()
    };
    let written = io::stdout().write_all(&output);
    if table.differing == 0 && written.is_ok() {
        ExitCode::SUCCESS
    } else {
        ExitCode::FAILURE
    }
}
