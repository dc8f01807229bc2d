//! The page: what a follower shows, as six lines of text, and its reader.
//!
//! A line is a name, left in 20 columns, a figure, right in 20, and a newline. The reader takes
//! the columns apart again. It gives something for the pages of followers alone.

use crate::follower::Follower;
use crate::number;
use crate::packet::{LAST_PORT, MOST_TRACKED};

/// The length of a page.
pub const PAGE: usize = 6 * LINE;
/// The columns of a name, and of a figure.
const COLUMNS: usize = 20;
/// The length of a line with its newline.
const LINE: usize = 2 * COLUMNS + 1;

/// The names of the lines.
pub const NAMES: [&str; 6] = [
    "number",
    "state",
    "port",
    "millivolts",
    "milliamps",
    "tracked ports",
];

#[derive(Clone, Copy, Debug, PartialEq, Eq)]
pub enum State {
    Lost,
    Level,
    Waiting,
}

impl State {
    pub const ALL: [State; 3] = [State::Lost, State::Level, State::Waiting];

    pub fn of(follower: &Follower) -> State {
        match follower {
            Follower::Lost { .. } => State::Lost,
            Follower::Showing { held, .. } if held.is_empty() => State::Level,
            Follower::Showing { .. } => State::Waiting,
        }
    }

    pub fn word(self) -> &'static str {
        match self {
            State::Lost => "lost",
            State::Level => "level",
            State::Waiting => "waiting",
        }
    }
}

/// What a line says. An empty tracked set is absent.
#[derive(Clone, Debug, PartialEq, Eq)]
pub enum Figure {
    Absent,
    Number(u32),
    State(State),
    Ports(Vec<u8>),
}

/// A line: its name and its figure.
#[derive(Clone, Debug, PartialEq, Eq)]
pub struct Entry {
    pub name: String,
    pub figure: Figure,
}

/// What the page of a follower says.
pub fn entries(follower: &Follower) -> Vec<Entry> {
    let mut figures = [const { Figure::Absent }; 6];
    figures[1] = Figure::State(State::of(follower));
    if let Follower::Showing { n, display, .. } = follower {
        figures[0] = Figure::Number(*n);
        if let Some(consumer) = &display.consumer {
            figures[2] = Figure::Number(consumer.port.into());
            figures[3] = Figure::Number(consumer.capability.mv.into());
            figures[4] = Figure::Number(consumer.capability.ma.into());
        }
        if !display.tracked.is_empty() {
            figures[5] = Figure::Ports(display.tracked.clone());
        }
    }
    let lines = NAMES.into_iter().zip(figures);
    lines
        .map(|(name, figure)| Entry {
            name: name.to_string(),
            figure,
        })
        .collect()
}

/// The page of a follower.
pub fn page(follower: &Follower) -> Vec<u8> {
    write(&entries(follower))
}

/// The page that says this.
pub fn write(entries: &[Entry]) -> Vec<u8> {
    let mut out = String::new();
    for Entry { name, figure } in entries {
        out.push_str(&format!("{name:<COLUMNS$}{:>COLUMNS$}\n", text(figure)));
    }
    out.into_bytes()
}

fn text(figure: &Figure) -> String {
    match figure {
        Figure::Absent => String::from("-"),
        Figure::Number(number) => number.to_string(),
        Figure::State(state) => state.word().to_string(),
        Figure::Ports(ports) => {
            let ports: Vec<String> = ports.iter().map(u8::to_string).collect();
            ports.join(",")
        }
    }
}

/// What a page says, or nothing if the bytes are no page.
pub fn read(bytes: &[u8]) -> Option<Vec<Entry>> {
    if bytes.len() != PAGE || !bytes.is_ascii() {
        return None;
    }
    let mut entries = Vec::new();
    for (line, wanted) in bytes.chunks(LINE).zip(NAMES) {
        let (columns, newline) = line.split_at(2 * COLUMNS);
        if newline != b"\n" {
            return None;
        }
        let columns = str::from_utf8(columns).ok()?;
        let (name, figure) = columns.split_at(COLUMNS);
        let name = name.trim_end_matches(' ');
        if name != wanted {
            return None;
        }
        entries.push(Entry {
            name: name.to_string(),
            figure: read_figure(name, figure.trim_start_matches(' '))?,
        });
    }
    fits_together(&entries).then_some(entries)
}

/// The figure of a line by its name.
fn read_figure(name: &str, text: &str) -> Option<Figure> {
    match name {
        "state" => {
            let state = State::ALL.into_iter().find(|state| state.word() == text)?;
            Some(Figure::State(state))
        }
        _ if text == "-" => Some(Figure::Absent),
        "tracked ports" => read_ports(text).map(Figure::Ports),
        "number" => read_number(text, number::LIMIT).map(Figure::Number),
        "port" => read_number(text, LAST_PORT.into()).map(Figure::Number),
        _ => read_number(text, number::MILLI_LIMIT).map(Figure::Number),
    }
}

/// Decimal digits without a sign and without a leading zero, to a limit.
fn read_number(text: &str, limit: u32) -> Option<u32> {
    let digits = !text.is_empty() && text.bytes().all(|byte| byte.is_ascii_digit());
    let leading_zero = text.len() > 1 && text.starts_with('0');
    if !digits || leading_zero {
        return None;
    }
    let number: u32 = text.parse().ok()?;
    (number <= limit).then_some(number)
}

/// At most four ports, rising, with commas between.
fn read_ports(text: &str) -> Option<Vec<u8>> {
    let mut ports: Vec<u8> = Vec::new();
    for one in text.split(',') {
        let port = read_number(one, LAST_PORT.into())? as u8;
        if ports.last().is_some_and(|before| port <= *before) {
            return None;
        }
        ports.push(port);
    }
    (ports.len() <= usize::from(MOST_TRACKED)).then_some(ports)
}

/// Lost, every other figure is absent; else there is a number. Port, mV and mA are there or absent
/// together.
fn fits_together(entries: &[Entry]) -> bool {
    let absent = |line: usize| entries[line].figure == Figure::Absent;
    let lost = entries[1].figure == Figure::State(State::Lost);
    let consumer_fits = absent(2) == absent(3) && absent(3) == absent(4);
    lost == absent(0) && consumer_fits && (!lost || absent(2) && absent(5))
}
