//! The page: what a follower shows, as six lines of text.

use crate::{
    PAGE,
    group::{Capability, Contract, Display},
};

/// The columns of a name, and of a figure; a newline ends the line.
const COLUMNS: usize = 20;
const LINE: usize = 2 * COLUMNS + 1;

/// The lines.
const NUMBER: usize = 0;
const STATE: usize = 1;
const PORT: usize = 2;
const MILLIVOLTS: usize = 3;
const MILLIAMPS: usize = 4;
const TRACKED: usize = 5;

const NAMES: [&[u8]; 6] = [
    b"number",
    b"state",
    b"port",
    b"millivolts",
    b"milliamps",
    b"tracked ports",
];

/// A page with a hyphen on each line.
const ABSENT: [u8; PAGE] = {
    let mut page = [b' '; PAGE];
    let mut line = 0;
    while line < NAMES.len() {
        let (start, _) = page.split_at_mut(LINE * (line + 1));
        let (_, own) = start.split_at_mut(LINE * line);
        let (name, _) = own.split_at_mut(NAMES[line].len());
        name.copy_from_slice(NAMES[line]);
        own[LINE - 2] = b'-';
        own[LINE - 1] = b'\n';
        line += 1;
    }
    page
};

/// Where the figure of a line ends.
const fn end(line: usize) -> usize {
    LINE * line + 2 * COLUMNS
}

/// The page of a lost follower.
pub fn lost(page: &mut [u8; PAGE]) {
    *page = ABSENT;
    word(page, b"lost");
}

/// The page of a follower that shows this number and display, and waits or not.
pub fn showing(page: &mut [u8; PAGE], waits: bool, number: u32, display: &Display) {
    *page = ABSENT;
    word(page, if waits { b"waiting" } else { b"level" });
    digits(page, end(NUMBER), number);
    if let Some(Contract { port, capability }) = display.consumer {
        let Capability { mv, ma, .. } = capability;
        digits(page, end(PORT), port.into());
        digits(page, end(MILLIVOLTS), mv.into());
        digits(page, end(MILLIAMPS), ma.into());
    }
    ports(page, display.tracked);
}

fn word(page: &mut [u8; PAGE], word: &[u8]) {
    page[end(STATE) - word.len()..end(STATE)].copy_from_slice(word);
}

/// Writes a number that ends before `end`, and gives where it begins.
fn digits(page: &mut [u8; PAGE], mut end: usize, mut number: u32) -> usize {
    loop {
        end -= 1;
        page[end] = b'0' + (number % 10) as u8;
        number /= 10;
        if number == 0 {
            return end;
        }
    }
}

/// Writes the ports, the last one first.
fn ports(page: &mut [u8; PAGE], mut ports: u16) {
    let mut end = end(TRACKED);
    while ports != 0 {
        let port = ports.ilog2();
        end = digits(page, end, port);
        ports ^= 1 << port;
        if ports != 0 {
            end -= 1;
            page[end] = b',';
        }
    }
}
