//! The framing of a stream and the programs `follow` and `sheet`.

use crate::follower::Follower;
use crate::number;
use crate::page::{self, State};
use crate::{CUT, FIELD};

/// The greatest length of a framed packet.
pub const MOST_LENGTH: u32 = 64;

/// A stream of length#, packet, repeated.
pub struct Frames<'a> {
    rest: &'a [u8],
}

impl<'a> Frames<'a> {
    pub fn new(input: &'a [u8]) -> Frames<'a> {
        Frames { rest: input }
    }

    /// The next packet; `None` at an end between packets. After an error there is
    /// no point in going on.
    pub fn next_packet(&mut self) -> Result<Option<&'a [u8]>, u8> {
        if self.rest.is_empty() {
            return Ok(None);
        }
        let (length, count) = number::read(self.rest, number::LIMIT)?;
        if length == 0 || length > MOST_LENGTH {
            return Err(FIELD);
        }
        let length = length as usize;
        let after = &self.rest[count..];
        if after.len() < length {
            return Err(CUT);
        }
        self.rest = &after[length..];
        Ok(Some(&after[..length]))
    }
}

/// Writes one framed packet. Its length is taken to be 1 to 64.
pub fn frame(out: &mut Vec<u8>, packet: &[u8]) {
    out.extend(number::write(packet.len() as u32));
    out.extend(packet);
}

/// Hands each packet of the input to a fresh follower and tells what came of it, with its
/// ordinal. An error of the framing is told like a refused packet, and is the last. Gives the
/// follower at the end.
fn take_all(input: &[u8], mut tell: impl FnMut(u64, &Follower, Result<(), u8>)) -> Follower {
    let mut frames = Frames::new(input);
    let mut follower = Follower::new();
    for ordinal in 1.. {
        match frames.next_packet() {
            Ok(None) => break,
            Ok(Some(packet)) => {
                let outcome = follower.take(packet);
                tell(ordinal, &follower, outcome);
            }
            Err(refusal) => {
                tell(ordinal, &follower, Err(refusal));
                break;
            }
        }
    }
    follower
}

/// What `follow` writes for this input.
pub fn follow(input: &[u8]) -> Vec<u8> {
    let mut out = String::from("take shown state port mw\n");
    take_all(input, |ordinal, follower, outcome| {
        out.push_str(&match outcome {
            Ok(()) => format!("{ordinal} {}\n", shown(follower)),
            Err(refusal) => refused(ordinal, refusal),
        });
    });
    out.into_bytes()
}

/// What `sheet` writes for this input: the page on standard output, and the refused packets on
/// standard error.
pub struct Sheet {
    pub page: Vec<u8>,
    pub refused: Vec<u8>,
}

pub fn sheet(input: &[u8]) -> Sheet {
    let mut lines = String::new();
    let follower = take_all(input, |ordinal, _, outcome| {
        if let Err(refusal) = outcome {
            lines.push_str(&refused(ordinal, refusal));
        }
    });
    Sheet {
        page: page::page(&follower),
        refused: lines.into_bytes(),
    }
}

fn refused(ordinal: u64, refusal: u8) -> String {
    format!("{ordinal} refused {refusal}\n")
}

/// n, state, consumer port and its mW, with - for none.
fn shown(follower: &Follower) -> String {
    match follower {
        Follower::Lost { .. } => String::from("- lost - -"),
        Follower::Showing { n, display, .. } => {
            let state = State::of(follower).word();
            match &display.consumer {
                None => format!("{n} {state} - -"),
                Some(consumer) => {
                    let mw = consumer.capability.mw();
                    format!("{n} {state} {} {mw}", consumer.port)
                }
            }
        }
    }
}
