//! The follower: what it shows, what it holds, and what a take does to it.

use std::collections::BTreeMap;

use crate::packet::{self, Consumer, Display, Event, MOST_TRACKED, Notice, Packet, Picture};

/// Showing n, packets to n plus this are held; beyond it the follower is lost.
pub const REACH: u32 = 8;

#[derive(Clone, Debug, PartialEq, Eq)]
pub enum Follower {
    Lost {
        floor: u32,
    },
    Showing {
        n: u32,
        display: Display,
        /// By event number, from n+2 to n+8.
        held: BTreeMap<u32, Event>,
    },
}

impl Follower {
    /// A fresh follower: lost, with floor 0.
    pub fn new() -> Follower {
        Follower::Lost { floor: 0 }
    }

    /// Takes the bytes of one packet. Refused bytes change nothing.
    pub fn take(&mut self, bytes: &[u8]) -> Result<(), u8> {
        let packet = packet::read(bytes)?;
        match packet {
            Packet::Event(event) => self.take_event(event),
            Packet::Picture(picture) => self.take_picture(picture),
        }
        Ok(())
    }

    fn take_event(&mut self, event: Event) {
        match self {
            Follower::Lost { floor } => {
                if event.number > *floor {
                    *floor = event.number;
                }
            }
            Follower::Showing { n, display, held } => {
                if event.number <= *n {
                    return;
                }
                let greatest = greatest_met(event.number, held);
                let ahead = event.number - *n;
                if ahead == 1 {
                    if event.answer == 0 {
                        apply(display, &event);
                        *n = event.number;
                        self.apply_held(greatest);
                    } else {
                        *self = Follower::Lost { floor: greatest };
                    }
                } else if ahead <= REACH {
                    // Of equal numbers the first stays.
                    held.entry(event.number).or_insert(event);
                } else {
                    *self = Follower::Lost { floor: greatest };
                }
            }
        }
    }

    fn take_picture(&mut self, picture: Picture) {
        match self {
            Follower::Lost { floor } => {
                if picture.number >= *floor {
                    *self = Follower::Showing {
                        n: picture.number,
                        display: picture.display,
                        held: BTreeMap::new(),
                    };
                }
            }
            Follower::Showing { n, display, held } => {
                if picture.number <= *n {
                    return;
                }
                // If a held packet makes the follower lost here, its number is
                // above the picture's, so the picture's never decides.
                let greatest = greatest_met(picture.number, held);
                *n = picture.number;
                *display = picture.display;
                held.retain(|number, _| *number > picture.number);
                self.apply_held(greatest);
            }
        }
    }

    /// Applies held packets as long as the next one is there. One with an error
    /// makes the follower lost, with `greatest` as its floor.
    fn apply_held(&mut self, greatest: u32) {
        if let Follower::Showing { n, display, held } = self {
            while let Some(next) = n.checked_add(1) {
                match held.remove(&next) {
                    None => return,
                    Some(event) if event.answer == 0 => {
                        apply(display, &event);
                        *n = next;
                    }
                    Some(_) => {
                        *self = Follower::Lost { floor: greatest };
                        return;
                    }
                }
            }
        }
    }
}

impl Default for Follower {
    fn default() -> Follower {
        Follower::new()
    }
}

/// The greatest of the number handed in and of those held.
fn greatest_met(number: u32, held: &BTreeMap<u32, Event>) -> u32 {
    let mut greatest = number;
    for held_number in held.keys() {
        if *held_number > greatest {
            greatest = *held_number;
        }
    }
    greatest
}

/// The notices of an event act on the display in order.
fn apply(display: &mut Display, event: &Event) {
    for notice in &event.notices {
        apply_notice(display, notice);
    }
}

fn apply_notice(display: &mut Display, notice: &Notice) {
    match notice {
        Notice::ConsumerDisconnected { .. } => display.consumer = None,
        Notice::ConsumerConnected { port, capability } => {
            display.consumer = Some(Consumer {
                port: *port,
                capability: *capability,
            });
        }
        Notice::ProviderDisconnected { port } => display.tracked.retain(|other| other != port),
        Notice::ProviderConnected { port, .. } => {
            let there = display.tracked.contains(port);
            let room = display.tracked.len() < usize::from(MOST_TRACKED);
            if !there && room {
                display.tracked.push(*port);
                display.tracked.sort();
            }
        }
        Notice::Unconstrained {
            unconstrained,
            available,
        } => {
            display.unconstrained = *unconstrained;
            display.available = *available;
        }
    }
}
