//! The fixed layout in which a take's outcome and the whole follower are written
//! out, so that another implementation can be compared byte by byte.
//!
//! All fields are little endian.
//! - outcome: 0 taken, else the refusal;
//! - state: 0 lost, 1 showing; then u32: the floor if lost, n if showing;
//! - display, 16 bytes: consumer presence, port, mV u16, mA u16, flag byte (zeros if
//!   none), unconstrained, available, tracked count, four tracked ports rising
//!   (unused ones 0), two zeros;
//! - seven slots of 36 bytes, slot k for event n+2+k: presence, answer, orders, notice
//!   count, four notices of 8 bytes.
//!
//! A notice: kind, then for 1 port and reason; for 2 and 4 port, mV u16, mA u16, flag
//! byte; for 3 port; for 5 unconstrained and available; then zeros to 8 bytes.
//! Absent slots and unused notices are zeros, and so is all of display and slots if
//! lost.

use crate::follower::Follower;
use crate::packet::{Capability, Display, Event, Notice, flags_byte};

pub const DISPLAY: usize = 16;
pub const NOTICE: usize = 8;
pub const SLOT: usize = 4 + 4 * NOTICE;
pub const SLOTS: usize = 7;
pub const RECORD: usize = 1 + 1 + 4 + DISPLAY + SLOTS * SLOT;

/// The record of an outcome and of the follower it left.
pub fn record(outcome: Result<(), u8>, follower: &Follower) -> Vec<u8> {
    let mut out = Vec::with_capacity(RECORD);
    match outcome {
        Ok(()) => out.push(0),
        Err(refusal) => out.push(refusal),
    }
    match follower {
        Follower::Lost { floor } => {
            out.push(0);
            out.extend(floor.to_le_bytes());
        }
        Follower::Showing { n, display, held } => {
            out.push(1);
            out.extend(n.to_le_bytes());
            out.extend(display_bytes(display));
            for k in 0..SLOTS as u32 {
                let event = match n.checked_add(2 + k) {
                    None => None,
                    Some(number) => held.get(&number),
                };
                out.extend(slot_bytes(event));
            }
        }
    }
    out.resize(RECORD, 0);
    out
}

fn display_bytes(display: &Display) -> Vec<u8> {
    let mut out = Vec::new();
    match &display.consumer {
        None => out.extend([0; 7]),
        Some(consumer) => {
            out.push(1);
            out.push(consumer.port);
            out.extend(capability_bytes(&consumer.capability));
        }
    }
    out.push(u8::from(display.unconstrained));
    out.push(display.available);
    out.push(display.tracked.len() as u8);
    out.extend(&display.tracked);
    out.resize(DISPLAY, 0);
    out
}

fn slot_bytes(event: Option<&Event>) -> Vec<u8> {
    let mut out = Vec::new();
    if let Some(event) = event {
        out.push(1);
        out.push(event.answer);
        out.push(event.orders);
        out.push(event.notices.len() as u8);
        for notice in &event.notices {
            out.extend(notice_bytes(notice));
        }
    }
    out.resize(SLOT, 0);
    out
}

fn notice_bytes(notice: &Notice) -> Vec<u8> {
    let mut out = Vec::new();
    match notice {
        Notice::ConsumerDisconnected { port, reason } => out.extend([1, *port, *reason]),
        Notice::ConsumerConnected { port, capability } => {
            out.extend([2, *port]);
            out.extend(capability_bytes(capability));
        }
        Notice::ProviderDisconnected { port } => out.extend([3, *port]),
        Notice::ProviderConnected { port, capability } => {
            out.extend([4, *port]);
            out.extend(capability_bytes(capability));
        }
        Notice::Unconstrained {
            unconstrained,
            available,
        } => out.extend([5, u8::from(*unconstrained), *available]),
    }
    out.resize(NOTICE, 0);
    out
}

/// mV, mA, flag byte: 5 bytes.
fn capability_bytes(capability: &Capability) -> Vec<u8> {
    let mut out = Vec::new();
    out.extend(capability.mv.to_le_bytes());
    out.extend(capability.ma.to_le_bytes());
    out.push(flags_byte(&capability.flags));
    out
}
