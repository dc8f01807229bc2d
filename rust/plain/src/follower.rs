//! The follower, kept as its image: what it shows, and the packets that it holds.

use crate::{
    FOLLOWER_IMAGE, PAGE,
    group::{
        Capability, Contract, Display, LAST_ANSWER, LAST_REASON, MOST_PORTS, Role, u32_at, zeros,
    },
    page, reply,
    wire::{
        CONSUMER_CONNECTED, CONSUMER_DISCONNECTED, MOST_NOTICES, MOST_ORDERS, NOTICE,
        PROVIDER_CONNECTED, PROVIDER_DISCONNECTED, Packet, SLOT, UNCONSTRAINED,
    },
};

type Image = [u8; FOLLOWER_IMAGE];

/// Places in the image.
const MARK: u8 = 2;
const STATE: usize = 1;
const NUMBER: usize = 2;
const DISPLAY: usize = 6;
const SLOTS: usize = 17;

const LOST: u8 = 0;
const SHOWING: u8 = 1;

/// Showing n, packets to n plus this are held.
const REACH: u32 = 8;
/// The number of slots; slot k is for event n + 2 + k.
const HELD: usize = 7;

/// Lost, with this floor.
fn lose(image: &mut Image, floor: u32) {
    *image = [0; FOLLOWER_IMAGE];
    image[0] = MARK;
    set_number(image, floor);
}

pub fn start(image: &mut Image) {
    lose(image, 0);
}

fn set_number(image: &mut Image, number: u32) {
    image[NUMBER..NUMBER + 4].copy_from_slice(&number.to_le_bytes());
}

fn set_display(image: &mut Image, display: &Display) {
    image[DISPLAY..SLOTS].fill(0);
    display.put(image, DISPLAY);
}

/// The display of a checked image.
fn display(image: &Image) -> Display {
    Display::at(image, DISPLAY, MOST_PORTS).unwrap_or(Display::EMPTY)
}

fn slot(image: &Image, k: usize) -> &[u8] {
    &image[SLOTS + SLOT * k..SLOTS + SLOT * (k + 1)]
}

fn is_held(image: &Image, k: usize) -> bool {
    image[SLOTS + SLOT * k] == 1
}

/// Whether something is held.
fn waits(image: &Image) -> bool {
    (0..HELD).any(|k| is_held(image, k))
}

fn is_notice(notice: &[u8]) -> bool {
    match notice[0] {
        CONSUMER_DISCONNECTED => {
            notice[1] < MOST_PORTS && notice[2] <= LAST_REASON && zeros(&notice[3..])
        }
        CONSUMER_CONNECTED => Contract::at(notice, 1, Role::Consumer, MOST_PORTS).is_some(),
        PROVIDER_DISCONNECTED => notice[1] < MOST_PORTS && zeros(&notice[2..]),
        PROVIDER_CONNECTED => Contract::at(notice, 1, Role::Provider, MOST_PORTS).is_some(),
        UNCONSTRAINED => notice[1] <= 1 && notice[2] <= MOST_PORTS && zeros(&notice[3..]),
        _ => false,
    }
}

/// 32 zeros, or a packet.
fn is_slot(slot: &[u8]) -> bool {
    match slot[0] {
        0 => zeros(slot),
        1 => {
            let (answer, orders, count) = (slot[1], slot[2], slot[3]);
            if answer > LAST_ANSWER || orders > MOST_ORDERS || count > MOST_NOTICES {
                return false;
            }
            let (told, rest) = slot[4..].split_at(NOTICE * usize::from(count));
            told.chunks_exact(NOTICE).all(is_notice) && zeros(rest)
        }
        _ => false,
    }
}

/// Whether the bytes are a follower's image.
pub fn check(image: &Image) -> Option<()> {
    let number = u32_at(image, NUMBER);
    let fits = image[0] == MARK
        && match image[STATE] {
            LOST => zeros(&image[DISPLAY..]),
            SHOWING => {
                Display::at(image, DISPLAY, MOST_PORTS).is_some()
                    && (0..HELD).all(|k| {
                        is_slot(slot(image, k))
                            && (!is_held(image, k) || number.checked_add(2 + k as u32).is_some())
                    })
            }
            _ => false,
        };
    fits.then_some(())
}

/// Takes a packet into a checked image.
pub fn take(image: &mut Image, packet: &Packet) {
    let shown = u32_at(image, NUMBER);
    match (image[STATE], packet) {
        (SHOWING, Packet::Event { number, slot }) => take_event(image, shown, *number, slot),
        (SHOWING, Packet::Picture { number, display }) => {
            if *number > shown {
                set_display(image, display);
                advance(image, shown, *number - shown);
            }
        }
        // Lost: `shown` is the floor.
        (_, Packet::Event { number, .. }) => set_number(image, shown.max(*number)),
        (_, Packet::Picture { number, display }) => {
            if *number >= shown {
                image[STATE] = SHOWING;
                set_number(image, *number);
                set_display(image, display);
            }
        }
    }
}

fn take_event(image: &mut Image, shown: u32, number: u32, packet: &[u8; SLOT]) {
    if number <= shown {
        return;
    }
    let ahead = number - shown;
    if ahead > REACH || (ahead == 1 && packet[1] != 0) {
        let floor = greatest_held(image, shown).map_or(number, |held| held.max(number));
        lose(image, floor);
    } else if ahead == 1 {
        apply(image, packet);
        advance(image, shown, 1);
    } else {
        let k = ahead as usize - 2;
        if !is_held(image, k) {
            image[SLOTS + SLOT * k..SLOTS + SLOT * (k + 1)].copy_from_slice(packet);
        }
    }
}

/// The greatest number that is held.
fn greatest_held(image: &Image, shown: u32) -> Option<u32> {
    let last = (0..HELD).rev().find(|k| is_held(image, *k))?;
    Some(shown + 2 + last as u32)
}

/// The number shown becomes `by` greater; held packets that are then next are applied in turn.
fn advance(image: &mut Image, shown: u32, by: u32) {
    let floor = greatest_held(image, shown);
    // So many slots are behind; the one before the first that stays is the next event's.
    let mut number = shown + by;
    let mut behind = usize::try_from(by).map_or(HELD + 1, |by| by.min(HELD + 1));
    while behind <= HELD && is_held(image, behind - 1) {
        let mut next = [0; SLOT];
        next.copy_from_slice(slot(image, behind - 1));
        if next[1] != 0 {
            lose(image, floor.unwrap_or(number));
            return;
        }
        apply(image, &next);
        number += 1;
        behind += 1;
    }
    set_number(image, number);
    let behind = behind.min(HELD);
    image.copy_within(SLOTS + SLOT * behind.., SLOTS);
    image[FOLLOWER_IMAGE - SLOT * behind..].fill(0);
}

/// The packet's notices act on the display in order.
fn apply(image: &mut Image, packet: &[u8; SLOT]) {
    let mut shown = display(image);
    for notice in packet[4..].chunks_exact(NOTICE).take(packet[3].into()) {
        match notice[0] {
            CONSUMER_DISCONNECTED => shown.consumer = None,
            CONSUMER_CONNECTED => {
                shown.consumer = Some(Contract {
                    port: notice[1],
                    capability: Capability::at(notice, 2),
                });
            }
            PROVIDER_DISCONNECTED => shown.untrack(notice[1]),
            PROVIDER_CONNECTED => shown.track(notice[1]),
            _ => {
                shown.unconstrained = notice[1] == 1;
                shown.available = notice[2];
            }
        }
    }
    set_display(image, &shown);
}

/// Lost, level or waiting, with the figures and the number shown; lost, these are 0.
pub fn shown(image: &Image) -> u64 {
    if image[STATE] == LOST {
        return reply::shown(0, 0, 0, 0);
    }
    let display = display(image);
    reply::shown(
        if waits(image) { 2 } else { 1 },
        u8::from(display.unconstrained),
        display.available,
        u32_at(image, NUMBER),
    )
}

pub fn consumer(image: &Image) -> u64 {
    match display(image).consumer {
        None => reply::consumer(0, 0, Capability::default()),
        Some(Contract { port, capability }) => reply::consumer(1, port, capability),
    }
}

pub fn tracked(image: &Image) -> u64 {
    reply::tracked(display(image).tracked)
}

pub fn write_page(image: &Image, page: &mut [u8; PAGE]) {
    if image[STATE] == LOST {
        page::lost(page);
    } else {
        let number = u32_at(image, NUMBER);
        page::showing(page, waits(image), number, &display(image));
    }
}
