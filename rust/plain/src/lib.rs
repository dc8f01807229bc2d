//! The C functions of the power policy in plain Rust, on the images of docs/STATE.md.
//!
//! Written from the requirements and docs/STATE.md alone, to compare with: by results, by bytes and by speed.
//! Each function takes what the C function of its name takes, a slice where that has a pointer and a length, and
//! returns the same 64-bit number.

#![no_std]
#![forbid(unsafe_code)]

mod follower;
mod group;
mod page;
mod record;
mod reply;
mod service;
mod wire;

use reply::{Refusal, number};
use service::{Config, Event, Service};

/// The length of a service's image.
pub const SERVICE_IMAGE: usize = 67;
/// The length of a follower's image.
pub const FOLLOWER_IMAGE: usize = 241;
/// The length of a PSU record.
pub const PSU_RECORD: usize = 18;
/// The length of a charger record.
pub const CHARGER_RECORD: usize = 7;
/// The least length of a buffer for a packet or picture.
pub const BUFFER: usize = 64;
/// The length of a page, and the least length of a buffer for it.
pub const PAGE: usize = 246;

/// The image of a service, and the service that is written so.
fn service(image: &mut [u8]) -> Result<(&mut [u8; SERVICE_IMAGE], Service), Refusal> {
    let image: &mut [u8; SERVICE_IMAGE] = image.try_into().map_err(|_| Refusal::Image)?;
    let service = Service::from_image(image).ok_or(Refusal::Image)?;
    Ok((image, service))
}

fn service_of(image: &[u8]) -> Result<Service, Refusal> {
    let image = image.try_into().map_err(|_| Refusal::Image)?;
    Service::from_image(image).ok_or(Refusal::Image)
}

/// Writes a fresh service.
#[allow(clippy::too_many_arguments)]
pub fn start(
    image: &mut [u8],
    ports: u32,
    chargers: u32,
    threshold_mw: u64,
    unlimited_mv: u64,
    unlimited_ma: u64,
    limited_mv: u64,
    limited_ma: u64,
    minimum_present: u64,
    minimum_mw: u64,
) -> u64 {
    number((|| {
        let service = Service::start(
            ports,
            chargers,
            Config::from_numbers(
                threshold_mw,
                [unlimited_mv, unlimited_ma],
                [limited_mv, limited_ma],
                minimum_present,
                minimum_mw,
            ),
        );
        let service = service.ok_or(Refusal::Configuration)?;
        let image: &mut [u8; SERVICE_IMAGE] = image.try_into().map_err(|_| Refusal::Image)?;
        *image = service.to_image();
        Ok(reply::DONE)
    })())
}

/// Opens an event and gives its first order, or its close.
pub fn open(
    image: &mut [u8],
    psus: &[u8],
    chargers: &[u8],
    kind: u32,
    device: u32,
    detail: u32,
) -> u64 {
    number((|| {
        let (image, mut service) = service(image)?;
        let records = record::rows(psus, service.ports, chargers, service.chargers)
            .ok_or(Refusal::Records)?;
        let event = Event::from_numbers(kind, device, detail, service.ports, service.chargers)?;
        if service.is_open() {
            return Err(Refusal::Open);
        }
        if event == Event::Charger {
            return Ok(reply::closed(0, 0, 0, 0));
        }
        if service.number == u32::MAX {
            return Err(Refusal::LastNumber);
        }
        service.open(event, &records);
        *image = service.to_image();
        Ok(service.stand())
    })())
}

/// Takes the answer to the last order and gives the next, or the close.
pub fn answer(image: &mut [u8], psus: &[u8], chargers: &[u8], answer: u32) -> u64 {
    number((|| {
        let (image, mut service) = service(image)?;
        let records = record::rows(psus, service.ports, chargers, service.chargers)
            .ok_or(Refusal::Records)?;
        let answer = service.accepted(answer).ok_or(Refusal::Kind)?;
        if !service.is_open() {
            return Err(Refusal::NoOrder);
        }
        service.answer(answer, &records);
        *image = service.to_image();
        Ok(service.stand())
    })())
}

/// The order that waits for its answer, or the last close.
pub fn order(image: &[u8]) -> u64 {
    number(service_of(image).map(|service| service.stand()))
}

/// Writes the packet of the event closed last.
pub fn write_packet(image: &[u8], buffer: &mut [u8]) -> u64 {
    number((|| {
        let service = service_of(image)?;
        if service.is_open() {
            return Err(Refusal::Open);
        }
        if service.number == 0 {
            return Err(Refusal::NoEvent);
        }
        let buffer = buffer.first_chunk_mut().ok_or(Refusal::Buffer)?;
        Ok(reply::written(wire::write_packet(&service, buffer)))
    })())
}

/// Writes what is held at the number of the event closed last.
pub fn write_picture(image: &[u8], buffer: &mut [u8]) -> u64 {
    number((|| {
        let service = service_of(image)?;
        if service.is_open() {
            return Err(Refusal::Open);
        }
        let buffer = buffer.first_chunk_mut().ok_or(Refusal::Buffer)?;
        Ok(reply::written(wire::write_picture(&service, buffer)))
    })())
}

/// Writes a fresh follower: lost, with floor 0.
pub fn follower_start(image: &mut [u8]) -> u64 {
    number((|| {
        let image: &mut [u8; FOLLOWER_IMAGE] = image.try_into().map_err(|_| Refusal::Image)?;
        follower::start(image);
        Ok(reply::DONE)
    })())
}

/// Takes a packet or picture.
pub fn follower_take(image: &mut [u8], packet: &[u8]) -> u64 {
    number((|| {
        let image: &mut [u8; FOLLOWER_IMAGE] = image.try_into().map_err(|_| Refusal::Image)?;
        follower::check(image).ok_or(Refusal::Image)?;
        let packet = wire::read(packet)?;
        follower::take(image, &packet);
        Ok(reply::DONE)
    })())
}

fn follower_of(image: &[u8]) -> Result<&[u8; FOLLOWER_IMAGE], Refusal> {
    let image = image.try_into().map_err(|_| Refusal::Image)?;
    follower::check(image).ok_or(Refusal::Image)?;
    Ok(image)
}

/// Whether the follower is lost, level or waiting, the number shown and the unconstrained figures.
pub fn follower_shown(image: &[u8]) -> u64 {
    number(follower_of(image).map(follower::shown))
}

/// The consumer shown.
pub fn follower_consumer(image: &[u8]) -> u64 {
    number(follower_of(image).map(follower::consumer))
}

/// The tracked ports shown.
pub fn follower_tracked(image: &[u8]) -> u64 {
    number(follower_of(image).map(follower::tracked))
}

/// Writes the page of what the follower shows.
pub fn follower_write_page(image: &[u8], buffer: &mut [u8]) -> u64 {
    number((|| {
        let image = follower_of(image)?;
        let page = buffer.first_chunk_mut().ok_or(Refusal::Page)?;
        follower::write_page(image, page);
        Ok(reply::written(PAGE))
    })())
}
