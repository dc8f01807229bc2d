//! Event packets and full pictures, written and read.

use crate::{
    BUFFER,
    group::{Capability, Contract, Display, LAST_ANSWER, LAST_REASON, MOST_PORTS, Role},
    reply::Refusal,
    service::{ProviderNotice, Service},
};

/// The most notices of an event.
pub const MOST_NOTICES: u8 = 4;
/// The most orders of an event.
pub const MOST_ORDERS: u8 = 35;
/// The length of a held packet, and of a notice in it (docs/STATE.md).
pub const SLOT: usize = 32;
pub const NOTICE: usize = 7;

/// Kinds of packets.
const EVENT: u8 = 1;
const PICTURE: u8 = 2;

/// Kinds of notices.
pub const CONSUMER_DISCONNECTED: u8 = 1;
pub const CONSUMER_CONNECTED: u8 = 2;
pub const PROVIDER_DISCONNECTED: u8 = 3;
pub const PROVIDER_CONNECTED: u8 = 4;
pub const UNCONSTRAINED: u8 = 5;

struct Writer<'a> {
    buffer: &'a mut [u8; BUFFER],
    length: usize,
}

impl Writer<'_> {
    fn byte(&mut self, byte: u8) {
        self.buffer[self.length] = byte;
        self.length += 1;
    }

    fn bytes(&mut self, bytes: &[u8]) {
        self.buffer[self.length..self.length + bytes.len()].copy_from_slice(bytes);
        self.length += bytes.len();
    }

    fn number(&mut self, mut number: u32) {
        while number >= 0x80 {
            self.byte(number as u8 | 0x80);
            number >>= 7;
        }
        self.byte(number as u8);
    }

    fn contract(&mut self, contract: Contract) {
        let Contract { port, capability } = contract;
        self.byte(port);
        self.number(capability.mv.into());
        self.number(capability.ma.into());
        self.byte(capability.flags);
    }
}

/// The packet of the event closed last. It has at most 33 bytes.
pub fn write_packet(service: &Service, buffer: &mut [u8; BUFFER]) -> usize {
    let mut writer = Writer { buffer, length: 0 };
    writer.byte(EVENT);
    writer.number(service.number);
    writer.byte(service.closed_with());
    writer.number(service.orders.into());
    let count = writer.length;
    writer.byte(0);
    let mut notices = 0;
    let told = &service.notices;
    match told.provider {
        ProviderNotice::None => {}
        ProviderNotice::Disconnected { port } => {
            notices += 1;
            writer.bytes(&[PROVIDER_DISCONNECTED, port]);
        }
        ProviderNotice::Connected(contract) => {
            notices += 1;
            writer.byte(PROVIDER_CONNECTED);
            writer.contract(contract);
        }
    }
    if let Some((port, reason)) = told.consumer_disconnected {
        notices += 1;
        writer.bytes(&[CONSUMER_DISCONNECTED, port, reason]);
    }
    if let Some(contract) = told.consumer_connected {
        notices += 1;
        writer.byte(CONSUMER_CONNECTED);
        writer.contract(contract);
    }
    if let Some((unconstrained, available)) = told.unconstrained {
        notices += 1;
        writer.bytes(&[UNCONSTRAINED, u8::from(unconstrained), available]);
    }
    writer.buffer[count] = notices;
    writer.length
}

/// What is held. It has at most 22 bytes.
pub fn write_picture(service: &Service, buffer: &mut [u8; BUFFER]) -> usize {
    let mut writer = Writer { buffer, length: 0 };
    let display = &service.display;
    writer.byte(PICTURE);
    writer.number(service.number);
    match display.consumer {
        None => writer.byte(0),
        Some(contract) => {
            writer.byte(1);
            writer.contract(contract);
        }
    }
    writer.byte(u8::from(display.unconstrained));
    writer.byte(display.available);
    writer.byte(display.tracked.count_ones() as u8);
    for port in (0..MOST_PORTS).filter(|port| display.is_tracked(*port)) {
        writer.byte(port);
    }
    writer.length
}

/// A packet as it was read.
pub enum Packet {
    Event {
        number: u32,
        /// The bytes of a slot that holds it.
        slot: [u8; SLOT],
    },
    Picture {
        number: u32,
        display: Display,
    },
}

struct Reader<'a> {
    rest: &'a [u8],
}

impl Reader<'_> {
    fn byte(&mut self) -> Result<u8, Refusal> {
        let (first, rest) = self.rest.split_first().ok_or(Refusal::CutShort)?;
        self.rest = rest;
        Ok(*first)
    }

    /// A byte of at most `most`.
    fn field(&mut self, most: u8) -> Result<u8, Refusal> {
        let byte = self.byte()?;
        if byte > most {
            Err(Refusal::Field)
        } else {
            Ok(byte)
        }
    }

    /// Five bytes at most; shortest form and limit are looked at after the last one.
    fn number(&mut self, most: u32) -> Result<u32, Refusal> {
        let mut number = 0;
        for place in 0..5 {
            let byte = self.byte()?;
            number |= u64::from(byte & 0x7F) << (7 * place);
            if byte < 0x80 {
                let shortest = byte != 0 || place == 0;
                return match u32::try_from(number) {
                    Ok(number) if shortest && number <= most => Ok(number),
                    _ => Err(Refusal::Number),
                };
            }
        }
        Err(Refusal::Number)
    }

    fn port(&mut self) -> Result<u8, Refusal> {
        self.field(MOST_PORTS - 1)
    }

    fn contract(&mut self, role: Role) -> Result<Contract, Refusal> {
        let port = self.port()?;
        let mv = self.number(u16::MAX.into())? as u16;
        let ma = self.number(u16::MAX.into())? as u16;
        let flags = self.byte()?;
        if !role.has(flags) {
            return Err(Refusal::Field);
        }
        Ok(Contract {
            port,
            capability: Capability { mv, ma, flags },
        })
    }

    /// The bytes of a notice in a slot.
    fn notice(&mut self, notice: &mut [u8]) -> Result<(), Refusal> {
        let kind = self.byte()?;
        notice[0] = kind;
        match kind {
            CONSUMER_DISCONNECTED => {
                notice[1] = self.port()?;
                notice[2] = self.field(LAST_REASON)?;
            }
            CONSUMER_CONNECTED => self.contract(Role::Consumer)?.put(notice, 1),
            PROVIDER_DISCONNECTED => notice[1] = self.port()?,
            PROVIDER_CONNECTED => self.contract(Role::Provider)?.put(notice, 1),
            UNCONSTRAINED => {
                notice[1] = self.field(1)?;
                notice[2] = self.field(MOST_PORTS)?;
            }
            _ => return Err(Refusal::Field),
        }
        Ok(())
    }

    fn event(&mut self) -> Result<Packet, Refusal> {
        let number = self.number(u32::MAX)?;
        if number == 0 {
            return Err(Refusal::Field);
        }
        let answer = self.field(LAST_ANSWER)?;
        let orders = self.number(u32::MAX)?;
        if orders > MOST_ORDERS.into() {
            return Err(Refusal::Field);
        }
        let count = self.field(MOST_NOTICES)?;
        let mut slot = [0; SLOT];
        slot[..4].copy_from_slice(&[1, answer, orders as u8, count]);
        for notice in slot[4..].chunks_exact_mut(NOTICE).take(count.into()) {
            self.notice(notice)?;
        }
        Ok(Packet::Event { number, slot })
    }

    fn picture(&mut self) -> Result<Packet, Refusal> {
        let number = self.number(u32::MAX)?;
        let consumer = match self.field(1)? {
            0 => None,
            _ => Some(self.contract(Role::Consumer)?),
        };
        let unconstrained = self.field(1)? == 1;
        let available = self.field(MOST_PORTS)?;
        let mut tracked: u16 = 0;
        for _ in 0..self.field(4)? {
            let port = self.port()?;
            // Above all before it.
            if tracked >> port != 0 {
                return Err(Refusal::Field);
            }
            tracked |= 1 << port;
        }
        Ok(Packet::Picture {
            number,
            display: Display {
                consumer,
                unconstrained,
                available,
                tracked,
            },
        })
    }
}

/// Reads the bytes of one packet.
pub fn read(packet: &[u8]) -> Result<Packet, Refusal> {
    let mut reader = Reader { rest: packet };
    let packet = match reader.byte()? {
        EVENT => reader.event()?,
        PICTURE => reader.picture()?,
        _ => return Err(Refusal::Field),
    };
    if reader.rest.is_empty() {
        Ok(packet)
    } else {
        Err(Refusal::LeftOver)
    }
}
