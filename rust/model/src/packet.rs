//! Event packets and full pictures: their values, their reader and their writer.

use crate::number;
use crate::{CUT, FIELD, LEFT_OVER};

/// Ports are 0 to this.
pub const LAST_PORT: u8 = 15;
/// Answers are 0 (done) to this.
pub const LAST_ANSWER: u8 = 10;
/// Reasons are 0 (none) to this.
pub const LAST_REASON: u8 = 6;
/// The greatest number of orders of an event.
pub const MOST_ORDERS: u32 = 35;
/// The greatest number of notices of an event.
pub const MOST_NOTICES: u8 = 4;
/// The greatest `available` figure.
pub const MOST_AVAILABLE: u8 = 16;
/// The greatest number of tracked ports.
pub const MOST_TRACKED: u8 = 4;

#[derive(Clone, Copy, Debug, PartialEq, Eq)]
pub enum PsuType {
    TypeC,
    DcJack,
    Custom0,
    Custom1,
    Custom2,
    Custom3,
}

/// What a flag byte says. A provider's `unconstrained_power` is false.
#[derive(Clone, Copy, Debug, PartialEq, Eq)]
pub struct Flags {
    pub unconstrained_power: bool,
    pub psu_type: Option<PsuType>,
}

#[derive(Clone, Copy, Debug, PartialEq, Eq)]
pub struct Capability {
    pub mv: u16,
    pub ma: u16,
    pub flags: Flags,
}

impl Capability {
    /// mV times mA by 1000, rounded down.
    pub fn mw(&self) -> u32 {
        u32::from(self.mv) * u32::from(self.ma) / 1000
    }
}

#[derive(Clone, Copy, Debug, PartialEq, Eq)]
pub enum Notice {
    /// Reason 0 is none, 1 Detached, to 6 Reset.
    ConsumerDisconnected {
        port: u8,
        reason: u8,
    },
    ConsumerConnected {
        port: u8,
        capability: Capability,
    },
    ProviderDisconnected {
        port: u8,
    },
    ProviderConnected {
        port: u8,
        capability: Capability,
    },
    Unconstrained {
        unconstrained: bool,
        available: u8,
    },
}

#[derive(Clone, Debug, PartialEq, Eq)]
pub struct Event {
    pub number: u32,
    /// 0 is done, 1 to 10 an error.
    pub answer: u8,
    pub orders: u8,
    pub notices: Vec<Notice>,
}

#[derive(Clone, Copy, Debug, PartialEq, Eq)]
pub struct Consumer {
    pub port: u8,
    pub capability: Capability,
}

/// What a picture carries besides its number, and what a follower shows.
#[derive(Clone, Debug, PartialEq, Eq)]
pub struct Display {
    pub consumer: Option<Consumer>,
    pub unconstrained: bool,
    pub available: u8,
    /// Rising, without repetition, at most four.
    pub tracked: Vec<u8>,
}

impl Display {
    /// No consumer, both figures zero, nothing tracked.
    pub fn empty() -> Display {
        Display {
            consumer: None,
            unconstrained: false,
            available: 0,
            tracked: Vec::new(),
        }
    }
}

#[derive(Clone, Debug, PartialEq, Eq)]
pub struct Picture {
    pub number: u32,
    pub display: Display,
}

#[derive(Clone, Debug, PartialEq, Eq)]
pub enum Packet {
    Event(Event),
    Picture(Picture),
}

impl Packet {
    pub fn number(&self) -> u32 {
        match self {
            Packet::Event(event) => event.number,
            Packet::Picture(picture) => picture.number,
        }
    }
}

// Flag bytes.

fn psu_type_of(code: u8) -> Result<Option<PsuType>, u8> {
    match code {
        0 => Ok(None),
        1 => Ok(Some(PsuType::TypeC)),
        2 => Ok(Some(PsuType::DcJack)),
        3 => Ok(Some(PsuType::Custom0)),
        4 => Ok(Some(PsuType::Custom1)),
        5 => Ok(Some(PsuType::Custom2)),
        6 => Ok(Some(PsuType::Custom3)),
        _ => Err(FIELD),
    }
}

fn psu_type_code(psu_type: Option<PsuType>) -> u8 {
    match psu_type {
        None => 0,
        Some(PsuType::TypeC) => 1,
        Some(PsuType::DcJack) => 2,
        Some(PsuType::Custom0) => 3,
        Some(PsuType::Custom1) => 4,
        Some(PsuType::Custom2) => 5,
        Some(PsuType::Custom3) => 6,
    }
}

/// The flags that a byte stands for, or 32.
pub fn flags_of(byte: u8, provider: bool) -> Result<Flags, u8> {
    let unconstrained_power = byte % 2 == 1;
    let type_code = byte / 2 % 8;
    let others = byte / 16;
    if others != 0 {
        return Err(FIELD);
    }
    if provider && unconstrained_power {
        return Err(FIELD);
    }
    let psu_type = psu_type_of(type_code)?;
    Ok(Flags {
        unconstrained_power,
        psu_type,
    })
}

/// The byte that stands for the flags.
pub fn flags_byte(flags: &Flags) -> u8 {
    u8::from(flags.unconstrained_power) + 2 * psu_type_code(flags.psu_type)
}

// Reading. Each part is read from what the part before it left, so the refusal
// given is the first one met from the left.

struct Reader<'a> {
    rest: &'a [u8],
}

impl Reader<'_> {
    fn byte(&mut self) -> Result<u8, u8> {
        if self.rest.is_empty() {
            return Err(CUT);
        }
        let byte = self.rest[0];
        self.rest = &self.rest[1..];
        Ok(byte)
    }

    /// A byte from 0 to `most`.
    fn byte_to(&mut self, most: u8) -> Result<u8, u8> {
        let byte = self.byte()?;
        if byte > most {
            return Err(FIELD);
        }
        Ok(byte)
    }

    fn yes_no(&mut self) -> Result<bool, u8> {
        let byte = self.byte_to(1)?;
        Ok(byte == 1)
    }

    fn port(&mut self) -> Result<u8, u8> {
        self.byte_to(LAST_PORT)
    }

    fn number(&mut self, limit: u32) -> Result<u32, u8> {
        let (value, count) = number::read(self.rest, limit)?;
        self.rest = &self.rest[count..];
        Ok(value)
    }

    fn milli(&mut self) -> Result<u16, u8> {
        let value = self.number(number::MILLI_LIMIT)?;
        Ok(value as u16)
    }

    fn capability(&mut self, provider: bool) -> Result<Capability, u8> {
        let mv = self.milli()?;
        let ma = self.milli()?;
        let flags = flags_of(self.byte()?, provider)?;
        Ok(Capability { mv, ma, flags })
    }

    fn notice(&mut self) -> Result<Notice, u8> {
        let kind = self.byte()?;
        match kind {
            1 => {
                let port = self.port()?;
                let reason = self.byte_to(LAST_REASON)?;
                Ok(Notice::ConsumerDisconnected { port, reason })
            }
            2 => {
                let port = self.port()?;
                let capability = self.capability(false)?;
                Ok(Notice::ConsumerConnected { port, capability })
            }
            3 => {
                let port = self.port()?;
                Ok(Notice::ProviderDisconnected { port })
            }
            4 => {
                let port = self.port()?;
                let capability = self.capability(true)?;
                Ok(Notice::ProviderConnected { port, capability })
            }
            5 => {
                let unconstrained = self.yes_no()?;
                let available = self.byte_to(MOST_AVAILABLE)?;
                Ok(Notice::Unconstrained {
                    unconstrained,
                    available,
                })
            }
            _ => Err(FIELD),
        }
    }

    /// An event after its kind byte.
    fn event(&mut self) -> Result<Event, u8> {
        let number = self.number(number::LIMIT)?;
        if number == 0 {
            return Err(FIELD);
        }
        let answer = self.byte_to(LAST_ANSWER)?;
        let orders = self.number(number::LIMIT)?;
        if orders > MOST_ORDERS {
            return Err(FIELD);
        }
        let count = self.byte_to(MOST_NOTICES)?;
        let mut notices = Vec::new();
        for _ in 0..count {
            notices.push(self.notice()?);
        }
        Ok(Event {
            number,
            answer,
            orders: orders as u8,
            notices,
        })
    }

    /// A picture after its kind byte.
    fn picture(&mut self) -> Result<Picture, u8> {
        let number = self.number(number::LIMIT)?;
        let present = self.yes_no()?;
        let consumer = if present {
            let port = self.port()?;
            let capability = self.capability(false)?;
            Some(Consumer { port, capability })
        } else {
            None
        };
        let unconstrained = self.yes_no()?;
        let available = self.byte_to(MOST_AVAILABLE)?;
        let count = self.byte_to(MOST_TRACKED)?;
        let mut tracked: Vec<u8> = Vec::new();
        for _ in 0..count {
            let port = self.port()?;
            if let Some(&before) = tracked.last()
                && port <= before
            {
                return Err(FIELD);
            }
            tracked.push(port);
        }
        Ok(Picture {
            number,
            display: Display {
                consumer,
                unconstrained,
                available,
                tracked,
            },
        })
    }

    fn packet(&mut self) -> Result<Packet, u8> {
        let kind = self.byte()?;
        match kind {
            1 => Ok(Packet::Event(self.event()?)),
            2 => Ok(Packet::Picture(self.picture()?)),
            _ => Err(FIELD),
        }
    }
}

/// Reads one whole packet, or gives the refusal 30 to 33 met first.
pub fn read(bytes: &[u8]) -> Result<Packet, u8> {
    let mut reader = Reader { rest: bytes };
    let packet = reader.packet()?;
    if !reader.rest.is_empty() {
        return Err(LEFT_OVER);
    }
    Ok(packet)
}

// Writing. The values are taken to be in their ranges.

fn write_capability(out: &mut Vec<u8>, capability: &Capability) {
    out.extend(number::write(u32::from(capability.mv)));
    out.extend(number::write(u32::from(capability.ma)));
    out.push(flags_byte(&capability.flags));
}

fn write_notice(out: &mut Vec<u8>, notice: &Notice) {
    match notice {
        Notice::ConsumerDisconnected { port, reason } => {
            out.push(1);
            out.push(*port);
            out.push(*reason);
        }
        Notice::ConsumerConnected { port, capability } => {
            out.push(2);
            out.push(*port);
            write_capability(out, capability);
        }
        Notice::ProviderDisconnected { port } => {
            out.push(3);
            out.push(*port);
        }
        Notice::ProviderConnected { port, capability } => {
            out.push(4);
            out.push(*port);
            write_capability(out, capability);
        }
        Notice::Unconstrained {
            unconstrained,
            available,
        } => {
            out.push(5);
            out.push(u8::from(*unconstrained));
            out.push(*available);
        }
    }
}

/// Writes a packet whose values are in their ranges.
pub fn write(packet: &Packet) -> Vec<u8> {
    let mut out = Vec::new();
    match packet {
        Packet::Event(event) => {
            out.push(1);
            out.extend(number::write(event.number));
            out.push(event.answer);
            out.extend(number::write(u32::from(event.orders)));
            out.push(event.notices.len() as u8);
            for notice in &event.notices {
                write_notice(&mut out, notice);
            }
        }
        Packet::Picture(picture) => {
            let display = &picture.display;
            out.push(2);
            out.extend(number::write(picture.number));
            match &display.consumer {
                None => out.push(0),
                Some(consumer) => {
                    out.push(1);
                    out.push(consumer.port);
                    write_capability(&mut out, &consumer.capability);
                }
            }
            out.push(u8::from(display.unconstrained));
            out.push(display.available);
            out.push(display.tracked.len() as u8);
            out.extend(&display.tracked);
        }
    }
    out
}
