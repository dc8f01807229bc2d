//! What a call returns, taken apart.

use core::fmt;

use crate::{
    PAGE,
    capability::{ConsumerPowerCapability, PowerCapability, ProviderPowerCapability},
};

/// Why a call was turned back. It changed nothing.
///
/// A later version may have more of them.
///
/// ```
/// use power_policy::{Error, Refusal};
///
/// assert_eq!(Refusal::Buffer.to_string(), "a buffer under 64 bytes");
/// assert_eq!(Error::Refused(Refusal::Buffer).to_string(), "refused with 29: a buffer under 64 bytes");
/// ```
#[derive(Clone, Copy, Debug, PartialEq, Eq)]
#[non_exhaustive]
#[repr(u8)]
pub enum Refusal {
    /// Over 16 ports or 8 chargers, a configuration figure over its type, or a minimum's presence above 1.
    Configuration = 20,
    /// Bytes that no state is written as.
    Image = 21,
    /// Records of wrong length or with a field out of range.
    Records = 22,
    /// A port or charger that is not registered.
    Device = 23,
    /// An unknown event kind, reason, PSU state or answer, or an answer that the order cannot have.
    Kind = 24,
    /// An event is open.
    Open = 25,
    /// No order is open.
    NoOrder = 26,
    /// A packet before event 1.
    NoEvent = 27,
    /// A PSU event after number 4,294,967,295.
    LastNumber = 28,
    /// A buffer under 64 bytes.
    Buffer = 29,
    /// A packet that is cut short or empty.
    CutShort = 30,
    /// A number that is not in its shortest form or over its limit.
    Number = 31,
    /// A kind or field that is not as laid out.
    Field = 32,
    /// Bytes after the packet's end.
    LeftOver = 33,
    /// A buffer under 246 bytes for a page.
    Page = 34,
}

impl Refusal {
    /// All, by their numbers.
    pub const ALL: &'static [Self] = &[
        Self::Configuration,
        Self::Image,
        Self::Records,
        Self::Device,
        Self::Kind,
        Self::Open,
        Self::NoOrder,
        Self::NoEvent,
        Self::LastNumber,
        Self::Buffer,
        Self::CutShort,
        Self::Number,
        Self::Field,
        Self::LeftOver,
        Self::Page,
    ];

    /// 20 to 34.
    pub fn number(self) -> u8 {
        self as u8
    }

    /// The refusal of a number, if there is one.
    ///
    /// ```
    /// use power_policy::Refusal;
    ///
    /// assert_eq!(Refusal::from_number(23), Some(Refusal::Device));
    /// assert_eq!(Refusal::from_number(19), None);
    /// ```
    pub fn from_number(number: u8) -> Option<Self> {
        Self::ALL
            .iter()
            .copied()
            .find(|refusal| refusal.number() == number)
    }

    /// What was refused, in words: those of `power_policy_refusal_text`.
    pub fn text(self) -> &'static str {
        match self {
            Self::Configuration => {
                "over 16 ports or 8 chargers, a configuration figure over its type, or a minimum's presence above 1"
            }
            Self::Image => "bytes that no state is written as",
            Self::Records => "records of wrong length or with a field out of range",
            Self::Device => "a port or charger that is not registered",
            Self::Kind => {
                "an unknown event kind, reason, PSU state or answer, or an answer that the order cannot have"
            }
            Self::Open => "an event is open",
            Self::NoOrder => "no order is open",
            Self::NoEvent => "a packet before event 1",
            Self::LastNumber => "a PSU event after number 4,294,967,295",
            Self::Buffer => "a buffer under 64 bytes",
            Self::CutShort => "a packet that is cut short or empty",
            Self::Number => "a number that is not in its shortest form or over its limit",
            Self::Field => "a kind or field that is not as laid out",
            Self::LeftOver => "bytes after the packet's end",
            Self::Page => "a buffer under 246 bytes for a page",
        }
    }
}

impl fmt::Display for Refusal {
    fn fmt(&self, f: &mut fmt::Formatter<'_>) -> fmt::Result {
        f.write_str(self.text())
    }
}

impl core::error::Error for Refusal {}

/// A call that did not do what it was asked.
#[derive(Clone, Copy, Debug, PartialEq, Eq)]
pub enum Error {
    /// It was turned back, and changed nothing.
    Refused(Refusal),
    /// A result that the functions do not give: the archive is not the one that this crate is for.
    Unknown(u64),
}

impl fmt::Display for Error {
    fn fmt(&self, f: &mut fmt::Formatter<'_>) -> fmt::Result {
        match self {
            Self::Refused(refusal) => write!(f, "refused with {}: {refusal}", refusal.number()),
            Self::Unknown(result) => write!(
                f,
                "unknown result {result:#x}: libpower_policy.a is not of this crate's version"
            ),
        }
    }
}

impl core::error::Error for Error {}

/// A PSU's error. What it carries in the original is dropped.
#[derive(Clone, Copy, Debug, PartialEq, Eq)]
pub enum PsuError {
    /// There is no such device.
    InvalidDevice = 1,
    /// The device does not provide.
    CannotProvide = 2,
    /// The device does not consume.
    CannotConsume = 3,
    /// The device is in a wrong state.
    InvalidState = 4,
    /// The device's response cannot be read.
    InvalidResponse = 5,
    /// The device cannot respond now.
    Busy = 6,
    /// The device did not respond in time.
    Timeout = 7,
    /// The bus to the device failed.
    Bus = 8,
    /// A charger failed.
    Charger = 9,
    /// The device failed in another way.
    Failed = 10,
}

impl PsuError {
    fn from_number(number: u8) -> Option<Self> {
        Some(match number {
            1 => Self::InvalidDevice,
            2 => Self::CannotProvide,
            3 => Self::CannotConsume,
            4 => Self::InvalidState,
            5 => Self::InvalidResponse,
            6 => Self::Busy,
            7 => Self::Timeout,
            8 => Self::Bus,
            9 => Self::Charger,
            10 => Self::Failed,
            _ => return None,
        })
    }
}

impl fmt::Display for PsuError {
    fn fmt(&self, f: &mut fmt::Formatter<'_>) -> fmt::Result {
        f.write_str(match self {
            Self::InvalidDevice => "there is no such device",
            Self::CannotProvide => "the device does not provide",
            Self::CannotConsume => "the device does not consume",
            Self::InvalidState => "the device is in a wrong state",
            Self::InvalidResponse => "the device's response cannot be read",
            Self::Busy => "the device cannot respond now",
            Self::Timeout => "the device did not respond in time",
            Self::Bus => "the bus to the device failed",
            Self::Charger => "a charger failed",
            Self::Failed => "the device failed",
        })
    }
}

impl core::error::Error for PsuError {}

/// A charger's error, whatever it was.
#[derive(Clone, Copy, Debug, PartialEq, Eq)]
pub struct ChargerError;

impl fmt::Display for ChargerError {
    fn fmt(&self, f: &mut fmt::Formatter<'_>) -> fmt::Result {
        PsuError::Charger.fmt(f)
    }
}

impl core::error::Error for ChargerError {}

/// An answer to an order.
#[derive(Clone, Copy, Debug, PartialEq, Eq)]
pub enum Answer {
    /// The order was carried out.
    Done,
    /// The order failed. A charger's order fails by [`PsuError::Charger`] alone, a wait not at all.
    Failed(PsuError),
}

impl Answer {
    /// 0 to 10.
    pub fn number(self) -> u32 {
        match self {
            Self::Done => 0,
            Self::Failed(error) => error as u32,
        }
    }
}

impl From<Result<(), PsuError>> for Answer {
    fn from(result: Result<(), PsuError>) -> Self {
        result.map_or_else(Self::Failed, |()| Self::Done)
    }
}

impl From<Result<(), ChargerError>> for Answer {
    fn from(result: Result<(), ChargerError>) -> Self {
        result.map_or(Self::Failed(PsuError::Charger), |()| Self::Done)
    }
}

/// An order to a device.
///
/// A later version may have more of them, so that a `match` in another crate ends with `_`. What it does not know it does not answer, and the
/// event stays open:
///
/// ```
/// use power_policy::{Answer, Order};
///
/// fn carry_out(order: Order) -> Option<Answer> {
///     match order {
///         Order::Disconnect { port } => { /* .. */ Some(Answer::Done) }
///         Order::Wait { millis } => { /* .. */ Some(Answer::Done) }
///         // .. and the other six
///         _ => None,
///     }
/// }
/// assert_eq!(carry_out(Order::Wait { millis: 800 }), Some(Answer::Done));
/// ```
#[derive(Clone, Copy, Debug, PartialEq, Eq)]
#[non_exhaustive]
pub enum Order {
    /// Disconnect power from a port.
    Disconnect {
        /// The port.
        port: u8,
    },
    /// Connect a port to consume.
    ConnectConsumer {
        /// The port.
        port: u8,
        /// What it is to consume.
        capability: ConsumerPowerCapability,
    },
    /// Connect a port to provide.
    ConnectProvider {
        /// The port.
        port: u8,
        /// What it is granted.
        capability: ProviderPowerCapability,
    },
    /// Make sure that a charger is powered and ready to communicate.
    IsReady {
        /// The charger.
        charger: u8,
    },
    /// Initialize a charger.
    InitCharger {
        /// The charger.
        charger: u8,
    },
    /// Tell a charger that a consumer is connected.
    Attach {
        /// The charger.
        charger: u8,
        /// What the consumer consumes.
        capability: ConsumerPowerCapability,
    },
    /// Tell a charger that the consumer is disconnected.
    Detach {
        /// The charger.
        charger: u8,
    },
    /// Wait.
    Wait {
        /// How long: [`crate::WAIT_MILLIS`].
        millis: u16,
    },
}

/// The kinds of a PSU's states.
#[derive(Clone, Copy, Debug, PartialEq, Eq)]
pub enum StateKind {
    /// No device is attached.
    Detached = 0,
    /// A device is attached, and neither consumes nor provides.
    Idle = 1,
    /// A device is provided.
    ConnectedProvider = 2,
    /// A device is consumed from.
    ConnectedConsumer = 3,
}

impl StateKind {
    fn from_number(number: u8) -> Option<Self> {
        Some(match number {
            0 => Self::Detached,
            1 => Self::Idle,
            2 => Self::ConnectedProvider,
            3 => Self::ConnectedConsumer,
            _ => return None,
        })
    }
}

/// A set of states, bit s for state s.
#[derive(Clone, Copy, Debug, PartialEq, Eq)]
pub struct StateSet(pub u8);

impl StateSet {
    /// Whether a state is in the set.
    ///
    /// ```
    /// use power_policy::{StateKind, StateSet};
    ///
    /// assert!(StateSet(6).contains(StateKind::Idle) && !StateSet(6).contains(StateKind::Detached));
    /// ```
    pub fn contains(self, kind: StateKind) -> bool {
        self.0 >> kind as u8 & 1 == 1
    }
}

/// How an event closed.
#[derive(Clone, Copy, Debug, PartialEq, Eq)]
pub struct Outcome {
    /// How it ended.
    pub end: End,
    /// How many orders the event has given, 0 to 35, a failed one too; 0 for a charger's event.
    pub orders: u8,
}

/// How an event ended.
#[derive(Clone, Copy, Debug, PartialEq, Eq)]
pub enum End {
    /// Without an error.
    Done,
    /// By the error of a device.
    Failed(PsuError),
    /// A port was not in one of the states that a connection needs.
    WrongState {
        /// The states that it needs.
        expected: StateSet,
        /// The state that the port was in.
        actual: StateKind,
    },
}

/// Where an event stands.
#[derive(Clone, Copy, Debug, PartialEq, Eq)]
pub enum Reply {
    /// It waits for the answer to this order.
    Order(Order),
    /// It is closed.
    Closed(Outcome),
}

/// What a follower shows.
#[derive(Clone, Copy, Debug, PartialEq, Eq)]
pub enum Shown {
    /// Nothing, until a full picture comes.
    Lost,
    /// Nothing is held.
    Level(Figures),
    /// A later packet is held.
    Waiting(Figures),
}

/// What a follower shows besides the consumer and the tracked ports.
#[derive(Clone, Copy, Debug, PartialEq, Eq)]
pub struct Figures {
    /// The number of the event shown.
    pub number: u32,
    /// Whether the consumer is unconstrained.
    pub unconstrained: bool,
    /// How many unconstrained consumers are available, 0 to 16.
    pub available: u8,
}

/// A consumer shown.
#[derive(Clone, Copy, Debug, PartialEq, Eq)]
pub struct Consumer {
    /// Its port.
    pub port: u8,
    /// What it consumes.
    pub capability: ConsumerPowerCapability,
}

/// Tracked ports, bit p for port p.
#[derive(Clone, Copy, Debug, PartialEq, Eq)]
pub struct Tracked(pub u16);

impl Tracked {
    /// Whether a port is tracked.
    pub fn contains(self, port: u8) -> bool {
        u32::from(self.0)
            .checked_shr(port.into())
            .is_some_and(|ports| ports & 1 == 1)
    }

    /// How many are tracked, 0 to 4.
    pub fn count(self) -> u32 {
        self.0.count_ones()
    }

    /// The ports, rising.
    ///
    /// ```
    /// assert!(power_policy::Tracked(0x8001).ports().eq([0, 15]));
    /// ```
    pub fn ports(self) -> impl Iterator<Item = u8> {
        (0..16).filter(move |port| self.contains(*port))
    }
}

/// A result by its parts: the low four bytes, mV and mA.
struct Parts([u8; 4], PowerCapability);

fn parts(result: u64) -> Parts {
    let [outcome, a, b, c, v0, v1, a0, a1] = result.to_le_bytes();
    let capability = PowerCapability {
        voltage_mv: u16::from_le_bytes([v0, v1]),
        current_ma: u16::from_le_bytes([a0, a1]),
    };
    Parts([outcome, a, b, c], capability)
}

/// The error that a result is that is not the wanted one.
fn error(result: u64) -> Error {
    match parts(result).0 {
        [0, number, ..] => {
            Refusal::from_number(number).map_or(Error::Unknown(result), Error::Refused)
        }
        _ => Error::Unknown(result),
    }
}

fn order([kind, device, flags]: [u8; 3], power: PowerCapability) -> Option<Order> {
    let consumer = ConsumerPowerCapability::from_fields(power, flags);
    Some(match kind {
        0 => Order::Disconnect { port: device },
        1 => Order::ConnectConsumer {
            port: device,
            capability: consumer,
        },
        2 => Order::ConnectProvider {
            port: device,
            capability: ProviderPowerCapability::from_fields(power, flags),
        },
        3 => Order::IsReady { charger: device },
        4 => Order::InitCharger { charger: device },
        5 => Order::Attach {
            charger: device,
            capability: consumer,
        },
        6 => Order::Detach { charger: device },
        7 => Order::Wait {
            millis: power.voltage_mv,
        },
        _ => return None,
    })
}

fn end([answer, expected, actual]: [u8; 3]) -> Option<End> {
    match (answer, expected) {
        (0, _) => Some(End::Done),
        (_, 0) => PsuError::from_number(answer).map(End::Failed),
        _ => StateKind::from_number(actual).map(|actual| End::WrongState {
            expected: StateSet(expected),
            actual,
        }),
    }
}

fn outcome(close: [u8; 3], orders: u8) -> Option<Outcome> {
    end(close).map(|end| Outcome { end, orders })
}

pub(crate) fn reply(result: u64) -> Result<Reply, Error> {
    let Parts([kind, a, b, c], power) = parts(result);
    let reply = match kind {
        1 => order([a, b, c], power).map(Reply::Order),
        2 => outcome([a, b, c], (result >> 32) as u8).map(Reply::Closed),
        _ => None,
    };
    reply.ok_or_else(|| error(result))
}

pub(crate) fn written(result: u64) -> Result<usize, Error> {
    match parts(result).0 {
        [3, length, ..] => Ok(length.into()),
        _ => Err(error(result)),
    }
}

/// A page is written, which has one length.
pub(crate) fn page(result: u64) -> Result<(), Error> {
    match written(result)? {
        PAGE => Ok(()),
        _ => Err(error(result)),
    }
}

pub(crate) fn done(result: u64) -> Result<(), Error> {
    match parts(result).0 {
        [4, ..] => Ok(()),
        _ => Err(error(result)),
    }
}

pub(crate) fn shown(result: u64) -> Result<Shown, Error> {
    let [kind, state, unconstrained, available] = parts(result).0;
    let figures = Figures {
        number: (result >> 32) as u32,
        unconstrained: unconstrained == 1,
        available,
    };
    match (kind, state) {
        (5, 0) => Ok(Shown::Lost),
        (5, 1) => Ok(Shown::Level(figures)),
        (5, 2) => Ok(Shown::Waiting(figures)),
        _ => Err(error(result)),
    }
}

pub(crate) fn consumer(result: u64) -> Result<Option<Consumer>, Error> {
    let Parts([kind, present, port, flags], power) = parts(result);
    match (kind, present) {
        (6, 0) => Ok(None),
        (6, 1) => Ok(Some(Consumer {
            port,
            capability: ConsumerPowerCapability::from_fields(power, flags),
        })),
        _ => Err(error(result)),
    }
}

pub(crate) fn tracked(result: u64) -> Result<Tracked, Error> {
    match parts(result).0 {
        [7, _, low, high] => Ok(Tracked(u16::from_le_bytes([low, high]))),
        _ => Err(error(result)),
    }
}

#[cfg(test)]
mod tests {
    use super::*;

    #[test]
    fn refusals_by_number() {
        assert_eq!(Refusal::ALL.len(), 15);
        for (number, refusal) in (20..).zip(Refusal::ALL.iter().copied()) {
            assert_eq!(refusal.number(), number);
            let result = u64::from(number) << 8;
            let refused = Error::Refused(refusal);
            assert_eq!(reply(result), Err(refused));
            assert_eq!(written(result), Err(refused));
            assert_eq!(page(result), Err(refused));
            assert_eq!(done(result), Err(refused));
            assert_eq!(shown(result), Err(refused));
            assert_eq!(consumer(result), Err(refused));
            assert_eq!(tracked(result), Err(refused));
        }
        for result in [0, 19 << 8, 35 << 8, 8, 255] {
            assert_eq!(reply(result), Err(Error::Unknown(result)));
            assert_eq!(done(result), Err(Error::Unknown(result)));
        }
    }

    #[test]
    fn orders_and_closes() {
        let power = PowerCapability {
            voltage_mv: 0x1234,
            current_ma: 0x5678,
        };
        let result = 0x5678_1234_0D0F_0101;
        let capability = ConsumerPowerCapability::from_fields(power, 13);
        assert_eq!(capability.encode(), [0x34, 0x12, 0x78, 0x56, 13]);
        assert_eq!(
            reply(result),
            Ok(Reply::Order(Order::ConnectConsumer {
                port: 15,
                capability
            }))
        );
        let wait = Order::Wait { millis: 800 };
        assert_eq!(reply(0x0320_0000_0701), Ok(Reply::Order(wait)));
        assert_eq!(reply(0x0801), Err(Error::Unknown(0x0801)));
        let closed = |end, orders| Ok(Reply::Closed(Outcome { end, orders }));
        assert_eq!(reply(0x02), closed(End::Done, 0));
        assert_eq!(reply(0x23_0000_0002), closed(End::Done, 35));
        let failed = End::Failed(PsuError::InvalidState);
        assert_eq!(reply(0x01_0000_0402), closed(failed, 1));
        let wrong = End::WrongState {
            expected: StateSet(10),
            actual: StateKind::ConnectedProvider,
        };
        assert_eq!(reply(0x03_020A_0402), closed(wrong, 3));
        assert!(StateSet(10).contains(StateKind::Idle));
        assert!(!StateSet(10).contains(StateKind::Detached));
        assert_eq!(reply(0x0B02), Err(Error::Unknown(0x0B02)));
        assert_eq!(written(0xFF03), Ok(255));
        assert_eq!(page(0xF603), Ok(()));
        assert_eq!(page(0xF503), Err(Error::Unknown(0xF503)));
    }

    #[test]
    fn what_is_shown() {
        assert_eq!(shown(0x05), Ok(Shown::Lost));
        let figures = Figures {
            number: 0x89AB_CDEF,
            unconstrained: true,
            available: 16,
        };
        assert_eq!(shown(0x89AB_CDEF_1001_0105), Ok(Shown::Level(figures)));
        assert_eq!(shown(0x89AB_CDEF_1001_0205), Ok(Shown::Waiting(figures)));
        assert_eq!(shown(0x0305), Err(Error::Unknown(0x0305)));
        assert_eq!(consumer(0x06), Ok(None));
        assert_eq!(tracked(0x8001_0207), Ok(Tracked(0x8001)));
        let mut ports = Tracked(0x8001).ports();
        assert_eq!(
            (ports.next(), ports.next(), ports.next()),
            (Some(0), Some(15), None)
        );
        assert!(!Tracked(0xFFFF).contains(16) && !Tracked(0xFFFF).contains(255));
    }
}
