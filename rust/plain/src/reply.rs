//! The 64-bit results.

use crate::group::Capability;

/// Why a call is turned back.
#[derive(Clone, Copy, Debug, PartialEq, Eq)]
#[repr(u8)]
pub enum Refusal {
    Configuration = 20,
    Image = 21,
    Records = 22,
    Device = 23,
    Kind = 24,
    Open = 25,
    NoOrder = 26,
    NoEvent = 27,
    LastNumber = 28,
    Buffer = 29,
    CutShort = 30,
    Number = 31,
    Field = 32,
    LeftOver = 33,
    Page = 34,
}

/// A result by its bytes, the low byte first, and two halves.
fn fields(low: [u8; 4], d: u16, e: u16) -> u64 {
    u64::from(u32::from_le_bytes(low)) | u64::from(d) << 32 | u64::from(e) << 48
}

/// The number that a call returns.
pub fn number(result: Result<u64, Refusal>) -> u64 {
    result.unwrap_or_else(|refusal| fields([0, refusal as u8, 0, 0], 0, 0))
}

/// The orders to devices.
#[derive(Clone, Copy, Debug, PartialEq, Eq)]
#[repr(u8)]
pub enum Order {
    Disconnect = 0,
    ConnectConsumer = 1,
    ConnectProvider = 2,
    IsReady = 3,
    InitCharger = 4,
    Attach = 5,
    Detach = 6,
    Wait = 7,
}

pub const DONE: u64 = 4;

/// The milliseconds of a wait.
const WAIT_MILLIS: u16 = 800;

/// An order, of which a wait has its milliseconds where the others have mV.
pub fn order(order: Order, device: u8, capability: Capability) -> u64 {
    let Capability { mv, ma, flags } = capability;
    let mv = if order == Order::Wait {
        WAIT_MILLIS
    } else {
        mv
    };
    fields([1, order as u8, device, flags], mv, ma)
}

pub fn closed(answer: u8, expected: u8, actual: u8, orders: u8) -> u64 {
    fields([2, answer, expected, actual], orders.into(), 0)
}

pub fn written(length: usize) -> u64 {
    fields([3, length as u8, 0, 0], 0, 0)
}

pub fn shown(state: u8, unconstrained: u8, available: u8, number: u32) -> u64 {
    fields(
        [5, state, unconstrained, available],
        number as u16,
        (number >> 16) as u16,
    )
}

pub fn consumer(present: u8, port: u8, capability: Capability) -> u64 {
    let Capability { mv, ma, flags } = capability;
    fields([6, present, port, flags], mv, ma)
}

pub fn tracked(ports: u16) -> u64 {
    let [low, high] = ports.to_le_bytes();
    fields([7, ports.count_ones() as u8, low, high], 0, 0)
}
