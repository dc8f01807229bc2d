//! The functions under test, and one call of one of them with everything that it was lent.

use std::sync::atomic::{AtomicUsize, Ordering};

use crate::bytes::{BUFFER, PAGE, WAIT_MILLIS};

/// The twelve functions, on slices.
pub trait Calls {
    #[allow(clippy::too_many_arguments)]
    fn start(&self, image: &mut [u8], ports: u32, chargers: u32, figures: [u64; 7]) -> u64;
    fn open(
        &self,
        image: &mut [u8],
        psus: &[u8],
        chargers: &[u8],
        kind: u32,
        device: u32,
        detail: u32,
    ) -> u64;
    fn answer(&self, image: &mut [u8], psus: &[u8], chargers: &[u8], answer: u32) -> u64;
    fn order(&self, image: &[u8]) -> u64;
    fn write_packet(&self, image: &[u8], buffer: &mut [u8]) -> u64;
    fn write_picture(&self, image: &[u8], buffer: &mut [u8]) -> u64;
    fn follower_start(&self, image: &mut [u8]) -> u64;
    fn follower_take(&self, image: &mut [u8], packet: &[u8]) -> u64;
    fn follower_shown(&self, image: &[u8]) -> u64;
    fn follower_consumer(&self, image: &[u8]) -> u64;
    fn follower_tracked(&self, image: &[u8]) -> u64;
    fn follower_write_page(&self, image: &[u8], buffer: &mut [u8]) -> u64;
}

/// Implements [`Calls`] by functions of these names in a module.
macro_rules! calls {
    ($name:ident, $module:path) => {
        impl Calls for $name {
            fn start(&self, image: &mut [u8], ports: u32, chargers: u32, figures: [u64; 7]) -> u64 {
                use $module as m;
                let [a, b, c, d, e, f, g] = figures;
                m::start(image, ports, chargers, a, b, c, d, e, f, g)
            }

            fn open(
                &self,
                image: &mut [u8],
                psus: &[u8],
                chargers: &[u8],
                kind: u32,
                device: u32,
                detail: u32,
            ) -> u64 {
                use $module as m;
                m::open(image, psus, chargers, kind, device, detail)
            }

            fn answer(&self, image: &mut [u8], psus: &[u8], chargers: &[u8], answer: u32) -> u64 {
                use $module as m;
                m::answer(image, psus, chargers, answer)
            }

            fn order(&self, image: &[u8]) -> u64 {
                use $module as m;
                m::order(image)
            }

            fn write_packet(&self, image: &[u8], buffer: &mut [u8]) -> u64 {
                use $module as m;
                m::write_packet(image, buffer)
            }

            fn write_picture(&self, image: &[u8], buffer: &mut [u8]) -> u64 {
                use $module as m;
                m::write_picture(image, buffer)
            }

            fn follower_start(&self, image: &mut [u8]) -> u64 {
                use $module as m;
                m::follower_start(image)
            }

            fn follower_take(&self, image: &mut [u8], packet: &[u8]) -> u64 {
                use $module as m;
                m::follower_take(image, packet)
            }

            fn follower_shown(&self, image: &[u8]) -> u64 {
                use $module as m;
                m::follower_shown(image)
            }

            fn follower_consumer(&self, image: &[u8]) -> u64 {
                use $module as m;
                m::follower_consumer(image)
            }

            fn follower_tracked(&self, image: &[u8]) -> u64 {
                use $module as m;
                m::follower_tracked(image)
            }

            fn follower_write_page(&self, image: &[u8], buffer: &mut [u8]) -> u64 {
                use $module as m;
                m::follower_write_page(image, buffer)
            }
        }
    };
}

/// The plain implementation.
pub struct Plain;
calls!(Plain, plain);

/// The archive, through the C functions.
#[cfg(feature = "archive")]
pub struct Archive;
#[cfg(feature = "archive")]
calls!(Archive, power_policy::ffi);

/// A call, with what it is lent besides the image.
#[derive(Clone, Debug, PartialEq, Eq)]
pub enum Call {
    Start {
        ports: u32,
        chargers: u32,
        /// Threshold, unlimited mV and mA, limited mV and mA, the minimum's presence and figure.
        figures: [u64; 7],
    },
    Open {
        rows: Rows,
        kind: u32,
        device: u32,
        detail: u32,
    },
    Answer {
        rows: Rows,
        answer: u32,
    },
    Order,
    /// The buffer as it is before the call.
    WritePacket(Vec<u8>),
    WritePicture(Vec<u8>),
    FollowerStart,
    FollowerTake(Vec<u8>),
    FollowerShown,
    FollowerConsumer,
    FollowerTracked,
    FollowerWritePage(Vec<u8>),
}

/// The bytes of PSU and charger records.
#[derive(Clone, Debug, Default, PartialEq, Eq)]
pub struct Rows {
    pub psus: Vec<u8>,
    pub chargers: Vec<u8>,
}

/// What a call left.
#[derive(Clone, Debug, PartialEq, Eq)]
pub struct After {
    pub result: u64,
    pub image: Vec<u8>,
    /// The buffer of a write; else empty.
    pub buffer: Vec<u8>,
}

impl After {
    pub fn outcome(&self) -> u8 {
        self.result as u8
    }

    /// The number of a refusal, or 0.
    pub fn refusal(&self) -> u8 {
        if self.outcome() == 0 {
            (self.result >> 8) as u8
        } else {
            0
        }
    }

    /// What was written into the buffer.
    pub fn written(&self) -> &[u8] {
        match self.outcome() {
            3 => &self.buffer[..usize::from((self.result >> 8) as u8)],
            _ => &[],
        }
    }
}

/// How many guard bytes stand before and after what is lent.
static GUARDS: AtomicUsize = AtomicUsize::new(24);

/// From now on what is lent is a block of memory of its own, without guards, so that a tool that watches memory sees every byte read or
/// written outside.
pub fn lend_exactly() {
    GUARDS.store(0, Ordering::Relaxed);
}

/// Bytes with guards before and after them.
struct Lent {
    bytes: Box<[u8]>,
    guards: usize,
}

fn guard(place: usize) -> u8 {
    (place as u8).wrapping_mul(37) ^ 0x5C
}

impl Lent {
    fn new(content: &[u8]) -> Self {
        let guards = GUARDS.load(Ordering::Relaxed);
        let mut bytes: Vec<u8> = (0..guards).map(guard).collect();
        bytes.extend(content);
        bytes.extend((0..guards).map(guard));
        Self {
            bytes: bytes.into_boxed_slice(),
            guards,
        }
    }

    fn lend(&mut self) -> &mut [u8] {
        let end = self.bytes.len() - self.guards;
        &mut self.bytes[self.guards..end]
    }

    fn content(&self) -> &[u8] {
        &self.bytes[self.guards..self.bytes.len() - self.guards]
    }

    fn guards_stand(&self) -> bool {
        let end = &self.bytes[self.bytes.len() - self.guards..];
        let mut guards = (0..self.guards).map(guard).enumerate();
        guards.all(|(place, byte)| self.bytes[place] == byte && end[place] == byte)
    }
}

/// Makes the call on a copy of the image, and looks at what must hold of every call: bytes around what was lent stand, so do bytes
/// that are only read, and all bytes if it is refused; the result is one that the function can give.
pub fn perform(calls: &dyn Calls, image: &[u8], call: &Call) -> Result<After, String> {
    let mut state = Lent::new(image);
    let empty = Vec::new();
    let (first, second): (&[u8], &[u8]) = match call {
        Call::Open { rows, .. } | Call::Answer { rows, .. } => (&rows.psus, &rows.chargers),
        Call::WritePacket(buffer)
        | Call::WritePicture(buffer)
        | Call::FollowerWritePage(buffer) => (buffer, &empty),
        Call::FollowerTake(packet) => (packet, &empty),
        _ => (&empty, &empty),
    };
    let (mut a, mut b) = (Lent::new(first), Lent::new(second));
    let result = match call {
        Call::Start {
            ports,
            chargers,
            figures,
        } => calls.start(state.lend(), *ports, *chargers, *figures),
        Call::Open {
            kind,
            device,
            detail,
            ..
        } => calls.open(state.lend(), a.lend(), b.lend(), *kind, *device, *detail),
        Call::Answer { answer, .. } => calls.answer(state.lend(), a.lend(), b.lend(), *answer),
        Call::Order => calls.order(state.lend()),
        Call::WritePacket(_) => calls.write_packet(state.lend(), a.lend()),
        Call::WritePicture(_) => calls.write_picture(state.lend(), a.lend()),
        Call::FollowerStart => calls.follower_start(state.lend()),
        Call::FollowerTake(_) => calls.follower_take(state.lend(), a.lend()),
        Call::FollowerShown => calls.follower_shown(state.lend()),
        Call::FollowerConsumer => calls.follower_consumer(state.lend()),
        Call::FollowerTracked => calls.follower_tracked(state.lend()),
        Call::FollowerWritePage(_) => calls.follower_write_page(state.lend(), a.lend()),
    };
    let writes_image = matches!(
        call,
        Call::Start { .. }
            | Call::Open { .. }
            | Call::Answer { .. }
            | Call::FollowerStart
            | Call::FollowerTake(_)
    );
    let writes_buffer = matches!(
        call,
        Call::WritePacket(_) | Call::WritePicture(_) | Call::FollowerWritePage(_)
    );
    let refused = result as u8 == 0;
    let complain = |what: &str| Err(format!("{what} (result {result:#x})"));
    if ![&state, &a, &b].iter().all(|lent| lent.guards_stand()) {
        return complain("bytes outside what was lent are changed");
    }
    if (refused || !writes_image) && state.content() != image {
        return complain("the image is changed");
    }
    if (refused || !writes_buffer) && a.content() != first {
        return complain("bytes that were lent are changed");
    }
    if b.content() != second {
        return complain("the charger records are changed");
    }
    if !can_give(call, result) {
        return complain("no result of this function");
    }
    let buffer = if writes_buffer {
        a.content().to_vec()
    } else {
        Vec::new()
    };
    if let [3, length, ..] = result.to_le_bytes() {
        let length = usize::from(length);
        if length > buffer.len() || buffer[length..] != first[length..] {
            return complain("bytes past what is written are changed");
        }
    }
    Ok(After {
        result,
        image: state.content().to_vec(),
        buffer,
    })
}

/// Whether the function can give this result, by the tables of docs/STATE.md.
fn can_give(call: &Call, result: u64) -> bool {
    let bytes = result.to_le_bytes();
    let rest_is_zero = |from: usize| bytes[from..].iter().all(|byte| *byte == 0);
    let (outcomes, refusals): (&[u8], &[u8]) = match call {
        Call::Start { .. } => (&[4], &[20, 21]),
        Call::Open { .. } => (&[1, 2], &[21, 22, 23, 24, 25, 28]),
        Call::Answer { .. } => (&[1, 2], &[21, 22, 24, 26]),
        Call::Order => (&[1, 2], &[21]),
        Call::WritePacket(_) => (&[3], &[21, 25, 27, 29]),
        Call::WritePicture(_) => (&[3], &[21, 25, 29]),
        Call::FollowerStart => (&[4], &[21]),
        Call::FollowerTake(_) => (&[4], &[21, 30, 31, 32, 33]),
        Call::FollowerShown => (&[5], &[21]),
        Call::FollowerConsumer => (&[6], &[21]),
        Call::FollowerTracked => (&[7], &[21]),
        Call::FollowerWritePage(_) => (&[3], &[21, 34]),
    };
    // An opening that closes has given no order, and whatever is answered is one.
    let orders = match call {
        Call::Open { .. } => 0..=0,
        Call::Answer { .. } => 1..=35,
        _ => 0..=35,
    };
    let lengths = match call {
        Call::FollowerWritePage(_) => PAGE..=PAGE,
        _ => 0..=BUFFER,
    };
    let [outcome, a, b, c, ..] = bytes;
    if outcome == 0 {
        return refusals.contains(&a) && rest_is_zero(2);
    }
    outcomes.contains(&outcome)
        && match outcome {
            1 => match a {
                1 | 2 => b < 16 && c <= 13 && (a == 1 || c & 1 == 0),
                5 => b < 8 && c <= 13,
                0 => b < 16 && rest_is_zero(3),
                3 | 4 | 6 => b < 8 && rest_is_zero(3),
                7 => (b, c) == (0, 0) && result >> 32 == WAIT_MILLIS.into(),
                _ => false,
            },
            2 => {
                a <= 10
                    && b <= 15
                    && c <= 3
                    && (a == 4 || b == 0)
                    && (b != 0 || c == 0)
                    && orders.contains(&bytes[4])
                    && rest_is_zero(5)
            }
            3 => lengths.contains(&a.into()) && rest_is_zero(2),
            4 => rest_is_zero(1),
            5 => match a {
                0 => rest_is_zero(2),
                1 | 2 => b <= 1 && c <= 16,
                _ => false,
            },
            6 => match a {
                0 => rest_is_zero(2),
                1 => b < 16 && c <= 13,
                _ => false,
            },
            _ => {
                u32::from(a) == u16::from_le_bytes([b, c]).count_ones() && a <= 4 && rest_is_zero(4)
            }
        }
}
