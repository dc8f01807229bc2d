//! The groups of bytes that records and images are made of.

/// There are at most so many ports.
pub const MOST_PORTS: u8 = 16;
/// There are at most so many chargers.
pub const MOST_CHARGERS: u8 = 8;
/// At most so many ports are tracked.
pub const MOST_TRACKED: u32 = 4;
/// Reasons are 0 (none) to this.
pub const LAST_REASON: u8 = 6;
/// Answers are 0 (done) to this.
pub const LAST_ANSWER: u8 = 10;

/// mV, mA and the flag byte.
#[derive(Clone, Copy, Debug, Default, PartialEq, Eq)]
pub struct Capability {
    pub mv: u16,
    pub ma: u16,
    pub flags: u8,
}

impl Capability {
    pub fn mw(self) -> u32 {
        u32::from(self.mv) * u32::from(self.ma) / 1000
    }

    pub fn unconstrained(self) -> bool {
        self.flags & 1 == 1
    }

    /// The five bytes at `at`, whatever their flags.
    pub fn at(bytes: &[u8], at: usize) -> Self {
        Self {
            mv: u16_at(bytes, at),
            ma: u16_at(bytes, at + 2),
            flags: bytes[at + 4],
        }
    }

    pub fn put(self, bytes: &mut [u8], at: usize) {
        bytes[at..at + 2].copy_from_slice(&self.mv.to_le_bytes());
        bytes[at + 2..at + 4].copy_from_slice(&self.ma.to_le_bytes());
        bytes[at + 4] = self.flags;
    }
}

/// Whose capability it is: a provider has no unconstrained flag.
#[derive(Clone, Copy, Debug, PartialEq, Eq)]
pub enum Role {
    Consumer,
    Provider,
}

impl Role {
    /// Bit 0 for a consumer alone, a PSU type of 0 to 6 in bits 1 to 3, the rest 0.
    pub fn has(self, flags: u8) -> bool {
        flags >> 1 <= 6 && (self == Role::Consumer || flags & 1 == 0)
    }
}

/// A port and its capability.
#[derive(Clone, Copy, Debug, PartialEq, Eq)]
pub struct Contract {
    pub port: u8,
    pub capability: Capability,
}

impl Contract {
    /// The six bytes at `at`, if port and flags are in range.
    pub fn at(bytes: &[u8], at: usize, role: Role, ports: u8) -> Option<Self> {
        let contract = Self {
            port: bytes[at],
            capability: Capability::at(bytes, at + 1),
        };
        (contract.port < ports && role.has(contract.capability.flags)).then_some(contract)
    }

    pub fn put(self, bytes: &mut [u8], at: usize) {
        bytes[at] = self.port;
        self.capability.put(bytes, at + 1);
    }
}

/// The outer option is whether the seven bytes at `at` are an optional consumer.
pub fn optional_at(bytes: &[u8], at: usize, ports: u8) -> Option<Option<Contract>> {
    match bytes[at] {
        0 => zeros(&bytes[at + 1..at + 7]).then_some(None),
        1 => Contract::at(bytes, at + 1, Role::Consumer, ports).map(Some),
        _ => None,
    }
}

pub fn put_optional(contract: Option<Contract>, bytes: &mut [u8], at: usize) {
    if let Some(contract) = contract {
        bytes[at] = 1;
        contract.put(bytes, at + 1);
    }
}

/// What is held, and shown: the current consumer, the unconstrained figures, the tracked ports.
#[derive(Clone, Copy, Debug, PartialEq, Eq)]
pub struct Display {
    pub consumer: Option<Contract>,
    pub unconstrained: bool,
    pub available: u8,
    /// Bit p for port p.
    pub tracked: u16,
}

impl Display {
    pub const EMPTY: Self = Self {
        consumer: None,
        unconstrained: false,
        available: 0,
        tracked: 0,
    };

    /// The eleven bytes at `at`, if they are a display with so many ports.
    pub fn at(bytes: &[u8], at: usize, ports: u8) -> Option<Self> {
        let display = Self {
            consumer: optional_at(bytes, at, ports)?,
            unconstrained: bool_at(bytes, at + 7)?,
            available: bytes[at + 8],
            tracked: u16_at(bytes, at + 9),
        };
        let fits = display.available <= ports
            && u32::from(display.tracked) >> ports == 0
            && display.tracked.count_ones() <= MOST_TRACKED;
        fits.then_some(display)
    }

    /// Onto zeros.
    pub fn put(&self, bytes: &mut [u8], at: usize) {
        put_optional(self.consumer, bytes, at);
        bytes[at + 7] = u8::from(self.unconstrained);
        bytes[at + 8] = self.available;
        bytes[at + 9..at + 11].copy_from_slice(&self.tracked.to_le_bytes());
    }

    pub fn is_tracked(&self, port: u8) -> bool {
        self.tracked >> port & 1 == 1
    }

    /// Tracks the port if it is already or fewer than four are.
    pub fn track(&mut self, port: u8) {
        if self.tracked.count_ones() < MOST_TRACKED {
            self.tracked |= 1 << port;
        }
    }

    pub fn untrack(&mut self, port: u8) {
        self.tracked &= !(1 << port);
    }
}

pub fn zeros(bytes: &[u8]) -> bool {
    bytes.iter().all(|byte| *byte == 0)
}

pub fn bool_at(bytes: &[u8], at: usize) -> Option<bool> {
    match bytes[at] {
        0 => Some(false),
        1 => Some(true),
        _ => None,
    }
}

pub fn u16_at(bytes: &[u8], at: usize) -> u16 {
    u16::from_le_bytes([bytes[at], bytes[at + 1]])
}

pub fn u32_at(bytes: &[u8], at: usize) -> u32 {
    u32::from_le_bytes([bytes[at], bytes[at + 1], bytes[at + 2], bytes[at + 3]])
}
