//! Capabilities and reasons, as the original has them, and their bytes.

/// mV and mA.
#[derive(Clone, Copy, Debug, PartialEq, Eq)]
pub struct PowerCapability {
    /// The voltage in mV.
    pub voltage_mv: u16,
    /// The current in mA.
    pub current_ma: u16,
}

impl PowerCapability {
    /// mV times mA by 1000, rounded down.
    ///
    /// ```
    /// use power_policy::PowerCapability;
    ///
    /// let capability = PowerCapability { voltage_mv: 999, current_ma: 1 };
    /// assert_eq!(capability.max_power_mw(), 0);
    /// ```
    pub fn max_power_mw(&self) -> u32 {
        u32::from(self.voltage_mv) * u32::from(self.current_ma) / 1000
    }
}

/// What a PSU is connected by.
#[derive(Clone, Copy, Debug, PartialEq, Eq)]
pub enum PsuType {
    /// USB Type-C.
    TypeC,
    /// A DC jack.
    DcJack,
    /// A type of the console's own.
    Custom0,
    /// Another type of the console's own.
    Custom1,
    /// Another type of the console's own.
    Custom2,
    /// Another type of the console's own.
    Custom3,
}

impl PsuType {
    /// Bits 1 to 3 of a flag byte.
    fn bits(psu_type: Option<Self>) -> u8 {
        match psu_type {
            None => 0,
            Some(Self::TypeC) => 1 << 1,
            Some(Self::DcJack) => 2 << 1,
            Some(Self::Custom0) => 3 << 1,
            Some(Self::Custom1) => 4 << 1,
            Some(Self::Custom2) => 5 << 1,
            Some(Self::Custom3) => 6 << 1,
        }
    }

    fn from_flags(flags: u8) -> Option<Self> {
        match flags >> 1 {
            1 => Some(Self::TypeC),
            2 => Some(Self::DcJack),
            3 => Some(Self::Custom0),
            4 => Some(Self::Custom1),
            5 => Some(Self::Custom2),
            6 => Some(Self::Custom3),
            _ => None,
        }
    }
}

/// The flags of a capability to consume.
#[derive(Clone, Copy, Debug, Default, PartialEq, Eq)]
pub struct ConsumerFlags {
    /// Whether the supply is not limited, as the mains are.
    pub unconstrained_power: bool,
    /// What the PSU is connected by, if it is said.
    pub psu_type: Option<PsuType>,
}

/// The flags of a capability to provide.
#[derive(Clone, Copy, Debug, Default, PartialEq, Eq)]
pub struct ProviderFlags {
    /// What the PSU is connected by, if it is said.
    pub psu_type: Option<PsuType>,
}

/// What a port can consume.
#[derive(Clone, Copy, Debug, PartialEq, Eq)]
pub struct ConsumerPowerCapability {
    /// mV and mA.
    pub capability: PowerCapability,
    /// Its flags.
    pub flags: ConsumerFlags,
}

/// What a port can provide.
#[derive(Clone, Copy, Debug, PartialEq, Eq)]
pub struct ProviderPowerCapability {
    /// mV and mA.
    pub capability: PowerCapability,
    /// Its flags.
    pub flags: ProviderFlags,
}

fn encode(capability: PowerCapability, flags: u8) -> [u8; 5] {
    let [v0, v1] = capability.voltage_mv.to_le_bytes();
    let [a0, a1] = capability.current_ma.to_le_bytes();
    [v0, v1, a0, a1, flags]
}

impl ConsumerPowerCapability {
    /// mV and mA, the low byte first, and the flag byte.
    ///
    /// ```
    /// use power_policy::*;
    ///
    /// let offered = ConsumerPowerCapability {
    ///     capability: PowerCapability { voltage_mv: 20000, current_ma: 3000 },
    ///     flags: ConsumerFlags { unconstrained_power: true, psu_type: Some(PsuType::TypeC) },
    /// };
    /// assert_eq!(offered.encode(), [0x20, 0x4E, 0xB8, 0x0B, 3]);
    /// ```
    pub fn encode(&self) -> [u8; 5] {
        let unconstrained = u8::from(self.flags.unconstrained_power);
        encode(
            self.capability,
            PsuType::bits(self.flags.psu_type) | unconstrained,
        )
    }

    pub(crate) fn from_fields(capability: PowerCapability, flags: u8) -> Self {
        Self {
            capability,
            flags: ConsumerFlags {
                unconstrained_power: flags & 1 == 1,
                psu_type: PsuType::from_flags(flags),
            },
        }
    }
}

impl ProviderPowerCapability {
    /// mV and mA, the low byte first, and the flag byte.
    pub fn encode(&self) -> [u8; 5] {
        encode(self.capability, PsuType::bits(self.flags.psu_type))
    }

    pub(crate) fn from_fields(capability: PowerCapability, flags: u8) -> Self {
        Self {
            capability,
            flags: ProviderFlags {
                psu_type: PsuType::from_flags(flags),
            },
        }
    }
}

/// Why a consumer is disconnected.
#[derive(Clone, Copy, Debug, PartialEq, Eq)]
pub enum DisconnectReason {
    /// The device was detached.
    Detached = 1,
    /// Another consumer was chosen.
    Switching = 2,
    /// The same port has another capability.
    AutoRenegotiation = 3,
    /// A renegotiation was asked for.
    ManualRenegotiation = 4,
    /// Consumer and provider change places.
    RoleSwap = 5,
    /// The port was reset.
    Reset = 6,
}
