//! The original's values as bytes: a capability is 5 bytes, a PSU record 18, a charger record 7.

use power_policy_interface::{
    capability::{
        ConsumerFlags, ConsumerPowerCapability, DisconnectReason, PowerCapability, ProviderFlags,
        ProviderPowerCapability, PsuType,
    },
    charger::{self, ChargerError, InternalState, PoweredSubstate},
    psu::{self, PsuState, StateKind},
};

pub const CAPABILITY: usize = 5;
pub const PSU: usize = 18;
pub const CHARGER: usize = 7;

pub const PSU_TYPES: [Option<PsuType>; 7] = [
    None,
    Some(PsuType::TypeC),
    Some(PsuType::DcJack),
    Some(PsuType::Custom0),
    Some(PsuType::Custom1),
    Some(PsuType::Custom2),
    Some(PsuType::Custom3),
];

/// The disconnect reasons by their number; 0 is none.
pub const REASONS: [Option<DisconnectReason>; 7] = [
    None,
    Some(DisconnectReason::Detached),
    Some(DisconnectReason::Switching),
    Some(DisconnectReason::AutoRenegotiation),
    Some(DisconnectReason::ManualRenegotiation),
    Some(DisconnectReason::RoleSwap),
    Some(DisconnectReason::Reset),
];

fn place<T: PartialEq>(all: &[T], value: &T) -> u8 {
    let place = all.iter().position(|one| one == value);
    place.expect("a value that has a number") as u8
}

pub fn reason_byte(reason: Option<DisconnectReason>) -> u8 {
    place(&REASONS, &reason)
}

pub fn power_to_bytes(capability: &PowerCapability) -> [u8; 4] {
    let [v0, v1] = capability.voltage_mv.to_le_bytes();
    let [c0, c1] = capability.current_ma.to_le_bytes();
    [v0, v1, c0, c1]
}

pub fn power_from_bytes(bytes: &[u8]) -> PowerCapability {
    PowerCapability {
        voltage_mv: u16::from_le_bytes([bytes[0], bytes[1]]),
        current_ma: u16::from_le_bytes([bytes[2], bytes[3]]),
    }
}

fn with_flags(capability: &PowerCapability, flags: u8) -> [u8; CAPABILITY] {
    let [v0, v1, c0, c1] = power_to_bytes(capability);
    [v0, v1, c0, c1, flags]
}

pub fn consumer_to_bytes(capability: &ConsumerPowerCapability) -> [u8; CAPABILITY] {
    let ConsumerFlags {
        unconstrained_power,
        psu_type,
    } = capability.flags;
    let flags = u8::from(unconstrained_power) | place(&PSU_TYPES, &psu_type) << 1;
    with_flags(&capability.capability, flags)
}

pub fn consumer_from_bytes(bytes: &[u8]) -> ConsumerPowerCapability {
    ConsumerPowerCapability {
        capability: power_from_bytes(bytes),
        flags: ConsumerFlags {
            unconstrained_power: bytes[4] & 1 == 1,
            psu_type: PSU_TYPES[usize::from(bytes[4] >> 1)],
        },
    }
}

pub fn provider_to_bytes(capability: &ProviderPowerCapability) -> [u8; CAPABILITY] {
    let ProviderFlags { psu_type } = capability.flags;
    with_flags(&capability.capability, place(&PSU_TYPES, &psu_type) << 1)
}

pub fn provider_from_bytes(bytes: &[u8]) -> ProviderPowerCapability {
    assert_eq!(bytes[4] & 1, 0, "a provider has no unconstrained flag");
    ProviderPowerCapability {
        capability: power_from_bytes(bytes),
        flags: ProviderFlags {
            psu_type: PSU_TYPES[usize::from(bytes[4] >> 1)],
        },
    }
}

/// Presence byte and capability.
pub fn option_to_bytes<T>(
    value: &Option<T>,
    to_bytes: impl Fn(&T) -> [u8; CAPABILITY],
) -> [u8; 1 + CAPABILITY] {
    let mut bytes = [0; 1 + CAPABILITY];
    if let Some(value) = value {
        bytes[0] = 1;
        bytes[1..].copy_from_slice(&to_bytes(value));
    }
    bytes
}

pub fn option_from_bytes<T>(bytes: &[u8], from_bytes: impl Fn(&[u8]) -> T) -> Option<T> {
    match bytes[0] {
        0 => {
            assert!(bytes[1..1 + CAPABILITY].iter().all(|byte| *byte == 0));
            None
        }
        1 => Some(from_bytes(&bytes[1..])),
        other => panic!("presence byte {other}"),
    }
}

/// The number of a PSU state kind.
pub fn kind_byte(kind: StateKind) -> u8 {
    match kind {
        StateKind::Detached => 0,
        StateKind::Idle => 1,
        StateKind::ConnectedProvider => 2,
        StateKind::ConnectedConsumer => 3,
    }
}

pub fn psu_to_bytes(state: &psu::State) -> [u8; PSU] {
    let mut bytes = [0; PSU];
    bytes[0] = kind_byte(state.psu_state.kind());
    match &state.psu_state {
        PsuState::Detached | PsuState::Idle => {}
        PsuState::ConnectedProvider(contract) => {
            bytes[1..6].copy_from_slice(&provider_to_bytes(contract));
        }
        PsuState::ConnectedConsumer(contract) => {
            bytes[1..6].copy_from_slice(&consumer_to_bytes(contract));
        }
    }
    bytes[6..12].copy_from_slice(&option_to_bytes(
        &state.consumer_capability,
        consumer_to_bytes,
    ));
    bytes[12..18].copy_from_slice(&option_to_bytes(
        &state.requested_provider_capability,
        provider_to_bytes,
    ));
    bytes
}

pub fn psu_from_bytes(bytes: &[u8; PSU]) -> psu::State {
    let contract = &bytes[1..6];
    let state = psu::State {
        psu_state: match bytes[0] {
            0 => PsuState::Detached,
            1 => PsuState::Idle,
            2 => PsuState::ConnectedProvider(provider_from_bytes(contract)),
            3 => PsuState::ConnectedConsumer(consumer_from_bytes(contract)),
            other => panic!("PSU state byte {other}"),
        },
        consumer_capability: option_from_bytes(&bytes[6..12], consumer_from_bytes),
        requested_provider_capability: option_from_bytes(&bytes[12..18], provider_from_bytes),
    };
    assert_eq!(&psu_to_bytes(&state), bytes, "no record is written so");
    state
}

/// The number of a charger's internal state.
pub fn internal_byte(state: &InternalState) -> u8 {
    match state {
        InternalState::Unpowered => 0,
        InternalState::Powered(PoweredSubstate::Init) => 1,
        InternalState::Powered(PoweredSubstate::PsuAttached) => 2,
        InternalState::Powered(PoweredSubstate::PsuDetached) => 3,
    }
}

pub fn charger_to_bytes(state: &charger::State) -> [u8; CHARGER] {
    let mut bytes = [0; CHARGER];
    bytes[0] = internal_byte(state.internal_state());
    bytes[1..].copy_from_slice(&option_to_bytes(state.capability(), consumer_to_bytes));
    bytes
}

/// The fields of the charger's state are private; each value is reached by its transitions.
pub fn charger_from_bytes(bytes: &[u8; CHARGER]) -> charger::State {
    let mut state = charger::State::default();
    if bytes[0] > 0 {
        state.on_ready_success();
    }
    match bytes[0] {
        0 | 1 => {}
        2 => state.on_initialized(charger::PsuState::Attached).unwrap(),
        3 => state.on_initialized(charger::PsuState::Detached).unwrap(),
        other => panic!("charger state byte {other}"),
    }
    if let Some(capability) = option_from_bytes(&bytes[1..], consumer_from_bytes) {
        state.on_policy_attach(capability);
    }
    assert_eq!(&charger_to_bytes(&state), bytes, "no record is written so");
    state
}

/// The number of a PSU error, 1 to 10 as written.
pub fn error_byte(error: &psu::Error) -> u8 {
    match error {
        psu::Error::InvalidDevice => 1,
        psu::Error::CannotProvide(_) => 2,
        psu::Error::CannotConsume(_) => 3,
        psu::Error::InvalidState(..) => 4,
        psu::Error::InvalidResponse => 5,
        psu::Error::Busy => 6,
        psu::Error::Timeout => 7,
        psu::Error::Bus => 8,
        psu::Error::Charger(_) => 9,
        psu::Error::Failed => 10,
    }
}

/// 0 or the error's number; for InvalidState also the mask of expected kinds and the actual kind.
pub fn result_to_bytes(result: &Result<(), psu::Error>) -> [u8; 3] {
    match result {
        Ok(()) => [0; 3],
        Err(error) => {
            let (mut mask, mut actual) = (0, 0);
            if let psu::Error::InvalidState(expected, kind) = error {
                for kind in *expected {
                    mask |= 1 << kind_byte(*kind);
                }
                actual = kind_byte(*kind);
            }
            [error_byte(error), mask, actual]
        }
    }
}

/// 0 or the error's number, 1 to 4 as written; for InvalidState also the internal state.
pub fn charger_result_to_bytes(result: &Result<(), ChargerError>) -> [u8; 2] {
    match result {
        Ok(()) => [0; 2],
        Err(ChargerError::InvalidState(state)) => [1, internal_byte(state)],
        Err(ChargerError::Timeout) => [2, 0],
        Err(ChargerError::BusError) => [3, 0],
        Err(ChargerError::UnknownEvent) => [4, 0],
        Err(other) => panic!("{other:?} has no number"),
    }
}

/// A charger's view of its PSU: 0 Attached, 1 Detached.
pub fn charger_psu_byte(state: charger::PsuState) -> u8 {
    match state {
        charger::PsuState::Attached => 0,
        charger::PsuState::Detached => 1,
    }
}

pub fn charger_psu_from_byte(byte: u8) -> charger::PsuState {
    match byte {
        0 => charger::PsuState::Attached,
        1 => charger::PsuState::Detached,
        other => panic!("charger's PSU state {other}"),
    }
}
