//! Short names for values of the original.

use power_policy_interface::{
    capability::{ConsumerPowerCapability, ProviderPowerCapability},
    charger,
    psu::{self, PsuState},
};

use crate::{
    interface::capability,
    record::{consumer_from_bytes, provider_from_bytes},
};

/// mV, mA and flag byte.
pub fn consumer(voltage_mv: u16, current_ma: u16, flags: u8) -> ConsumerPowerCapability {
    consumer_from_bytes(&capability(voltage_mv, current_ma, flags))
}

/// mV, mA and flag byte.
pub fn provider(voltage_mv: u16, current_ma: u16, flags: u8) -> ProviderPowerCapability {
    provider_from_bytes(&capability(voltage_mv, current_ma, flags))
}

/// A port in this state with neither capability nor request.
pub fn port(psu_state: PsuState) -> psu::State {
    psu::State {
        psu_state,
        consumer_capability: None,
        requested_provider_capability: None,
    }
}

/// The port with this consumer capability.
pub fn offering(state: psu::State, capability: ConsumerPowerCapability) -> psu::State {
    psu::State {
        consumer_capability: Some(capability),
        ..state
    }
}

/// The port with this request.
pub fn requesting(state: psu::State, request: ProviderPowerCapability) -> psu::State {
    psu::State {
        requested_provider_capability: Some(request),
        ..state
    }
}

pub fn unpowered() -> charger::State {
    charger::State::default()
}

/// A charger that is powered and has no capability.
pub fn powered() -> charger::State {
    let mut state = charger::State::default();
    state.on_ready_success();
    state
}

/// A charger that knows of its PSU and has no capability.
pub fn initialized(psu_state: charger::PsuState) -> charger::State {
    let mut state = powered();
    state.on_initialized(psu_state).expect("a powered charger");
    state
}
