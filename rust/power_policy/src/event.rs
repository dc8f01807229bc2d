//! The events that a service is told of.

use crate::DisconnectReason;

/// The PSU as a charger sees it.
#[derive(Clone, Copy, Debug, PartialEq, Eq)]
pub enum ChargerPsuState {
    /// A PSU is attached.
    Attached = 0,
    /// No PSU is attached.
    Detached = 1,
}

/// An event of a port or charger, by its number. What the event is about stands in the records.
///
/// A later version may have more of them.
///
/// ```
/// use power_policy::{DisconnectReason, Event};
///
/// let event = Event::Disconnected { port: 1, reason: Some(DisconnectReason::Reset) };
/// assert_ne!(event, Event::Disconnected { port: 1, reason: None });
/// ```
#[derive(Clone, Copy, Debug, PartialEq, Eq)]
#[non_exhaustive]
pub enum Event {
    /// A device was attached. It changes nothing but the event's number.
    Attached {
        /// The port.
        port: u8,
    },
    /// What the port offers to consume has changed.
    UpdatedConsumerCapability {
        /// The port.
        port: u8,
    },
    /// The port asks to be provided.
    RequestedProviderCapability {
        /// The port.
        port: u8,
    },
    /// The port can no longer consume or provide power.
    Disconnected {
        /// The port.
        port: u8,
        /// Why, if it is known.
        reason: Option<DisconnectReason>,
    },
    /// The device was detached.
    Detached {
        /// The port.
        port: u8,
    },
    /// A charger sees a PSU or none. Accepted, and changes nothing.
    Charger {
        /// The charger.
        charger: u8,
        /// What it sees.
        psu_state: ChargerPsuState,
    },
}

impl Event {
    /// Kind, device and detail.
    pub(crate) fn numbers(self) -> [u32; 3] {
        match self {
            Self::Attached { port } => [0, port.into(), 0],
            Self::UpdatedConsumerCapability { port } => [1, port.into(), 0],
            Self::RequestedProviderCapability { port } => [2, port.into(), 0],
            Self::Disconnected { port, reason } => {
                [3, port.into(), reason.map_or(0, |reason| reason as u32)]
            }
            Self::Detached { port } => [4, port.into(), 0],
            Self::Charger { charger, psu_state } => [5, charger.into(), psu_state as u32],
        }
    }
}
