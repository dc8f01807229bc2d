//! The records of ports and chargers, and their bytes.

use crate::{
    MAX_CHARGERS, MAX_PORTS,
    capability::{ConsumerPowerCapability, ProviderPowerCapability},
};

/// The length of a PSU record.
pub const PSU_RECORD: usize = 18;
/// The length of a charger record.
pub const CHARGER_RECORD: usize = 7;

/// The state of a PSU.
#[derive(Clone, Copy, Debug, Default, PartialEq, Eq)]
pub enum PsuState {
    /// No device is attached.
    #[default]
    Detached,
    /// A device is attached, and neither consumes nor provides.
    Idle,
    /// A device is provided with this.
    ConnectedProvider(ProviderPowerCapability),
    /// This is consumed from the device.
    ConnectedConsumer(ConsumerPowerCapability),
}

/// The record of a port: the original's `psu::State`.
#[derive(Clone, Copy, Debug, Default, PartialEq, Eq)]
pub struct Psu {
    /// Its state.
    pub psu_state: PsuState,
    /// What it offers to consume, if anything.
    pub consumer_capability: Option<ConsumerPowerCapability>,
    /// What it asks to be provided with, if anything.
    pub requested_provider_capability: Option<ProviderPowerCapability>,
}

/// A number before a capability, and zeros if there is none.
fn group(number: u8, capability: Option<[u8; 5]>) -> [u8; 6] {
    let [v0, v1, a0, a1, flags] = capability.unwrap_or_default();
    [number, v0, v1, a0, a1, flags]
}

/// A presence byte and a capability.
fn optional(capability: Option<[u8; 5]>) -> [u8; 6] {
    group(u8::from(capability.is_some()), capability)
}

impl Psu {
    /// The record's bytes.
    ///
    /// ```
    /// use power_policy::{PSU_RECORD, Psu};
    ///
    /// assert_eq!(Psu::default().encode(), [0; PSU_RECORD]);
    /// ```
    pub fn encode(&self) -> [u8; PSU_RECORD] {
        let state = match &self.psu_state {
            PsuState::Detached => group(0, None),
            PsuState::Idle => group(1, None),
            PsuState::ConnectedProvider(contract) => group(2, Some(contract.encode())),
            PsuState::ConnectedConsumer(contract) => group(3, Some(contract.encode())),
        };
        let capability = self
            .consumer_capability
            .map(|capability| capability.encode());
        let request = self
            .requested_provider_capability
            .map(|request| request.encode());
        let mut record = [0; PSU_RECORD];
        record[..6].copy_from_slice(&state);
        record[6..12].copy_from_slice(&optional(capability));
        record[12..].copy_from_slice(&optional(request));
        record
    }
}

/// The state of a charger.
#[derive(Clone, Copy, Debug, Default, PartialEq, Eq)]
pub enum ChargerState {
    /// It has no power.
    #[default]
    Unpowered = 0,
    /// It has power and is not initialized.
    Init = 1,
    /// It is initialized, and a PSU is attached.
    PsuAttached = 2,
    /// It is initialized, and no PSU is attached.
    PsuDetached = 3,
}

/// The record of a charger: the original's `charger::State`.
#[derive(Clone, Copy, Debug, Default, PartialEq, Eq)]
pub struct Charger {
    /// Its state.
    pub state: ChargerState,
    /// What it is attached to, if anything.
    pub capability: Option<ConsumerPowerCapability>,
}

impl Charger {
    /// The record's bytes.
    pub fn encode(&self) -> [u8; CHARGER_RECORD] {
        let mut record = [0; CHARGER_RECORD];
        record[0] = self.state as u8;
        let capability = self.capability.map(|capability| capability.encode());
        record[1..].copy_from_slice(&optional(capability));
        record
    }
}

/// The present records of all ports and chargers, as bytes.
///
/// ```
/// use power_policy::{Psu, PsuState, Records};
///
/// let mut records = Records::new(2, 0);
/// records.set_psu(1, &Psu { psu_state: PsuState::Idle, ..Psu::default() });
/// assert_eq!((records.psus().len(), records.psus()[18]), (36, 1));
/// ```
#[derive(Clone, Copy, Debug, PartialEq, Eq)]
pub struct Records {
    ports: usize,
    chargers: usize,
    psu_rows: [[u8; PSU_RECORD]; MAX_PORTS],
    charger_rows: [[u8; CHARGER_RECORD]; MAX_CHARGERS],
}

impl Records {
    /// So many Detached ports and Unpowered chargers. Numbers over the greatest are taken as the greatest.
    pub fn new(ports: u8, chargers: u8) -> Self {
        Self {
            ports: usize::from(ports).min(MAX_PORTS),
            chargers: usize::from(chargers).min(MAX_CHARGERS),
            psu_rows: [[0; PSU_RECORD]; MAX_PORTS],
            charger_rows: [[0; CHARGER_RECORD]; MAX_CHARGERS],
        }
    }

    /// Sets the record of a port. One that there is not is left out.
    pub fn set_psu(&mut self, port: u8, psu: &Psu) {
        let rows = self.psu_rows.get_mut(..self.ports).unwrap_or_default();
        if let Some(row) = rows.get_mut(usize::from(port)) {
            *row = psu.encode();
        }
    }

    /// Sets the record of a charger. One that there is not is left out.
    pub fn set_charger(&mut self, charger: u8, record: &Charger) {
        let rows = self
            .charger_rows
            .get_mut(..self.chargers)
            .unwrap_or_default();
        if let Some(row) = rows.get_mut(usize::from(charger)) {
            *row = record.encode();
        }
    }

    /// The rows of the ports.
    pub fn psus(&self) -> &[u8] {
        self.psu_rows
            .get(..self.ports)
            .unwrap_or_default()
            .as_flattened()
    }

    /// The rows of the chargers.
    pub fn chargers(&self) -> &[u8] {
        self.charger_rows
            .get(..self.chargers)
            .unwrap_or_default()
            .as_flattened()
    }
}
