//! Rows of PSU and charger records.

use crate::{
    CHARGER_RECORD, PSU_RECORD,
    group::{Capability, Role, zeros},
};

/// The numbers of PSU states.
pub const IDLE: u8 = 1;
pub const PROVIDER: u8 = 2;
pub const CONSUMER: u8 = 3;

/// The records of a call, each checked.
pub struct Records<'a> {
    psus: &'a [[u8; PSU_RECORD]],
    chargers: &'a [[u8; CHARGER_RECORD]],
}

/// The rows as records, if each has its length and every field is in range.
pub fn rows<'a>(psus: &'a [u8], ports: u8, chargers: &'a [u8], count: u8) -> Option<Records<'a>> {
    let psus = row(psus, ports)?;
    let chargers = row(chargers, count)?;
    let fit = psus.iter().all(is_psu) && chargers.iter().all(is_charger);
    fit.then_some(Records { psus, chargers })
}

fn row<const N: usize>(bytes: &[u8], count: u8) -> Option<&[[u8; N]]> {
    let (records, rest) = bytes.as_chunks();
    (rest.is_empty() && records.len() == usize::from(count)).then_some(records)
}

/// A presence byte and a capability: six bytes.
fn is_optional(group: &[u8], role: Role) -> bool {
    match group[0] {
        0 => zeros(&group[1..]),
        1 => role.has(group[5]),
        _ => false,
    }
}

fn is_psu(record: &[u8; PSU_RECORD]) -> bool {
    let contract = match record[0] {
        0 | IDLE => zeros(&record[1..6]),
        PROVIDER => Role::Provider.has(record[5]),
        CONSUMER => Role::Consumer.has(record[5]),
        _ => false,
    };
    contract
        && is_optional(&record[6..12], Role::Consumer)
        && is_optional(&record[12..18], Role::Provider)
}

fn is_charger(record: &[u8; CHARGER_RECORD]) -> bool {
    record[0] <= 3 && is_optional(&record[1..7], Role::Consumer)
}

fn optional(record: &[u8], at: usize) -> Option<Capability> {
    (record[at] == 1).then(|| Capability::at(record, at + 1))
}

impl Records<'_> {
    /// The consumer capabilities of all ports.
    pub fn consumer_capabilities(&self) -> impl Iterator<Item = (u8, Capability)> {
        let ports = (0..).zip(self.psus);
        ports.filter_map(|(port, record)| Some((port, optional(record, 6)?)))
    }

    /// What the port asks to be provided.
    pub fn request(&self, port: u8) -> Option<Capability> {
        optional(&self.psus[usize::from(port)], 12)
    }

    /// The contracts of the ports connected as providers.
    pub fn provider_contracts(&self) -> impl Iterator<Item = (u8, Capability)> {
        let ports = (0..).zip(self.psus);
        let providers = ports.filter(|(_, record)| record[0] == PROVIDER);
        providers.map(|(port, record)| (port, Capability::at(record, 1)))
    }

    pub fn state(&self, port: u8) -> u8 {
        self.psus[usize::from(port)][0]
    }

    pub fn is_powered(&self, charger: u8) -> bool {
        self.chargers[usize::from(charger)][0] != 0
    }

    /// The first powered charger from `from` on.
    pub fn powered_from(&self, from: u8) -> Option<u8> {
        (from..self.chargers.len() as u8).find(|charger| self.is_powered(*charger))
    }
}
