//! Records and numbers as bytes, made by hand.

pub const SERVICE_IMAGE: usize = 67;
pub const FOLLOWER_IMAGE: usize = 241;
pub const PSU_RECORD: usize = 18;
pub const CHARGER_RECORD: usize = 7;
pub const BUFFER: usize = 64;
pub const PAGE: usize = 246;
/// The milliseconds of a wait.
pub const WAIT_MILLIS: u16 = 800;

pub type Capability = [u8; 5];

pub fn capability(mv: u16, ma: u16, flags: u8) -> Capability {
    let ([v0, v1], [a0, a1]) = (mv.to_le_bytes(), ma.to_le_bytes());
    [v0, v1, a0, a1, flags]
}

fn optional(capability: Option<Capability>) -> [u8; 6] {
    let [a, b, c, d, e] = capability.unwrap_or_default();
    [u8::from(capability.is_some()), a, b, c, d, e]
}

/// A PSU record. The contract is given for a connected state alone.
pub fn psu(
    state: u8,
    contract: Option<Capability>,
    offer: Option<Capability>,
    request: Option<Capability>,
) -> [u8; PSU_RECORD] {
    let mut record = [0; PSU_RECORD];
    record[0] = state;
    record[1..6].copy_from_slice(&contract.unwrap_or_default());
    record[6..12].copy_from_slice(&optional(offer));
    record[12..].copy_from_slice(&optional(request));
    record
}

pub fn charger(state: u8, capability: Option<Capability>) -> [u8; CHARGER_RECORD] {
    let mut record = [0; CHARGER_RECORD];
    record[0] = state;
    record[1..].copy_from_slice(&optional(capability));
    record
}

/// A number marked # in its shortest form.
pub fn number(mut value: u32) -> Vec<u8> {
    let mut bytes = Vec::new();
    while value > 127 {
        bytes.push((value % 128) as u8 + 128);
        value /= 128;
    }
    bytes.push(value as u8);
    bytes
}

pub fn hex(bytes: &[u8]) -> String {
    let mut text = String::new();
    for byte in bytes {
        text += &format!("{byte:02x}");
    }
    text
}
