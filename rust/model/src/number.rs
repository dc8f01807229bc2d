//! Numbers marked # (PKT-6): groups of seven bits, lowest first, top bit set on
//! all but the last, shortest form.

use crate::{CUT, NUMBER};

/// The limit of every # number but mV and mA.
pub const LIMIT: u32 = 4_294_967_295;
/// The limit of mV and mA.
pub const MILLI_LIMIT: u32 = 65_535;
/// No number has more bytes than this, whatever its limit.
pub const MOST_BYTES: usize = 5;

/// Reads a number from the front: its value and how many bytes it takes.
///
/// The form and the limit are looked at after the last byte.
pub fn read(bytes: &[u8], limit: u32) -> Result<(u32, usize), u8> {
    let mut value: u64 = 0;
    for place in 0..MOST_BYTES {
        if place == bytes.len() {
            return Err(CUT);
        }
        let byte = bytes[place];
        value += u64::from(byte % 128) << (7 * place);
        let is_last = byte < 128;
        if is_last {
            let shortest = place == 0 || byte != 0;
            if !shortest || value > u64::from(limit) {
                return Err(NUMBER);
            }
            return Ok((value as u32, place + 1));
        }
    }
    Err(NUMBER)
}

/// Writes a number in its shortest form.
pub fn write(value: u32) -> Vec<u8> {
    let mut bytes = Vec::new();
    let mut rest = value;
    while rest >= 128 {
        bytes.push((rest % 128) as u8 + 128);
        rest /= 128;
    }
    bytes.push(rest as u8);
    bytes
}
