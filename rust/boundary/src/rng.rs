//! Random numbers and values. A seed gives the same every time.

use crate::{bytes::*, calls::Rows};

/// SplitMix64.
#[derive(Clone, Debug)]
pub struct Rng(u64);

impl Rng {
    pub fn new(seed: u64) -> Self {
        Self(seed)
    }

    pub fn draw(&mut self) -> u64 {
        self.0 = self.0.wrapping_add(0x9E37_79B9_7F4A_7C15);
        let z = self.0;
        let z = (z ^ (z >> 30)).wrapping_mul(0xBF58_476D_1CE4_E5B9);
        let z = (z ^ (z >> 27)).wrapping_mul(0x94D0_49BB_1331_11EB);
        z ^ (z >> 31)
    }

    /// A number below `end`; 0 if that is 0.
    pub fn below(&mut self, end: usize) -> usize {
        (self.draw() % end.max(1) as u64) as usize
    }

    pub fn byte_below(&mut self, end: u8) -> u8 {
        self.below(end.into()) as u8
    }

    /// True once in so many times.
    pub fn one_in(&mut self, times: usize) -> bool {
        self.below(times) == 0
    }

    pub fn pick<T: Copy>(&mut self, all: &[T]) -> T {
        all[self.below(all.len())]
    }

    pub fn bytes(&mut self, length: usize) -> Vec<u8> {
        (0..length).map(|_| self.draw() as u8).collect()
    }

    fn figure(&mut self) -> u16 {
        const FIGURES: [u16; 16] = [
            0, 1, 127, 128, 500, 999, 1000, 1500, 3000, 5000, 7500, 15000, 16383, 16384, 20000,
            65535,
        ];
        if self.one_in(6) {
            self.draw() as u16
        } else {
            self.pick(&FIGURES)
        }
    }

    /// mV and mA, mostly from a few with equal milliwatts.
    fn power(&mut self) -> (u16, u16) {
        const POWERS: [(u16, u16); 8] = [
            (5000, 3000),
            (15000, 1000),
            (3000, 5000),
            (5000, 3001),
            (5000, 1500),
            (7499, 1000),
            (20000, 3000),
            (5000, 500),
        ];
        if self.one_in(4) {
            (self.figure(), self.figure())
        } else {
            self.pick(&POWERS)
        }
    }

    pub fn consumer(&mut self) -> Capability {
        let (mv, ma) = self.power();
        capability(mv, ma, self.byte_below(14))
    }

    pub fn provider(&mut self) -> Capability {
        let (mv, ma) = self.power();
        capability(mv, ma, self.byte_below(7) << 1)
    }

    pub fn psu(&mut self) -> [u8; PSU_RECORD] {
        let state = self.pick(&[0, 1, 1, 1, 2, 3]);
        let contract = match state {
            2 => Some(self.provider()),
            3 => Some(self.consumer()),
            _ => None,
        };
        let offer = (!self.one_in(3)).then(|| self.consumer());
        let request = self.one_in(2).then(|| self.provider());
        psu(state, contract, offer, request)
    }

    pub fn charger(&mut self) -> [u8; CHARGER_RECORD] {
        let state = self.byte_below(4);
        let held = self.one_in(2).then(|| self.consumer());
        charger(state, held)
    }

    pub fn rows(&mut self, ports: u8, chargers: u8) -> Rows {
        Rows {
            psus: (0..ports).flat_map(|_| self.psu()).collect(),
            chargers: (0..chargers).flat_map(|_| self.charger()).collect(),
        }
    }

    /// Any number of 32 bits, mostly near an edge.
    pub fn word(&mut self) -> u32 {
        const WORDS: [u32; 12] = [
            0,
            1,
            2,
            127,
            128,
            7500,
            15000,
            16384,
            60000,
            u32::MAX - 9,
            u32::MAX - 1,
            u32::MAX,
        ];
        if self.one_in(5) {
            self.draw() as u32
        } else {
            self.pick(&WORDS)
        }
    }

    pub fn ports(&mut self) -> u8 {
        if self.one_in(3) {
            self.byte_below(17)
        } else {
            self.pick(&[1, 2, 2, 3, 4, 16])
        }
    }

    pub fn chargers(&mut self) -> u8 {
        if self.one_in(3) {
            self.byte_below(9)
        } else {
            self.pick(&[0, 1, 1, 2, 3, 8])
        }
    }

    fn port(&mut self, ports: u8) -> u8 {
        if self.one_in(40) {
            ports
        } else {
            self.byte_below(ports)
        }
    }

    fn contract(&mut self, ports: u8, capability: Capability) -> [u8; 6] {
        let [a, b, c, d, e] = capability;
        [self.port(ports), a, b, c, d, e]
    }

    fn display(&mut self, ports: u8) -> [u8; 11] {
        let mut display = [0; 11];
        if self.one_in(2) {
            display[0] = 1;
            let consumer = self.consumer();
            display[1..7].copy_from_slice(&self.contract(ports, consumer));
        }
        display[7] = self.byte_below(2);
        display[8] = if self.one_in(30) {
            ports + 1
        } else {
            self.byte_below(ports + 1)
        };
        let mut tracked: u16 = 0;
        let most = if self.one_in(20) { 7 } else { 5 };
        for _ in 0..self.below(most) {
            let port = self.port(ports);
            if port < 16 && (ports > 0 || self.one_in(20)) {
                tracked |= 1 << port;
            }
        }
        display[9..].copy_from_slice(&tracked.to_le_bytes());
        display
    }

    /// Bytes that are mostly a service's image, in any phase and mostly one that no run comes to.
    pub fn service_image(&mut self) -> Vec<u8> {
        let (ports, chargers) = (self.ports(), self.chargers());
        let mut image = vec![0; SERVICE_IMAGE];
        image[..3].copy_from_slice(&[1, ports, chargers]);
        image[3..7].copy_from_slice(&self.word().to_le_bytes());
        for place in [7, 9, 11, 13] {
            let figure = self.figure().to_le_bytes();
            image[place..place + 2].copy_from_slice(&figure);
        }
        if self.one_in(2) {
            image[15] = 1;
            image[16..20].copy_from_slice(&self.word().to_le_bytes());
        }
        image[20..24].copy_from_slice(&self.word().to_le_bytes());
        let display = self.display(ports);
        image[24..35].copy_from_slice(&display);
        image[35] = self.byte_below(2);

        let (c, i) = (chargers, self.byte_below(chargers));
        let consumer = self.consumer();
        let consumer = self.contract(ports, consumer);
        let provider = self.provider();
        let provider = self.contract(ports, provider);
        let (port, reason) = (self.port(ports), self.byte_below(7));
        let stage = self.byte_below(5);
        let (phase, contract, least, most) = match self.below(8) {
            0 | 1 => {
                let phase = match self.below(3) {
                    0 => [0, 4, 1 + self.byte_below(15), self.byte_below(4)],
                    1 => [0, self.byte_below(11), 0, 0],
                    _ => [0; 4],
                };
                (phase, [0; 6], 0, 3 + 4 * c)
            }
            2 => ([1, i, port, reason], [0; 6], 1, 1 + i),
            3 => ([2, 0, port, reason], consumer, 1, 1),
            4 => ([2, i + 1, port, reason], consumer, 1, 2 + i),
            5 | 6 => match stage {
                0 => ([3, 0, 0, 0], consumer, 1, 2 + c),
                1 => ([3, 1, 0, 0], consumer, 2, 3 + c),
                2 => ([3, 2, i, 0], consumer, 3 + i, 4 + c + 3 * i),
                3 => ([3, 3, i, 0], consumer, 4 + i, 5 + c + 3 * i),
                _ => ([3, 4, i, 0], consumer, 3 + i, 6 + c + 3 * i),
            },
            _ => ([4, 0, 0, 0], provider, 1, 1),
        };
        image[36] = match self.below(12) {
            0 => least,
            1 => most,
            2 => least.wrapping_sub(1),
            3 => most + 1,
            _ => least + self.byte_below(most - least + 1),
        };
        image[37..41].copy_from_slice(&phase);
        image[41..47].copy_from_slice(&contract);

        // Notices, mostly those that the phase allows.
        let any = phase[0] == 0 || self.one_in(20);
        if phase[0] < 4 && self.one_in(2) {
            image[47..49].copy_from_slice(&[1, self.port(ports)]);
        }
        if any && self.one_in(3) {
            image[47] = 2;
            image[48..54].copy_from_slice(&provider);
        }
        if (any || phase[0] == 3) && self.one_in(2) {
            image[54..57].copy_from_slice(&[1, self.port(ports), reason]);
        }
        if any && self.one_in(2) {
            image[57] = 1;
            image[58..64].copy_from_slice(&consumer);
        }
        if any && self.one_in(2) {
            image[64..67].copy_from_slice(&[1, self.byte_below(2), self.byte_below(ports + 1)]);
        }
        image
    }

    /// A notice of seven bytes, as a slot has it.
    fn notice(&mut self) -> [u8; 7] {
        let (port, reason) = (self.port(16), self.byte_below(7));
        match self.below(5) {
            0 => [1, port, reason, 0, 0, 0, 0],
            1 => {
                let [a, b, c, d, e] = self.consumer();
                [2, port, a, b, c, d, e]
            }
            2 => [3, port, 0, 0, 0, 0, 0],
            3 => {
                let [a, b, c, d, e] = self.provider();
                [4, port, a, b, c, d, e]
            }
            _ => [5, self.byte_below(2), self.byte_below(17), 0, 0, 0, 0],
        }
    }

    /// Bytes that are mostly a follower's image.
    pub fn follower_image(&mut self) -> Vec<u8> {
        let mut image = vec![0; FOLLOWER_IMAGE];
        image[0] = 2;
        image[2..6].copy_from_slice(&self.word().to_le_bytes());
        if self.one_in(8) {
            return image;
        }
        image[1] = 1;
        let display = self.display(16);
        image[6..17].copy_from_slice(&display);
        let often = self.pick(&[1, 2, 2, 5]);
        for slot in image[17..].chunks_exact_mut(32) {
            if !self.one_in(often) {
                continue;
            }
            let answer = if self.one_in(4) {
                self.byte_below(11)
            } else {
                0
            };
            let count = self.byte_below(5);
            slot[..4].copy_from_slice(&[1, answer, self.byte_below(36), count]);
            for notice in slot[4..].chunks_exact_mut(7).take(count.into()) {
                notice.copy_from_slice(&self.notice());
            }
        }
        image
    }

    fn put_contract(packet: &mut Vec<u8>, contract: &[u8]) {
        packet.push(contract[0]);
        packet.extend(number(
            u16::from_le_bytes([contract[1], contract[2]]).into(),
        ));
        packet.extend(number(
            u16::from_le_bytes([contract[3], contract[4]]).into(),
        ));
        packet.push(contract[5]);
    }

    /// A packet or picture whose number is near this one.
    pub fn packet(&mut self, near: u32) -> Vec<u8> {
        let ahead = self.pick(&[0, 1, 1, 1, 2, 2, 3, 4, 5, 6, 7, 8, 9, 10, 12]);
        let event = match self.below(16) {
            0 => self.word(),
            1 => near.saturating_sub(ahead),
            _ => near.saturating_add(ahead),
        };
        let mut packet = Vec::new();
        if self.one_in(5) {
            packet.push(2);
            packet.extend(number(event));
            let display = self.display(16);
            packet.push(display[0]);
            if display[0] == 1 {
                Self::put_contract(&mut packet, &display[1..7]);
            }
            let tracked = u16::from_le_bytes([display[9], display[10]]);
            packet.extend([display[7], display[8], tracked.count_ones() as u8]);
            packet.extend((0..16).filter(|port| tracked >> port & 1 == 1));
            return packet;
        }
        let answer = if self.one_in(10) {
            self.byte_below(11)
        } else {
            0
        };
        packet.push(1);
        packet.extend(number(event));
        packet.extend([answer, self.byte_below(36)]);
        let count = self.byte_below(5);
        packet.push(count);
        for _ in 0..count {
            let notice = self.notice();
            packet.push(notice[0]);
            match notice[0] {
                2 | 4 => Self::put_contract(&mut packet, &notice[1..]),
                3 => packet.push(notice[1]),
                _ => packet.extend(&notice[1..3]),
            }
        }
        packet
    }

    /// Bytes like these with one thing changed.
    pub fn damaged(&mut self, bytes: &[u8], lengths: &[usize]) -> Vec<u8> {
        let mut bytes = bytes.to_vec();
        match self.below(10) {
            0 => {
                let length = self.pick(lengths);
                bytes.resize(length, self.pick(&[0, 1, 255]));
            }
            1 => bytes.truncate(bytes.len().saturating_sub(1)),
            2 => bytes.push(self.pick(&[0, 1, 128, 255])),
            3 => {
                let length = bytes.len();
                bytes = self.bytes(length);
            }
            4 => {
                // A longer number, perhaps cut.
                let place = self.below(bytes.len() + 1);
                let more = 1 + self.below(5);
                let byte = self.pick(&[0x80, 0x81, 0xFF]);
                bytes.splice(place..place, vec![byte; more]);
                if self.one_in(2) {
                    bytes.truncate(place + more);
                }
            }
            what => {
                if !bytes.is_empty() {
                    for _ in 0..if what == 5 { 3 } else { 1 } {
                        let place = self.below(bytes.len());
                        bytes[place] = self.changed(bytes[place]);
                    }
                }
            }
        }
        bytes
    }

    fn changed(&mut self, byte: u8) -> u8 {
        match self.below(4) {
            0 => byte ^ 1 << self.below(8),
            1 => byte.wrapping_add(1),
            2 => byte.wrapping_sub(1),
            _ => self.pick(&VALUES),
        }
    }
}

/// Values at the edges of fields.
pub const VALUES: [u8; 22] = [
    0, 1, 2, 3, 4, 5, 6, 7, 8, 9, 10, 11, 13, 14, 15, 16, 17, 35, 36, 127, 128, 255,
];
