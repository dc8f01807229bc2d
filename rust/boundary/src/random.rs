//! Random calls, compared byte by byte with the plain implementation.

use crate::{
    bytes::*,
    calls::{After, Call, Calls, Plain, Rows, perform},
    report::Report,
    rng::{Rng, VALUES},
};

/// Lengths around each boundary of an image or buffer.
const LENGTHS: [usize; 15] = [
    0, 1, 62, 63, 64, 65, 66, 67, 68, 240, 241, 242, 245, 246, 247,
];

struct Comparison<'a> {
    report: &'a mut Report,
    calls: &'a dyn Calls,
    rng: Rng,
    made: usize,
}

pub fn run(report: &mut Report, calls: &dyn Calls, seed: u64, count: usize) {
    let mut comparison = Comparison {
        report,
        calls,
        rng: Rng::new(seed),
        made: 0,
    };
    while comparison.made < count {
        match comparison.rng.below(32) {
            0 => comparison.run(),
            1..=16 => comparison.any_service(),
            17 | 18 => comparison.takes(),
            19..=28 => comparison.any_follower(),
            _ => comparison.any_bytes(),
        }
    }
}

impl Comparison<'_> {
    /// Makes the call on both, and gives what the plain implementation left.
    fn compare(&mut self, image: &[u8], call: &Call) -> After {
        self.made += 1;
        let plain =
            perform(&Plain, image, call).expect("the plain implementation keeps to the tables");
        let name = match call {
            Call::Start { .. } => "start",
            Call::Open { .. } => "open",
            Call::Answer { .. } => "answer",
            Call::Order => "order",
            Call::WritePacket(_) => "write_packet",
            Call::WritePicture(_) => "write_picture",
            Call::FollowerStart => "follower_start",
            Call::FollowerTake(_) => "follower_take",
            Call::FollowerShown => "follower_shown",
            Call::FollowerConsumer => "follower_consumer",
            Call::FollowerTracked => "follower_tracked",
            Call::FollowerWritePage(_) => "follower_write_page",
        };
        let result = perform(self.calls, image, call).and_then(|after| {
            if after == plain {
                return Ok(());
            }
            Err(format!(
                "gives {:#x} {} {}; plain gives {:#x} {} {}",
                after.result,
                hex(&after.image),
                hex(&after.buffer),
                plain.result,
                hex(&plain.image),
                hex(&plain.buffer)
            ))
        });
        self.report.check(
            name,
            result.map_err(|what| format!("{what}; image {} call {call:?}", hex(image))),
        );
        match plain.refusal() {
            0 => self.report.count("accepted"),
            number => self.report.count(&format!("refused {number}")),
        }
        plain
    }

    fn buffer(&mut self) -> Vec<u8> {
        let length = self
            .rng
            .pick(&[0, 1, 22, 33, 62, 63, 64, 65, 64, 64, 66, 100]);
        self.rng.bytes(length)
    }

    fn page_buffer(&mut self) -> Vec<u8> {
        let length = self
            .rng
            .pick(&[0, 1, 64, 244, 245, 246, 246, 246, 246, 247, 255, 256, 300]);
        self.rng.bytes(length)
    }

    fn start_call(&mut self, ports: u32, chargers: u32) -> Call {
        let rng = &mut self.rng;
        let minimum = rng.one_in(2);
        let mut figures = [
            u64::from(rng.pick(&[15000, 15000, 7500, 0, 60000, u32::MAX])),
            5000,
            3000,
            5000,
            1500,
            u64::from(minimum),
            rng.pick(&[0, 1, 7499, 7500, 15000, 15001, 60000]),
        ];
        if rng.one_in(3) {
            figures[1 + rng.below(4)] = rng.draw() & 0xFFFF;
        }
        if rng.one_in(8) {
            figures[rng.below(7)] = rng.pick(&[2, 65535, 65536, 1 << 32, u64::MAX, (1 << 32) - 1]);
        }
        Call::Start {
            ports,
            chargers,
            figures,
        }
    }

    fn open_call(&mut self, rows: Rows, ports: u8, chargers: u8) -> Call {
        let rng = &mut self.rng;
        let kind = rng.pick(&[0, 1, 1, 1, 2, 2, 2, 3, 3, 4, 4, 5]);
        let devices = if kind == 5 { chargers } else { ports };
        let mut numbers = [kind, rng.byte_below(devices).into(), rng.below(7) as u32];
        if kind == 5 {
            numbers[2] &= 1;
        }
        if rng.one_in(12) {
            let any = rng.pick(&[2, 5, 6, 7, 8, 15, 16, 255, 256, 261, u32::MAX]);
            numbers[rng.below(3)] = any;
        }
        let [kind, device, detail] = numbers;
        Call::Open {
            rows,
            kind,
            device,
            detail,
        }
    }

    fn answer_call(&mut self, rows: Rows) -> Call {
        let rng = &mut self.rng;
        let answer = match rng.below(12) {
            0 => rng.below(11) as u32,
            1 => 9,
            2 => rng.pick(&[11, 255, 256, 265, u32::MAX]),
            _ => 0,
        };
        Call::Answer { rows, answer }
    }

    /// The call with something that it is lent damaged.
    fn damage(&mut self, call: &Call) -> Call {
        let mut call = call.clone();
        match &mut call {
            Call::Open { rows, .. } | Call::Answer { rows, .. } => {
                let (row, record) = if self.rng.one_in(2) {
                    (&mut rows.psus, PSU_RECORD)
                } else {
                    (&mut rows.chargers, CHARGER_RECORD)
                };
                let length = row.len();
                let less = length.saturating_sub(record);
                *row = self
                    .rng
                    .damaged(row, &[0, 1, record, less, length + record]);
            }
            Call::FollowerTake(packet) => {
                let length = packet.len();
                *packet = self.rng.damaged(packet, &[0, 1, length / 2, 63, 64, 65]);
            }
            _ => {}
        }
        call
    }

    /// Makes the call, at times after it with damage done to the image or to what else is lent.
    fn compare_and_damage(&mut self, image: &[u8], call: &Call) -> After {
        let after = self.compare(image, call);
        if self.rng.one_in(3) {
            let damaged = self.rng.damaged(image, &LENGTHS);
            self.compare(&damaged, call);
        }
        if self.rng.one_in(3) {
            let damaged = self.damage(call);
            self.compare(image, &damaged);
        }
        after
    }

    /// Reads and writes that leave the service as it is.
    fn look(&mut self, image: &[u8]) {
        self.compare_and_damage(image, &Call::Order);
        let buffer = self.buffer();
        self.compare_and_damage(image, &Call::WritePacket(buffer));
        let buffer = self.buffer();
        self.compare_and_damage(image, &Call::WritePicture(buffer));
    }

    fn look_follower(&mut self, image: &[u8]) {
        self.compare_and_damage(image, &Call::FollowerShown);
        self.compare_and_damage(image, &Call::FollowerConsumer);
        self.compare_and_damage(image, &Call::FollowerTracked);
        let buffer = self.page_buffer();
        self.compare_and_damage(image, &Call::FollowerWritePage(buffer));
    }

    /// Every byte of the image changed to several values. What is then accepted is called in every way.
    fn sweep_service(&mut self, image: &[u8], rows: &Rows) {
        self.report.count("service images with each byte changed");
        for place in 0..image.len() {
            let own = image[place];
            let near = [own.wrapping_add(1), own.wrapping_sub(1), own ^ 0x80];
            for value in VALUES.into_iter().chain(near) {
                let mut changed = image.to_vec();
                changed[place] = value;
                if self.compare(&changed, &Call::Order).refusal() == 0 {
                    let call = self.open_call(rows.clone(), image[1], image[2]);
                    self.compare(&changed, &call);
                    let call = self.answer_call(rows.clone());
                    self.compare(&changed, &call);
                    self.compare(&changed, &Call::WritePacket(vec![0xEE; BUFFER]));
                    self.compare(&changed, &Call::WritePicture(vec![0xEE; BUFFER]));
                }
            }
        }
    }

    fn sweep_follower(&mut self, image: &[u8], packet: &[u8]) {
        self.report.count("follower images with each byte changed");
        for place in 0..image.len() {
            let own = image[place];
            for value in VALUES.into_iter().chain([own.wrapping_add(1), own ^ 0x80]) {
                let mut changed = image.to_vec();
                changed[place] = value;
                if self.compare(&changed, &Call::FollowerShown).refusal() == 0 {
                    self.compare(&changed, &Call::FollowerTake(packet.to_vec()));
                    self.compare(&changed, &Call::FollowerConsumer);
                    self.compare(&changed, &Call::FollowerTracked);
                    self.compare(&changed, &Call::FollowerWritePage(vec![0xEE; PAGE]));
                }
            }
        }
    }

    /// Every byte of the records changed to several values, and rows of every length around theirs.
    fn sweep_rows(&mut self, image: &[u8], rows: &Rows) {
        self.report.count("records with each byte changed");
        let mut all = Vec::new();
        for (of_psus, row, record) in [
            (true, &rows.psus, PSU_RECORD),
            (false, &rows.chargers, CHARGER_RECORD),
        ] {
            let with = |row: Vec<u8>| match of_psus {
                true => Rows {
                    psus: row,
                    chargers: rows.chargers.clone(),
                },
                false => Rows {
                    psus: rows.psus.clone(),
                    chargers: row,
                },
            };
            for place in 0..row.len() {
                for value in VALUES {
                    let mut changed = row.clone();
                    changed[place] = value;
                    all.push(with(changed));
                }
            }
            let length = row.len();
            let near = [length + 1, length.saturating_sub(1), length + record];
            for length in [0, 1, 63, 64, 65, length.saturating_sub(record)]
                .into_iter()
                .chain(near)
            {
                let mut changed = row.clone();
                changed.resize(length, 0);
                all.push(with(changed));
            }
        }
        for rows in all {
            let call = match self.rng.below(2) {
                0 => self.open_call(rows, image[1], image[2]),
                _ => Call::Answer { rows, answer: 0 },
            };
            self.compare(image, &call);
        }
    }

    /// Every byte of a packet changed to several values, and every beginning of it.
    fn sweep_packet(&mut self, image: &[u8], packet: &[u8]) {
        self.report.count("packets with each byte changed");
        for place in 0..packet.len() {
            self.compare(image, &Call::FollowerTake(packet[..place].to_vec()));
            let own = packet[place];
            for value in VALUES.into_iter().chain([own.wrapping_add(1), own ^ 0x80]) {
                let mut changed = packet.to_vec();
                changed[place] = value;
                self.compare(image, &Call::FollowerTake(changed));
            }
        }
    }

    /// Buffers of every length to 70.
    fn sweep_buffers(&mut self, image: &[u8]) {
        self.report.count("buffers of every length to 70");
        for length in 0..=70 {
            let buffer = self.rng.bytes(length);
            self.compare(image, &Call::WritePacket(buffer.clone()));
            self.compare(image, &Call::WritePicture(buffer));
        }
    }

    /// Buffers for a page of every length to 300.
    fn sweep_page_buffers(&mut self, image: &[u8]) {
        self.report
            .count("buffers for a page of every length to 300");
        for length in 0..=300 {
            let buffer = self.rng.bytes(length);
            self.compare(image, &Call::FollowerWritePage(buffer));
        }
    }

    /// A run from a start, and a follower that takes its packets. In a run 21 never arises.
    fn run(&mut self) {
        self.report.count("runs");
        let (ports, chargers) = (self.rng.ports(), self.rng.chargers());
        let fresh = self.rng.bytes(SERVICE_IMAGE);
        let call = self.start_call(ports.into(), chargers.into());
        let started = self.compare_and_damage(&fresh, &call);
        if started.refusal() != 0 {
            return;
        }
        let mut image = started.image;
        if self.rng.one_in(8) {
            let number = u32::MAX - self.rng.below(6) as u32;
            image[20..24].copy_from_slice(&number.to_le_bytes());
        }
        let bytes = self.rng.bytes(FOLLOWER_IMAGE);
        let mut follower = self.compare(&bytes, &Call::FollowerStart).image;
        let obedient = self.rng.one_in(2);
        let mut rows = self.rng.rows(ports, chargers);
        for _ in 0..1 + self.rng.below(24) {
            self.look(&image);
            self.alter(&mut rows, ports, chargers, obedient);
            let call = self.open_call(rows.clone(), ports, chargers);
            let mut after = self.compare_and_damage(&image, &call);
            while after.refusal() == 0 {
                image = after.image.clone();
                if self.rng.one_in(4) {
                    self.look(&image);
                }
                if self.rng.one_in(2000) {
                    self.sweep_service(&image, &rows);
                }
                if after.outcome() != 1 {
                    break;
                }
                if obedient || self.rng.one_in(2) {
                    obey(&mut rows, after.result);
                }
                if !obedient {
                    self.alter(&mut rows, ports, chargers, false);
                }
                // Until the order is answered in a way that it can be.
                let mut given = 0;
                after = loop {
                    let call = self.answer_call(rows.clone());
                    let after = self.compare_and_damage(&image, &call);
                    given += 1;
                    if after.refusal() == 0 || given > 20 {
                        break after;
                    }
                };
                if after.refusal() != 0 {
                    let rows = rows.clone();
                    after = self.compare(&image, &Call::Answer { rows, answer: 0 });
                }
            }
            if self.compare(&image, &Call::Order).refusal() == 21 {
                self.report
                    .check("run", Err(format!("21 arises at {}", hex(&image))));
            }
            let write = match self.rng.below(5) {
                0 => Call::WritePicture(vec![0; BUFFER]),
                _ => Call::WritePacket(vec![0; BUFFER]),
            };
            let written = self.compare(&image, &write);
            if written.outcome() == 3 && !self.rng.one_in(10) {
                let call = Call::FollowerTake(written.written().to_vec());
                follower = self.compare_and_damage(&follower, &call).image;
                self.look_follower(&follower);
            }
        }
    }

    /// Changes some records.
    fn alter(&mut self, rows: &mut Rows, ports: u8, chargers: u8, obedient: bool) {
        let often = if obedient { 3 } else { 2 };
        for record in rows.psus.chunks_exact_mut(PSU_RECORD) {
            if self.rng.one_in(often * usize::from(ports)) {
                record.copy_from_slice(&self.rng.psu());
            }
        }
        for record in rows.chargers.chunks_exact_mut(CHARGER_RECORD) {
            if self.rng.one_in(often * usize::from(chargers)) {
                record.copy_from_slice(&self.rng.charger());
            }
        }
    }

    /// Calls on a service that mostly no run comes to.
    fn any_service(&mut self) {
        let image = self.rng.service_image();
        let (ports, chargers) = (image[1], image[2]);
        let rows = self.rng.rows(ports, chargers);
        let stands = self.compare(&image, &Call::Order);
        self.report.count(match stands.refusal() {
            0 => "services made by hand, accepted",
            _ => "services made by hand, refused",
        });
        self.look(&image);
        let call = self.open_call(rows.clone(), ports, chargers);
        let opened = self.compare_and_damage(&image, &call);
        let call = self.answer_call(rows.clone());
        let answered = self.compare_and_damage(&image, &call);
        for after in [opened, answered] {
            let mut image = after.image;
            // To the close.
            for _ in 0..40 {
                if self.compare(&image, &Call::Order).outcome() != 1 {
                    break;
                }
                let rows = self.rng.rows(ports, chargers);
                image = self
                    .compare(&image, &Call::Answer { rows, answer: 0 })
                    .image;
            }
            self.compare(&image, &Call::WritePacket(vec![0xEE; BUFFER]));
            self.compare(&image, &Call::WritePicture(vec![0xEE; BUFFER]));
        }
        match self.rng.below(800) {
            0 | 1 => self.sweep_service(&image, &rows),
            2..=7 => self.sweep_rows(&image, &rows),
            8..=15 => self.sweep_buffers(&image),
            _ => {}
        }
    }

    /// A list of takes by one follower.
    fn takes(&mut self) {
        let mut image = if self.rng.one_in(3) {
            self.rng.follower_image()
        } else {
            self.compare(&[0; FOLLOWER_IMAGE], &Call::FollowerStart)
                .image
        };
        for _ in 0..self.rng.below(40) {
            let near = u32::from_le_bytes([image[2], image[3], image[4], image[5]]);
            let packet = self.rng.packet(near);
            let call = Call::FollowerTake(packet);
            image = self.compare_and_damage(&image, &call).image;
            self.look_follower(&image);
        }
    }

    /// One take by a follower that mostly no list of takes comes to.
    fn any_follower(&mut self) {
        let image = self.rng.follower_image();
        let near = u32::from_le_bytes([image[2], image[3], image[4], image[5]]);
        let packet = self.rng.packet(near);
        let call = Call::FollowerTake(packet.clone());
        let after = self.compare_and_damage(&image, &call);
        self.report.count(match after.refusal() {
            21 => "followers made by hand, refused",
            _ => "followers made by hand, accepted",
        });
        self.look_follower(&image);
        self.look_follower(&after.image);
        match self.rng.below(400) {
            0 => self.sweep_follower(&image, &packet),
            1..=8 => self.sweep_packet(&image, &packet),
            9..=11 => self.sweep_page_buffers(&image),
            _ => {}
        }
    }

    /// Random bytes of lengths around each boundary.
    fn any_bytes(&mut self) {
        let length = self.rng.pick(&LENGTHS);
        let mut image = self.rng.bytes(length);
        if let Some(first) = image.first_mut() {
            *first = self.rng.pick(&[1, 2, *first]);
        }
        let (ports, chargers) = (self.rng.ports(), self.rng.chargers());
        let mut rows = self.rng.rows(ports, chargers);
        if self.rng.one_in(2) {
            rows.psus = self.rng.bytes(PSU_RECORD * usize::from(ports));
            rows.chargers = self.rng.bytes(CHARGER_RECORD * usize::from(chargers));
        }
        let any = self.rng.below(20) as u32;
        let call = self.start_call(any, chargers.into());
        self.compare(&image, &call);
        let call = self.open_call(rows.clone(), ports, chargers);
        self.compare(&image, &call);
        let call = self.answer_call(rows);
        self.compare(&image, &call);
        self.look(&image);
        self.compare(&image, &Call::FollowerStart);
        self.look_follower(&image);
        let length = self.rng.below(70);
        let mut packet = self.rng.bytes(length);
        if let Some(first) = packet.first_mut() {
            *first = self.rng.pick(&[1, 2, *first]);
        }
        self.compare(&image, &Call::FollowerTake(packet.clone()));
        let fresh = self
            .compare(&[0; FOLLOWER_IMAGE], &Call::FollowerStart)
            .image;
        self.compare(&fresh, &Call::FollowerTake(packet));
    }
}

/// The records as a device leaves them that does what the order says.
fn obey(rows: &mut Rows, order: u64) {
    let [_, kind, device, flags, v0, v1, a0, a1] = order.to_le_bytes();
    let capability = [v0, v1, a0, a1, flags];
    let device = usize::from(device);
    let psu = |rows: &mut Rows, state: u8, contract: [u8; 5]| {
        let record = &mut rows.psus[PSU_RECORD * device..];
        record[0] = state;
        record[1..6].copy_from_slice(&contract);
    };
    let charger = CHARGER_RECORD * device;
    match kind {
        0 => psu(rows, 1, [0; 5]),
        1 => psu(rows, 3, capability),
        2 => psu(rows, 2, capability),
        3 => rows.chargers[charger] = 1,
        4 => rows.chargers[charger] = 2,
        5 => {
            rows.chargers[charger + 1] = 1;
            rows.chargers[charger + 2..charger + 7].copy_from_slice(&capability);
        }
        6 => rows.chargers[charger + 1..charger + 7].fill(0),
        _ => {}
    }
}
