//! The edges (EDG), through the bytes. P8 and P9 are transitions of a device's record, which no C function makes.

const IMAGE: usize = plain::SERVICE_IMAGE;

const DONE: u64 = 4;
/// Without an order.
const CLOSED: u64 = 2;

fn refused(number: u64) -> u64 {
    number << 8
}

fn order(kind: u64, device: u64, mv: u64, ma: u64, flags: u64) -> u64 {
    1 | kind << 8 | device << 16 | flags << 24 | mv << 32 | ma << 48
}

/// Closed after so many orders.
fn closed(answer: u64, orders: u64) -> u64 {
    CLOSED | answer << 8 | orders << 32
}

fn capability(mv: u16, ma: u16, flags: u8) -> [u8; 5] {
    let ([v0, v1], [a0, a1]) = (mv.to_le_bytes(), ma.to_le_bytes());
    [v0, v1, a0, a1, flags]
}

/// A PSU record, 18 bytes.
#[derive(Clone, Copy)]
struct Psu([u8; 18]);

impl Psu {
    fn detached() -> Self {
        Self([0; 18])
    }

    fn idle() -> Self {
        let mut record = [0; 18];
        record[0] = 1;
        Self(record)
    }

    fn connected(state: u8, mv: u16, ma: u16, flags: u8) -> Self {
        let mut record = [0; 18];
        record[0] = state;
        record[1..6].copy_from_slice(&capability(mv, ma, flags));
        Self(record)
    }

    fn offers(mut self, mv: u16, ma: u16, flags: u8) -> Self {
        self.0[6] = 1;
        self.0[7..12].copy_from_slice(&capability(mv, ma, flags));
        self
    }

    fn requests(mut self, mv: u16, ma: u16, flags: u8) -> Self {
        self.0[12] = 1;
        self.0[13..18].copy_from_slice(&capability(mv, ma, flags));
        self
    }
}

struct Run {
    image: [u8; IMAGE],
    psus: Vec<u8>,
    chargers: Vec<u8>,
}

impl Run {
    /// The default configuration, with this minimum.
    fn start(psus: &[Psu], chargers: &[u8], minimum: Option<u32>) -> Self {
        let mut image = [0xA5; IMAGE];
        let ports = psus.len() as u32;
        let count = chargers.len() as u32;
        let present = u64::from(minimum.is_some());
        let minimum = minimum.map_or(u64::MAX, u64::from);
        let result = plain::start(
            &mut image, ports, count, 15000, 5000, 3000, 5000, 1500, present, minimum,
        );
        assert_eq!(result, DONE);
        let mut run = Self {
            image,
            psus: Vec::new(),
            chargers: chargers
                .iter()
                .flat_map(|state| [*state, 0, 0, 0, 0, 0, 0])
                .collect(),
        };
        run.set(psus);
        run
    }

    fn set(&mut self, psus: &[Psu]) {
        self.psus = psus.iter().flat_map(|psu| psu.0).collect();
    }

    fn open(&mut self, kind: u32, device: u32, detail: u32) -> u64 {
        let result = plain::open(
            &mut self.image,
            &self.psus,
            &self.chargers,
            kind,
            device,
            detail,
        );
        assert_eq!(plain::order(&self.image), result);
        result
    }

    fn answer(&mut self, answer: u32) -> u64 {
        let result = plain::answer(&mut self.image, &self.psus, &self.chargers, answer);
        assert_eq!(plain::order(&self.image), result);
        result
    }

    fn packet(&self) -> Vec<u8> {
        written(|buffer| plain::write_packet(&self.image, buffer))
    }

    fn picture(&self) -> Vec<u8> {
        written(|buffer| plain::write_picture(&self.image, buffer))
    }

    fn power_state(&self) -> u8 {
        self.image[35]
    }
}

fn written(write: impl FnOnce(&mut [u8]) -> u64) -> Vec<u8> {
    let mut buffer = [0xEE; 70];
    let result = write(&mut buffer);
    assert_eq!(result & 0xFF, 3);
    let length = (result >> 8) as usize;
    assert!(buffer[length..].iter().all(|byte| *byte == 0xEE));
    buffer[..length].to_vec()
}

/// Whether an offer is eligible under a minimum.
fn eligible(mv: u16, ma: u16, minimum: u32) -> bool {
    let mut run = Run::start(&[Psu::idle().offers(mv, ma, 0)], &[], Some(minimum));
    match run.open(1, 0, 0) {
        CLOSED => false,
        result => {
            assert_eq!(result, order(1, 0, mv.into(), ma.into(), 0));
            true
        }
    }
}

#[test]
fn p1_milliwatts() {
    assert!(eligible(5000, 3000, 15000) && !eligible(5000, 3000, 15001));
    assert!(eligible(999, 1, 0) && !eligible(999, 1, 1));
    assert!(eligible(65535, 65535, 4_294_836) && !eligible(65535, 65535, 4_294_837));
}

#[test]
fn p2_no_capability() {
    let mut run = Run::start(&[Psu::idle(), Psu::detached()], &[1], None);
    assert_eq!(run.open(1, 0, 0), CLOSED);
    assert_eq!(run.packet(), [1, 1, 0, 0, 0]);
    assert_eq!(run.picture(), [2, 1, 0, 0, 0, 0]);
}

#[test]
fn p3_minimum() {
    assert!(eligible(7500, 1000, 7500) && !eligible(7499, 1000, 7500));
}

#[test]
fn p4_equal_milliwatts() {
    let psus = [
        Psu::idle().offers(5000, 3000, 0),
        Psu::idle(),
        Psu::idle().offers(15000, 1000, 0),
    ];
    let mut run = Run::start(&psus, &[], None);
    assert_eq!(run.open(1, 1, 0), order(1, 0, 5000, 3000, 0));

    let mut run = Run::start(&psus, &[], None);
    run.set(&[psus[1], psus[1], psus[2]]);
    assert_eq!(run.open(1, 1, 0), order(1, 2, 15000, 1000, 0));
    assert_eq!(run.answer(0), order(7, 0, 800, 0, 0));
    assert_eq!(run.answer(0), closed(0, 2));
    run.set(&psus);
    // Port 2 stays, though it has since gone Idle.
    assert_eq!(run.open(1, 1, 0), CLOSED);
    assert_eq!(
        run.picture(),
        [2, 2, 1, 2, 0x98, 0x75, 0xE8, 0x07, 0, 0, 0, 0]
    );
}

#[test]
fn p5_total() {
    let contracts = [
        Psu::connected(2, 5000, 3000, 2),
        Psu::connected(2, 1000, 1, 2),
        Psu::idle().requests(0, 0, 2),
    ];
    let mut run = Run::start(&contracts, &[], None);
    assert_eq!(run.open(2, 2, 0), order(2, 2, 5000, 1500, 2));
    assert_eq!(run.power_state(), 1);

    let mut run = Run::start(&[contracts[0], Psu::idle(), contracts[2]], &[], None);
    assert_eq!(run.open(2, 2, 0), order(2, 2, 0, 0, 2));
    assert_eq!(run.power_state(), 0);
}

#[test]
fn p6_lone_request() {
    let mut run = Run::start(&[Psu::idle().requests(15000, 1000, 4)], &[], None);
    assert_eq!(run.open(2, 0, 9), order(2, 0, 5000, 3000, 4));
    assert_eq!(run.answer(0), closed(0, 1));
    assert_eq!(
        run.packet(),
        [1, 1, 0, 1, 1, 4, 0, 0x88, 0x27, 0xB8, 0x17, 4]
    );
    assert_eq!(run.picture(), [2, 1, 0, 0, 0, 1, 0]);
}

#[test]
fn p7_limited_above_the_request() {
    let psus = [
        Psu::connected(2, 5000, 3000, 2),
        Psu::idle().requests(5000, 500, 2),
    ];
    let mut run = Run::start(&psus, &[], None);
    assert_eq!(run.open(2, 1, 0), order(2, 1, 5000, 1500, 2));
    assert_eq!(run.power_state(), 1);
}

#[test]
fn a_wrong_state() {
    // Detached: not a provider (Idle, ConnectedProvider), not a consumer (Idle, ConnectedConsumer).
    let psu = Psu::detached().requests(5000, 500, 2).offers(5000, 500, 2);
    let mut run = Run::start(&[psu], &[], None);
    assert_eq!(run.open(2, 0, 0), CLOSED | 4 << 8 | 6 << 16);
    assert_eq!(run.open(1, 0, 0), CLOSED | 4 << 8 | 10 << 16);
    run.set(&[Psu::connected(2, 1, 1, 0).offers(5000, 500, 2)]);
    assert_eq!(run.open(1, 0, 0), CLOSED | 4 << 8 | 10 << 16 | 2 << 24);
    assert_eq!(run.packet(), [1, 3, 4, 0, 0]);
}

#[test]
fn p10_fifth_provider() {
    let mut run = Run::start(&[Psu::idle().requests(5000, 100, 2); 5], &[], None);
    for port in 0..5 {
        assert_eq!(run.open(2, port, 0), order(2, port.into(), 5000, 100, 2));
        assert_eq!(run.answer(0), closed(0, 1));
        let number = port as u8 + 1;
        let notice = [4, port as u8, 0x88, 0x27, 0x64, 2];
        assert_eq!(
            run.packet(),
            [vec![1, number, 0, 1, 1], notice.to_vec()].concat()
        );
    }
    assert_eq!(run.picture(), [2, 5, 0, 0, 0, 4, 0, 1, 2, 3]);
    assert_eq!(run.open(4, 4, 0), CLOSED);
    assert_eq!(run.packet(), [1, 6, 0, 0, 0]);
    assert_eq!(run.open(4, 1, 0), CLOSED);
    assert_eq!(run.packet(), [1, 7, 0, 0, 1, 3, 1]);
    assert_eq!(run.picture(), [2, 7, 0, 0, 0, 3, 0, 2, 3]);
}

#[test]
fn p11_numbers() {
    let mut run = Run::start(&[Psu::idle()], &[], None);
    for _ in 0..300 {
        assert_eq!(run.open(0, 0, 0), CLOSED);
        match u32::from_le_bytes(run.image[20..24].try_into().unwrap()) {
            127 => assert_eq!(run.packet(), [1, 0x7F, 0, 0, 0]),
            128 => assert_eq!(run.packet(), [1, 0x80, 0x01, 0, 0, 0]),
            300 => assert_eq!(run.packet(), [1, 0xAC, 0x02, 0, 0, 0]),
            _ => {}
        }
    }
    let mut follower = [0; plain::FOLLOWER_IMAGE];
    assert_eq!(plain::follower_start(&mut follower), DONE);
    assert_eq!(
        plain::follower_take(&mut follower, &[1, 0x80, 0, 0, 0, 0]),
        refused(31)
    );
    assert_eq!(
        plain::follower_take(&mut follower, &[1, 0xAC, 2, 0, 0, 0]),
        DONE
    );
    assert_eq!(follower[..6], [2, 0, 0x2C, 1, 0, 0]);
}

#[test]
fn p12_five_takes() {
    let mut follower = [0x5A; plain::FOLLOWER_IMAGE];
    assert_eq!(plain::follower_start(&mut follower), DONE);
    let example = [1, 1, 0, 2, 1, 2, 1, 0xA0, 0x9C, 1, 0xB8, 0x17, 2];
    let none = 6;
    let one = 6 | 1 << 8 | 1 << 16 | 2 << 24 | 20000 << 32 | 3000 << 48;
    let shown = |state: u64, number: u64| 5 | state << 8 | number << 32;
    let takes: [(&[u8], u64, u64); 5] = [
        (&[2, 0, 0, 0, 0, 0], shown(1, 0), none),
        (&[1, 2, 0, 0, 0], shown(2, 0), none),
        (&example, shown(1, 2), one),
        (&example, shown(1, 2), one),
        (&[1, 3, 7, 1, 0], shown(0, 0), none),
    ];
    for (packet, state, consumer) in takes {
        assert_eq!(plain::follower_take(&mut follower, packet), DONE);
        assert_eq!(plain::follower_shown(&follower), state);
        assert_eq!(plain::follower_consumer(&follower), consumer);
        assert_eq!(plain::follower_tracked(&follower), 7);
    }
    // The floor is 3.
    assert_eq!(follower[..6], [2, 0, 3, 0, 0, 0]);
    assert!(follower[6..].iter().all(|byte| *byte == 0));
}

#[test]
fn a_whole_update() {
    let first = Psu::idle().offers(5000, 3000, 3);
    let mut run = Run::start(&[first, Psu::idle()], &[1, 0], None);
    assert_eq!(run.open(1, 0, 0), order(1, 0, 5000, 3000, 3));
    assert_eq!(run.answer(0), order(7, 0, 800, 0, 0));
    for failed in [1, 9, 10] {
        assert_eq!(
            plain::answer(&mut run.image, &run.psus, &run.chargers, failed),
            refused(24)
        );
    }
    assert_eq!(run.answer(0), order(5, 0, 5000, 3000, 3));
    assert_eq!(run.answer(0), order(3, 1, 0, 0, 0));
    assert_eq!(run.answer(0), order(4, 1, 0, 0, 0));
    assert_eq!(run.answer(0), order(5, 1, 5000, 3000, 3));
    assert_eq!(run.answer(0), closed(0, 6));
    let connected = [2, 0, 0x88, 0x27, 0xB8, 0x17, 3];
    let head = [1, 1, 0, 6, 2];
    assert_eq!(run.packet(), [&head[..], &connected, &[5, 1, 1]].concat());

    // A better port: the old one is disconnected, powered chargers are detached, the new one connected.
    let second = Psu::idle().offers(20000, 3000, 4);
    run.set(&[
        Psu::connected(3, 5000, 3000, 3).offers(5000, 3000, 3),
        second,
    ]);
    assert_eq!(run.open(3, 1, 6), order(0, 0, 0, 0, 0));
    assert_eq!(
        run.image[37..47],
        [2, 0, 0, 6, 1, 0x20, 0x4E, 0xB8, 0x0B, 4]
    );
    assert_eq!(run.answer(0), order(6, 0, 0, 0, 0));
    assert_eq!(run.answer(0), order(1, 1, 20000, 3000, 4));
    assert_eq!(run.answer(8), closed(8, 3));
    // The error ends it: a notice of the old consumer, none of the figures.
    assert_eq!(run.packet(), [1, 2, 8, 3, 1, 1, 0, 6]);
    assert_eq!(run.picture(), [2, 2, 0, 1, 1, 0]);
}

#[test]
fn a_consumer_that_leaves() {
    let offer = Psu::idle().offers(5000, 3000, 3);
    let mut run = Run::start(&[offer], &[1, 0, 3], None);
    let mut result = run.open(1, 0, 0);
    while result as u8 == 1 {
        result = run.answer(0);
    }
    run.set(&[Psu::detached()]);
    assert_eq!(run.open(4, 0, 0), order(6, 0, 0, 0, 0));
    assert_eq!(run.answer(0), order(6, 2, 0, 0, 0));
    assert_eq!(run.image[36..47], [2, 1, 2, 0, 1, 0, 0, 0, 0, 0, 0]);
    assert_eq!(run.answer(9), closed(9, 2));
    // The consumer is still there: the error came before it was dropped.
    assert_eq!(run.image[24..31], [1, 0, 0x88, 0x13, 0xB8, 0x0B, 3]);
    assert_eq!(run.packet(), [1, 2, 9, 2, 0]);
    assert_eq!(run.open(1, 0, 0), order(6, 0, 0, 0, 0));
    assert_eq!(run.answer(0), order(6, 2, 0, 0, 0));
    assert_eq!(run.answer(0), closed(0, 2));
    assert_eq!(run.packet(), [1, 3, 0, 2, 2, 1, 0, 0, 5, 0, 0]);
    // A charger's event has no orders, and does not hide those of the event before it.
    let result = plain::open(&mut run.image, &run.psus, &run.chargers, 5, 0, 0);
    assert_eq!(result, CLOSED);
    assert_eq!(plain::order(&run.image), closed(0, 2));
}

#[test]
fn a_charger_event_leaves_the_image() {
    let mut run = Run::start(&[Psu::detached().offers(1, 1, 0)], &[1], None);
    assert_eq!(run.open(1, 0, 0), CLOSED | 4 << 8 | 10 << 16);
    let before = run.image;
    let result = plain::open(&mut run.image, &run.psus, &run.chargers, 5, 0, 1);
    assert_eq!(result, CLOSED);
    assert_eq!(run.image, before);
    run.image[20..24].fill(0xFF);
    let result = plain::open(&mut run.image, &run.psus, &run.chargers, 5, 0, 0);
    assert_eq!(result, CLOSED);
    let result = plain::open(&mut run.image, &run.psus, &run.chargers, 0, 0, 0);
    assert_eq!(result, refused(28));
}
