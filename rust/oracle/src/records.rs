//! Vectors of bytes that may be no record: what is accepted (SHP-8 to SHP-10, REF-22).
//!
//! The layout is that of [`crate::interface`]; the bytes to be read stand in the place of the record
//! before. The original has no byte records, so it is not asked: this is a reading of the
//! requirements in terms of bytes alone. The first byte of every result is 1 accepted or 0 refused; what is refused
//! leaves all else zero.
//!
//! | call | input | result, record afterwards |
//! |---|---|---|
//! | 24 | 18 bytes: a PSU record? | the same bytes as the record afterwards |
//! | 25 | 7 bytes: a charger record? | the same bytes as the record afterwards |
//! | 26 | a byte: the flags of a consumer? | unconstrained_power, number of the PSU type |
//! | 27 | a byte: the flags of a provider? | 0, number of the PSU type |
//! | 28 | a row of PSU records? see below | |
//! | 29 | a row of charger records? see below | |
//! | 30 | a byte: a disconnect reason? | |
//! | 31 | a byte: an answer? | |
//! | 32 | a byte: the PSU state of a charger's event? | the byte |
//!
//! The input of 28 and 29: byte 0 the number of ports or chargers; 1 and 2 the length of the row in
//! bytes, low byte first, at most 400; 3 and 4 a place, low byte first; 5 a value. The row is zeros but
//! for the value at that place, and all zeros if the place is beyond its end.

use std::collections::{BTreeMap, HashSet};

use crate::{
    interface::{
        Capability, Op, Vector, capability, charger_record, present, psu_record, vector, wide,
    },
    random::Rng,
    record::{CAPABILITY, CHARGER, PSU},
};

pub const READ_PSU: Op = 24;
pub const READ_CHARGER: Op = 25;
pub const READ_CONSUMER_FLAGS: Op = 26;
pub const READ_PROVIDER_FLAGS: Op = 27;
pub const READ_PSU_ROW: Op = 28;
pub const READ_CHARGER_ROW: Op = 29;
pub const READ_REASON: Op = 30;
pub const READ_ANSWER: Op = 31;
pub const READ_CHARGER_PSU_STATE: Op = 32;

pub const FIRST: Op = READ_PSU;
pub const LAST: Op = READ_CHARGER_PSU_STATE;

/// The longest row that is asked about.
pub const LONGEST: usize = 400;

/// Whose capability it is.
#[derive(Clone, Copy, PartialEq, Eq)]
enum Side {
    Consumer,
    Provider,
}

/// unconstrained_power and the number of the PSU type.
fn flags(byte: u8, side: Side) -> Option<[u8; 2]> {
    let unconstrained = byte & 1;
    let psu_type = byte >> 1 & 7;
    let rest = byte >> 4;
    let accepted = psu_type <= 6 && rest == 0 && (side == Side::Consumer || unconstrained == 0);
    accepted.then_some([unconstrained, psu_type])
}

fn zeros(bytes: &[u8]) -> bool {
    bytes.iter().all(|byte| *byte == 0)
}

/// Any mV and mA, and flags.
fn is_capability(bytes: &[u8], side: Side) -> bool {
    flags(bytes[4], side).is_some()
}

/// A presence byte and a capability.
fn is_option(bytes: &[u8], side: Side) -> bool {
    match bytes[0] {
        0 => zeros(bytes),
        1 => is_capability(&bytes[1..], side),
        _ => false,
    }
}

fn is_psu(bytes: &[u8]) -> bool {
    let contract = &bytes[1..6];
    let state = match bytes[0] {
        0 | 1 => zeros(contract),
        2 => is_capability(contract, Side::Provider),
        3 => is_capability(contract, Side::Consumer),
        _ => false,
    };
    state && is_option(&bytes[6..12], Side::Consumer) && is_option(&bytes[12..18], Side::Provider)
}

fn is_charger(bytes: &[u8]) -> bool {
    bytes[0] <= 3 && is_option(&bytes[1..7], Side::Consumer)
}

/// What a row consists of.
struct Kind {
    op: Op,
    most: usize,
    size: usize,
    is_record: fn(&[u8]) -> bool,
}

const PSUS: Kind = Kind {
    op: READ_PSU_ROW,
    most: 16,
    size: PSU,
    is_record: is_psu,
};

const CHARGERS: Kind = Kind {
    op: READ_CHARGER_ROW,
    most: 8,
    size: CHARGER,
    is_record: is_charger,
};

/// A row that is to be read.
#[derive(Clone, Copy)]
struct Row {
    records: u8,
    length: u16,
    place: u16,
    value: u8,
}

impl Row {
    fn to_bytes(self) -> [u8; 18] {
        let [l0, l1] = self.length.to_le_bytes();
        let [p0, p1] = self.place.to_le_bytes();
        wide([self.records, l0, l1, p0, p1, self.value])
    }

    fn from_bytes(bytes: &[u8; 18]) -> Self {
        assert!(zeros(&bytes[6..]));
        Self {
            records: bytes[0],
            length: u16::from_le_bytes([bytes[1], bytes[2]]),
            place: u16::from_le_bytes([bytes[3], bytes[4]]),
            value: bytes[5],
        }
    }

    fn is_accepted(&self, kind: &Kind) -> bool {
        let length = usize::from(self.length);
        assert!(length <= LONGEST);
        let mut row = vec![0; length];
        if let Some(byte) = row.get_mut(usize::from(self.place)) {
            *byte = self.value;
        }
        let records = usize::from(self.records);
        records <= kind.most
            && length == records * kind.size
            && row.chunks(kind.size).all(kind.is_record)
    }
}

/// Asks the document.
pub fn ask(op: Op, input: &[u8; 18]) -> Vector {
    let byte = input[0];
    let used = match op {
        READ_PSU => PSU,
        READ_CHARGER => CHARGER,
        READ_PSU_ROW | READ_CHARGER_ROW => 6,
        _ => 1,
    };
    assert!(zeros(&input[used..]), "unused bytes are zero");
    // What is accepted gives these bytes after the 1.
    let accepted = match op {
        READ_PSU => is_psu(input).then_some([0; 2]),
        READ_CHARGER => is_charger(input).then_some([0; 2]),
        READ_CONSUMER_FLAGS => flags(byte, Side::Consumer),
        READ_PROVIDER_FLAGS => flags(byte, Side::Provider),
        READ_PSU_ROW => Row::from_bytes(input).is_accepted(&PSUS).then_some([0; 2]),
        READ_CHARGER_ROW => Row::from_bytes(input)
            .is_accepted(&CHARGERS)
            .then_some([0; 2]),
        READ_REASON => (byte <= 6).then_some([0; 2]),
        READ_ANSWER => (byte <= 10).then_some([0; 2]),
        READ_CHARGER_PSU_STATE => (byte <= 1).then_some([byte, 0]),
        other => panic!("op {other}"),
    };
    let mut result = [0; 6];
    let mut after = [0; 18];
    if let Some([first, second]) = accepted {
        result[..3].copy_from_slice(&[1, first, second]);
        if op == READ_PSU || op == READ_CHARGER {
            after = *input;
        }
    }
    vector(op, input, &[0; 6], &result, &after)
}

/// The seed of the sample.
const SEED: u64 = 1;

/// How many vectors the sample has of each call, place and verdict, if there are as many.
const EACH: usize = 27;

/// What a byte of a record is replaced by, besides its neighbours.
const VALUES: [u8; 12] = [0, 1, 2, 3, 4, 13, 14, 15, 16, 127, 128, 255];

/// Well-formed PSU records: every state kind with each combination of presence, and edges.
pub fn psus() -> Vec<[u8; PSU]> {
    const NONE: Capability = [0; CAPABILITY];
    let one = capability(5000, 3000, 2);
    let mut all = Vec::new();
    for (state, contract) in [(0, NONE), (1, NONE), (2, one), (3, one)] {
        for consumer in [[0; 6], present(&capability(20000, 3000, 5))] {
            for request in [[0; 6], present(&capability(5000, 1500, 4))] {
                all.push(psu_record(state, &contract, &consumer, &request));
            }
        }
    }
    // Every PSU type with figures at their ends and at byte borders, in each place of a capability.
    let figures = [
        (0, 0),
        (65535, 65535),
        (0, 65535),
        (65535, 0),
        (255, 256),
        (1, 257),
        (32768, 127),
    ];
    for (number, (voltage, current)) in figures.into_iter().enumerate() {
        let as_provider = capability(voltage, current, number as u8 * 2);
        let as_consumer = capability(current, voltage, number as u8 * 2 + 1);
        let absent = [0; 6];
        all.push(psu_record(2, &as_provider, &absent, &absent));
        all.push(psu_record(3, &as_consumer, &absent, &absent));
        all.push(psu_record(1, &NONE, &present(&as_consumer), &absent));
        all.push(psu_record(
            0,
            &NONE,
            &present(&as_provider),
            &present(&as_provider),
        ));
    }
    all
}

/// Well-formed charger records: every state with and without a capability, and edges.
pub fn chargers() -> Vec<[u8; CHARGER]> {
    let mut all = Vec::new();
    let one = present(&capability(5000, 3000, 2));
    for state in 0..4 {
        all.push(charger_record(state, &[0; 6]));
        all.push(charger_record(state, &one));
    }
    for (state, voltage, current, flags) in [
        (0, 0, 0, 0),
        (1, 65535, 65535, 13),
        (2, 0, 65535, 1),
        (3, 65535, 0, 12),
        (0, 255, 256, 7),
        (1, 1, 257, 8),
        (2, 32768, 127, 11),
    ] {
        let capability = present(&capability(voltage, current, flags));
        all.push(charger_record(state, &capability));
    }
    all.iter()
        .map(|record| *record.first_chunk().expect("a charger record"))
        .collect()
}

/// A vector's group: its call and, where a byte was replaced, the place of it.
type Group = (Op, Option<usize>);

/// Collects vectors, each once, in the order in which they come.
#[derive(Default)]
struct Collection {
    seen: HashSet<Vector>,
    vectors: Vec<(Group, Vector)>,
}

impl Collection {
    fn ask(&mut self, op: Op, place: Option<usize>, input: &[u8; 18]) {
        let vector = ask(op, input);
        if self.seen.insert(vector) {
            self.vectors.push(((op, place), vector));
        }
    }

    /// The record, and each byte of it replaced.
    fn ask_changed(&mut self, op: Op, record: &[u8]) {
        let mut input = [0; 18];
        input[..record.len()].copy_from_slice(record);
        self.ask(op, None, &input);
        for (place, byte) in record.iter().enumerate() {
            let near = [byte.checked_sub(1), byte.checked_add(1)];
            for value in VALUES.into_iter().chain(near.into_iter().flatten()) {
                let mut changed = input;
                changed[place] = value;
                self.ask(op, Some(place), &changed);
            }
        }
    }

    fn ask_row(&mut self, kind: &Kind, place: Option<usize>, row: Row) {
        self.ask(kind.op, place, &row.to_bytes());
    }

    fn ask_rows(&mut self, kind: &Kind) {
        let zero_row = |records: usize, length: usize| Row {
            records: records as u8,
            length: length as u16,
            place: 0,
            value: 0,
        };
        let most = kind.most + 2;
        // Right and wrong lengths.
        for records in 0..=most {
            let length = records * kind.size;
            let one_less = records.saturating_sub(1) * kind.size;
            let one_more = (records + 1) * kind.size;
            for length in [
                length,
                length.saturating_sub(1),
                length + 1,
                one_less,
                one_more,
            ] {
                self.ask_row(kind, None, zero_row(records, length));
            }
            // Beyond the end there is nothing to change.
            for place in [length, length + 1, 65535] {
                let row = Row {
                    place: place as u16,
                    value: 255,
                    ..zero_row(records, length)
                };
                self.ask_row(kind, None, row);
            }
        }
        // Lengths that are right in one byte alone, or for the other kind of record.
        for records in [1, 7, 8, 14, 15, 16, 17, 18, 36, 37, 128, 254, 255] {
            for size in [PSU, CHARGER] {
                self.ask_row(kind, None, zero_row(records, records * size % 256));
            }
            self.ask_row(kind, None, zero_row(records, 0));
        }
        // One changed byte in the first, a middle and the last record.
        for records in [1, 2, 3, kind.most - 1, kind.most, kind.most + 1] {
            for record in [0, records / 2, records - 1] {
                for place in 0..kind.size {
                    for value in [1, 2, 3, 4, 13, 14, 255] {
                        let row = Row {
                            place: (record * kind.size + place) as u16,
                            value,
                            ..zero_row(records, records * kind.size)
                        };
                        self.ask_row(kind, Some(place), row);
                    }
                }
            }
        }
    }

    fn ask_bytes(&mut self) {
        for byte in 0..=255 {
            let input = wide([byte]);
            self.ask(READ_CONSUMER_FLAGS, None, &input);
            self.ask(READ_PROVIDER_FLAGS, None, &input);
            // The sample has those near the limits and some of the rest.
            let place = (byte > 20 && byte < 254).then_some(0);
            self.ask(READ_REASON, place, &input);
            self.ask(READ_ANSWER, place, &input);
            self.ask(READ_CHARGER_PSU_STATE, place, &input);
        }
    }

    fn all() -> Self {
        let mut all = Self::default();
        all.ask_bytes();
        for record in psus() {
            all.ask_changed(READ_PSU, &record);
        }
        for record in chargers() {
            all.ask_changed(READ_CHARGER, &record);
        }
        all.ask_rows(&PSUS);
        all.ask_rows(&CHARGERS);
        all
    }
}

/// All bytes, well-formed records with every byte replaced, and rows.
pub fn full() -> Vec<Vector> {
    let all = Collection::all();
    all.vectors.into_iter().map(|(_, vector)| vector).collect()
}

/// A deterministic choice of [`full`]: all that has no replaced byte, and some of the rest for each
/// call, place and verdict.
pub fn sample() -> Vec<Vector> {
    let mut chosen = Vec::new();
    let mut rest: BTreeMap<(Group, u8), Vec<Vector>> = BTreeMap::new();
    for (group, vector) in Collection::all().vectors {
        match group {
            (_, None) => chosen.push(vector),
            _ => rest.entry((group, vector[25])).or_default().push(vector),
        }
    }
    let mut rng = Rng::new(SEED);
    for vectors in rest.values_mut() {
        for _ in 0..EACH.min(vectors.len()) {
            chosen.push(vectors.swap_remove(rng.below(vectors.len())));
        }
    }
    chosen
}
