//! The vectors of bytes that may be no record: what they cover, edges written by hand, and what is
//! accepted against what the original's values are written as.

use std::collections::{BTreeMap, BTreeSet};

use oracle::{
    interface::{Op, VECTOR, Vector},
    record,
    records::{self, *},
};

fn input(vector: &Vector) -> &[u8] {
    &vector[1..19]
}

fn accepted(vector: &Vector) -> bool {
    vector[25] == 1
}

fn vector(op: Op, input: &[u8], result: &[u8], after: &[u8]) -> Vector {
    let mut vector = [0; VECTOR];
    vector[0] = op;
    vector[1..1 + input.len()].copy_from_slice(input);
    vector[25..25 + result.len()].copy_from_slice(result);
    vector[31..31 + after.len()].copy_from_slice(after);
    vector
}

fn counts(vectors: &[Vector]) -> BTreeMap<Op, usize> {
    let mut counts = BTreeMap::new();
    for vector in vectors {
        *counts.entry(vector[0]).or_default() += 1;
    }
    counts
}

/// Every call with every verdict, every byte as flags, and a bad byte at every place.
fn covers(vectors: &[Vector]) {
    let ops: Vec<Op> = counts(vectors).into_keys().collect();
    assert_eq!(ops, Vec::from_iter(FIRST..=LAST));
    let each: BTreeSet<&Vector> = vectors.iter().collect();
    assert_eq!(each.len(), vectors.len(), "a vector twice");
    for op in FIRST..=LAST {
        for verdict in [0, 1] {
            let wanted = |vector: &&Vector| vector[0] == op && vector[25] == verdict;
            assert!(vectors.iter().any(|vector| wanted(&vector)), "op {op}");
        }
    }
    for op in [READ_CONSUMER_FLAGS, READ_PROVIDER_FLAGS] {
        let bytes = vectors.iter().filter(|vector| vector[0] == op);
        assert_eq!(bytes.count(), 256);
    }
    for (op, limit) in [
        (READ_REASON, 6),
        (READ_ANSWER, 10),
        (READ_CHARGER_PSU_STATE, 1),
    ] {
        for byte in (0..=limit + 1).chain([255]) {
            let there = vectors
                .iter()
                .any(|vector| vector[0] == op && vector[1] == byte);
            assert!(there, "op {op} byte {byte}");
        }
    }

    // A refused record is one byte away from a good one, at each place.
    let psus = records::psus();
    let chargers = records::chargers();
    let mut places = BTreeSet::new();
    for vector in vectors.iter().filter(|vector| !accepted(vector)) {
        let mut near = |good: &[u8]| {
            let bad = &input(vector)[..good.len()];
            let mut differing = (0..good.len()).filter(|place| good[*place] != bad[*place]);
            if let (Some(place), None) = (differing.next(), differing.next()) {
                places.insert((vector[0], place));
            }
        };
        match vector[0] {
            READ_PSU => psus.iter().for_each(|good| near(good)),
            READ_CHARGER => chargers.iter().for_each(|good| near(good)),
            _ => {}
        }
    }
    // Any byte of a figure is good where there is a capability, and bad where there is none.
    for place in 0..18 {
        assert!(places.contains(&(READ_PSU, place)), "place {place}");
    }
    for place in 0..7 {
        assert!(places.contains(&(READ_CHARGER, place)), "place {place}");
    }

    // Rows: of every number with the right length and one byte off; in a row of the greatest number
    // a bad byte at each place of a record, and good and bad ones in the first and the last record.
    let rows: BTreeSet<&[u8]> = vectors.iter().map(|vector| &vector[..7]).collect();
    for (op, most, size) in [(READ_PSU_ROW, 16, 18), (READ_CHARGER_ROW, 8, 7)] {
        for records in 0..=most + 2 {
            for length in [records * size, records * size + 1] {
                let [l0, l1] = (length as u16).to_le_bytes();
                let row = [op, records as u8, l0, l1, 0, 0, 0];
                assert!(rows.contains(row.as_slice()), "{row:?}");
            }
            if records > 0 {
                let [l0, l1] = (records as u16 * size as u16 - 1).to_le_bytes();
                let row = [op, records as u8, l0, l1, 0, 0, 0];
                assert!(rows.contains(row.as_slice()), "{row:?}");
            }
        }
        let mut bad = BTreeSet::new();
        let mut ends = BTreeSet::new();
        for vector in vectors.iter().filter(|vector| vector[0] == op) {
            let [records, l0, l1, p0, p1, value] = vector[1..7].try_into().unwrap();
            let length = usize::from(u16::from_le_bytes([l0, l1]));
            let place = usize::from(u16::from_le_bytes([p0, p1]));
            let records = usize::from(records);
            if records == most && length == records * size && place < length && value != 0 {
                ends.insert((place / size, accepted(vector)));
                if !accepted(vector) {
                    bad.insert(place % size);
                }
            }
        }
        assert_eq!(bad, BTreeSet::from_iter(0..size), "op {op}");
        for wanted in [(0, false), (0, true), (most - 1, false), (most - 1, true)] {
            assert!(ends.contains(&wanted), "op {op} {wanted:?}");
        }
    }
}

#[test]
fn sample_covers() {
    let sample = records::sample();
    assert!((2500..=3500).contains(&sample.len()), "{}", sample.len());
    covers(&sample);
    let full: BTreeSet<Vector> = records::full().into_iter().collect();
    assert!(sample.iter().all(|vector| full.contains(vector)));
    assert_eq!(sample, records::sample());
}

#[test]
fn full_covers() {
    let full = records::full();
    assert!((10_000..=20_000).contains(&full.len()), "{}", full.len());
    covers(&full);
    let counts = counts(&full);
    for op in [READ_REASON, READ_ANSWER, READ_CHARGER_PSU_STATE] {
        assert_eq!(counts[&op], 256);
    }
    // Every byte of every good record is replaced by twelve values, of which it may be one.
    assert!(counts[&READ_PSU] >= records::psus().len() * 18 * 11);
    assert!(counts[&READ_CHARGER] >= records::chargers().len() * 7 * 10);
}

#[test]
fn good_records() {
    let psus = records::psus();
    assert!((40..=50).contains(&psus.len()));
    let kinds: BTreeSet<_> = psus
        .iter()
        .map(|record| (record[0], record[6], record[12]))
        .collect();
    assert_eq!(kinds.len(), 4 * 2 * 2);
    let chargers = records::chargers();
    assert_eq!(chargers.len(), 15);
    let kinds: BTreeSet<_> = chargers
        .iter()
        .map(|record| (record[0], record[1]))
        .collect();
    assert_eq!(kinds.len(), 4 * 2);
    let full: BTreeSet<Vector> = records::full().into_iter().collect();
    for record in psus {
        assert!(full.contains(&vector(READ_PSU, &record, &[1], &record)));
        let state = record::psu_from_bytes(&record);
        assert_eq!(record::psu_to_bytes(&state), record);
    }
    for record in chargers {
        assert!(full.contains(&vector(READ_CHARGER, &record, &[1], &record)));
        let state = record::charger_from_bytes(&record);
        assert_eq!(record::charger_to_bytes(&state), record);
    }
}

/// The nearest flag byte: of a provider without the lowest bit.
fn nearest_flags(byte: u8, provider: bool) -> u8 {
    let psu_type = (byte >> 1 & 7) % 7;
    psu_type << 1 | (byte & 1 & u8::from(!provider))
}

/// The nearest option: present if the lowest bit of its first byte is set.
fn nearest_option(bytes: &mut [u8], provider: bool) {
    bytes[0] &= 1;
    if bytes[0] == 0 {
        bytes.fill(0);
    }
    bytes[5] = nearest_flags(bytes[5], provider);
}

/// A record that some state of the original is written as, near any bytes.
fn nearest_psu(mut bytes: [u8; 18]) -> [u8; 18] {
    bytes[0] &= 3;
    match bytes[0] {
        2 => bytes[5] = nearest_flags(bytes[5], true),
        3 => bytes[5] = nearest_flags(bytes[5], false),
        _ => bytes[1..6].fill(0),
    }
    nearest_option(&mut bytes[6..12], false);
    nearest_option(&mut bytes[12..18], true);
    record::psu_to_bytes(&record::psu_from_bytes(&bytes))
}

fn nearest_charger(mut bytes: [u8; 7]) -> [u8; 7] {
    bytes[0] &= 3;
    nearest_option(&mut bytes[1..7], false);
    record::charger_to_bytes(&record::charger_from_bytes(&bytes))
}

/// Accepted is what a state of the original is written as, and nothing else: good bytes are nearest
/// to themselves.
#[test]
fn accepted_is_what_is_written() {
    for vector in records::full() {
        let bytes: [u8; 18] = input(&vector).try_into().unwrap();
        let written = match vector[0] {
            READ_PSU => nearest_psu(bytes) == bytes,
            READ_CHARGER => {
                let bytes = *bytes.first_chunk().unwrap();
                nearest_charger(bytes) == bytes
            }
            READ_CONSUMER_FLAGS => nearest_flags(bytes[0], false) == bytes[0],
            READ_PROVIDER_FLAGS => nearest_flags(bytes[0], true) == bytes[0],
            _ => continue,
        };
        assert_eq!(accepted(&vector), written, "{vector:?}");
    }
}

#[test]
fn unused_bytes_are_zero() {
    for vector in records::full() {
        let (in_input, in_result) = match vector[0] {
            READ_PSU => (18, 1),
            READ_CHARGER => (7, 1),
            READ_CONSUMER_FLAGS | READ_PROVIDER_FLAGS => (1, 3),
            READ_PSU_ROW | READ_CHARGER_ROW => (6, 1),
            READ_CHARGER_PSU_STATE => (1, 2),
            _ => (1, 1),
        };
        // What is refused gives nothing.
        let in_result = if accepted(&vector) { in_result } else { 0 };
        let (after, in_after) = match vector[0] {
            READ_PSU | READ_CHARGER if accepted(&vector) => (input(&vector), in_input),
            _ => (&[0; 18][..], 0),
        };
        assert_eq!(&vector[31..49], after, "{vector:?}");
        let unused = vector[1 + in_input..25]
            .iter()
            .chain(&vector[25 + in_result..31])
            .chain(&vector[31 + in_after..49]);
        assert!(unused.into_iter().all(|byte| *byte == 0), "{vector:?}");
    }
}

/// Vectors written by hand that the whole has; those of flags, limits and lengths are in the sample.
#[test]
fn edges_are_there() {
    let full: BTreeSet<Vector> = records::full().into_iter().collect();
    let sample: BTreeSet<Vector> = records::sample().into_iter().collect();
    let psu = |changes: &[(usize, u8)]| {
        let mut bytes = [0; 18];
        for (place, value) in changes {
            bytes[*place] = *value;
        }
        bytes
    };
    let refused = |op: Op, input: &[u8]| vector(op, input, &[], &[]);
    let taken = |op: Op, input: &[u8]| vector(op, input, &[1], input);

    for edge in [
        // Detached, Idle, a provider and a consumer without figures; no fifth state.
        taken(READ_PSU, &psu(&[])),
        taken(READ_PSU, &psu(&[(0, 1)])),
        taken(READ_PSU, &psu(&[(0, 2)])),
        taken(READ_PSU, &psu(&[(0, 3)])),
        refused(READ_PSU, &psu(&[(0, 4)])),
        refused(READ_PSU, &psu(&[(0, 255)])),
        // A contract without a connection.
        refused(READ_PSU, &psu(&[(1, 1)])),
        refused(READ_PSU, &psu(&[(5, 2)])),
        refused(READ_PSU, &psu(&[(0, 1), (4, 1)])),
        // A provider's contract has no lowest bit, a consumer's may have it.
        refused(READ_PSU, &psu(&[(0, 2), (5, 1)])),
        taken(READ_PSU, &psu(&[(0, 3), (5, 1)])),
        refused(READ_PSU, &psu(&[(0, 3), (5, 14)])),
        refused(READ_PSU, &psu(&[(0, 3), (5, 16)])),
        // A capability and a request of a Detached port; figures without presence; presence 2.
        taken(READ_PSU, &psu(&[(6, 1)])),
        taken(READ_PSU, &psu(&[(12, 1)])),
        refused(READ_PSU, &psu(&[(7, 1)])),
        refused(READ_PSU, &psu(&[(17, 2)])),
        refused(READ_PSU, &psu(&[(6, 2)])),
        refused(READ_PSU, &psu(&[(12, 255)])),
        // Unpowered with a capability, also an unconstrained one; a type 7; no fifth state; figures
        // without presence; presence 2.
        taken(READ_CHARGER, &[0, 1, 0x88, 0x13, 0xB8, 0x0B, 2]),
        taken(READ_CHARGER, &[0, 1, 0x88, 0x13, 0xB8, 0x0B, 13]),
        refused(READ_CHARGER, &[0, 1, 0x88, 0x13, 0xB8, 0x0B, 14]),
        refused(READ_CHARGER, &[4, 1, 0x88, 0x13, 0xB8, 0x0B, 2]),
        refused(READ_CHARGER, &[0, 0, 0x88, 0x13, 0xB8, 0x0B, 2]),
        refused(READ_CHARGER, &[3, 2, 0, 0, 0, 0, 0]),
    ] {
        assert!(full.contains(&edge), "{edge:?}");
    }

    for edge in [
        vector(READ_CONSUMER_FLAGS, &[0], &[1, 0, 0], &[]),
        vector(READ_CONSUMER_FLAGS, &[3], &[1, 1, 1], &[]),
        vector(READ_CONSUMER_FLAGS, &[13], &[1, 1, 6], &[]),
        refused(READ_CONSUMER_FLAGS, &[14]),
        refused(READ_CONSUMER_FLAGS, &[15]),
        refused(READ_CONSUMER_FLAGS, &[16]),
        refused(READ_CONSUMER_FLAGS, &[128]),
        vector(READ_PROVIDER_FLAGS, &[4], &[1, 0, 2], &[]),
        vector(READ_PROVIDER_FLAGS, &[12], &[1, 0, 6], &[]),
        refused(READ_PROVIDER_FLAGS, &[1]),
        refused(READ_PROVIDER_FLAGS, &[13]),
        refused(READ_PROVIDER_FLAGS, &[14]),
        vector(READ_REASON, &[6], &[1], &[]),
        refused(READ_REASON, &[7]),
        vector(READ_ANSWER, &[10], &[1], &[]),
        refused(READ_ANSWER, &[11]),
        vector(READ_CHARGER_PSU_STATE, &[0], &[1, 0], &[]),
        vector(READ_CHARGER_PSU_STATE, &[1], &[1, 1], &[]),
        refused(READ_CHARGER_PSU_STATE, &[2]),
        // No ports; 16 of them, 288 bytes; one byte short and long; 17 of them, 306 bytes.
        vector(READ_PSU_ROW, &[0], &[1], &[]),
        refused(READ_PSU_ROW, &[0, 1]),
        vector(READ_PSU_ROW, &[16, 0x20, 1], &[1], &[]),
        refused(READ_PSU_ROW, &[16, 0x1F, 1]),
        refused(READ_PSU_ROW, &[16, 0x21, 1]),
        refused(READ_PSU_ROW, &[17, 0x32, 1]),
        // 288 in one byte alone.
        refused(READ_PSU_ROW, &[16, 0x20, 0]),
        // Beyond the end nothing is changed.
        vector(READ_PSU_ROW, &[16, 0x20, 1, 0x20, 1, 255], &[1], &[]),
        vector(READ_CHARGER_ROW, &[8, 56], &[1], &[]),
        refused(READ_CHARGER_ROW, &[8, 55]),
        refused(READ_CHARGER_ROW, &[9, 63]),
    ] {
        assert!(sample.contains(&edge), "{edge:?}");
    }
    for edge in [
        // In the last of 16 ports: the state Idle, and a contract without a connection.
        vector(READ_PSU_ROW, &[16, 0x20, 1, 0x0E, 1, 1], &[1], &[]),
        refused(READ_PSU_ROW, &[16, 0x20, 1, 0x0F, 1, 1]),
        // In the last of 8 chargers: a present capability, and a figure of an absent one.
        vector(READ_CHARGER_ROW, &[8, 56, 0, 50, 0, 1], &[1], &[]),
        refused(READ_CHARGER_ROW, &[8, 56, 0, 51, 0, 1]),
    ] {
        assert!(full.contains(&edge), "{edge:?}");
    }
}
