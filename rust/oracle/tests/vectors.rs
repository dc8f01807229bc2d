//! The vectors of the interface: what they cover, and a second reading of the requirements in
//! terms of bytes alone.

use std::collections::{BTreeMap, BTreeSet};

use oracle::interface::{self, *};

struct Parts<'a> {
    op: Op,
    record: &'a [u8],
    argument: &'a [u8],
    result: &'a [u8],
    after: &'a [u8],
}

fn parts(vector: &Vector) -> Parts<'_> {
    Parts {
        op: vector[0],
        record: &vector[1..19],
        argument: &vector[19..25],
        result: &vector[25..31],
        after: &vector[31..49],
    }
}

/// Result and record afterwards, by LEA-1 to LEA-4.
fn expected(vector: &Vector) -> ([u8; 6], [u8; 18]) {
    const DETACHED: u8 = 1;
    const IDLE: u8 = 2;
    const PROVIDER: u8 = 4;
    const CONSUMER: u8 = 8;

    let Parts {
        op,
        record,
        argument,
        ..
    } = parts(vector);
    let mut result = [0; 6];
    let mut after: [u8; 18] = record.try_into().unwrap();
    let state = record[0];
    let connected = IDLE | PROVIDER | CONSUMER;
    // InvalidState unless the state is one of these.
    let mut want = |mask: u8| {
        let ok = mask >> state & 1 == 1;
        if !ok {
            result[..3].copy_from_slice(&[4, mask, state]);
        }
        ok
    };
    let milliwatts = |bytes: &[u8]| {
        let figure = |at: usize| u64::from(bytes[at]) + 256 * u64::from(bytes[at + 1]);
        figure(0) * figure(2) / 1000
    };
    match op {
        1 => {
            want(DETACHED);
            after[..6].copy_from_slice(&[1, 0, 0, 0, 0, 0]);
        }
        2 => after = [0; 18],
        3 => {
            want(connected);
            after[..6].copy_from_slice(&[1, 0, 0, 0, 0, 0]);
            if argument[0] == 1 {
                after[6..].fill(0);
            }
        }
        4 => {
            want(connected);
            after[6..12].copy_from_slice(argument);
        }
        5 => {
            if record[12..18] != *argument {
                want(connected);
                after[12..18].copy_from_slice(argument);
            }
        }
        6 => {
            want(IDLE | CONSUMER);
        }
        7 => {
            if want(IDLE | CONSUMER) {
                after[0] = 3;
                after[1..6].copy_from_slice(&argument[..5]);
            }
        }
        8 => {
            want(IDLE | PROVIDER);
        }
        9 => {
            if want(IDLE | PROVIDER) {
                after[0] = 2;
                after[1..6].copy_from_slice(&argument[..5]);
            }
        }
        10 => {
            if state == 2 {
                result[0] = 1;
                result[1..].copy_from_slice(&record[1..6]);
            }
        }
        11 => {
            if state == 1 {
                after[0] = 2 + argument[0];
            } else {
                result[..2].copy_from_slice(&[1, state]);
            }
        }
        12 => {
            if state >= 2 {
                after[0] = 2 + argument[0];
            } else {
                result[..2].copy_from_slice(&[1, state]);
            }
        }
        13 => after = [0; 18],
        14 => {
            if state == 0 {
                after = [0; 18];
                after[0] = 1;
            }
        }
        15 => after[0] = 0,
        16 => {
            after[1] = 1;
            after[2..7].copy_from_slice(&argument[..5]);
        }
        17 => after[1..7].fill(0),
        18 => result[0] = u8::from(state == 0),
        19 => {
            result[..4].copy_from_slice(&(milliwatts(record) as u32).to_le_bytes());
            after = [0; 18];
        }
        20 => {
            let (first, second) = (milliwatts(record), milliwatts(argument));
            result[0] = u8::from(first >= second) + u8::from(first > second);
            after = [0; 18];
        }
        21 => {
            result[0] = u8::from(record[0] == 3 || record[0] == 4);
            after = [0; 18];
        }
        22 | 23 => after = [0; 18],
        other => panic!("op {other}"),
    }
    (result, after)
}

#[test]
fn second_reading() {
    for vector in interface::full() {
        let (result, after) = expected(&vector);
        let parts = parts(&vector);
        assert_eq!(parts.result, result, "{vector:?}");
        assert_eq!(parts.after, after, "{vector:?}");
    }
}

/// What is used of the record, argument and result of each call; the rest is zero.
#[test]
fn unused_bytes_are_zero() {
    for vector in interface::full() {
        let Parts {
            op,
            record,
            argument,
            result,
            after,
        } = parts(&vector);
        let (in_record, in_argument, in_result, in_after) = match op {
            1 | 2 | 6 | 8 => (18, 0, 3, 18),
            3 => (18, 1, 3, 18),
            4 | 5 => (18, 6, 3, 18),
            7 | 9 => (18, 5, 3, 18),
            10 => (18, 0, 6, 18),
            11 | 12 => (7, 1, 2, 7),
            13..=15 | 17 => (7, 0, 0, 7),
            16 => (7, 5, 0, 7),
            18 => (7, 0, 1, 7),
            19 => (4, 0, 4, 0),
            20 => (4, 4, 1, 0),
            21 => (1, 0, 1, 0),
            22 => (0, 0, 0, 18),
            23 => (0, 0, 0, 7),
            other => panic!("op {other}"),
        };
        let unused = record[in_record..]
            .iter()
            .chain(&argument[in_argument..])
            .chain(&result[in_result..])
            .chain(&after[in_after..]);
        assert!(unused.into_iter().all(|byte| *byte == 0), "{vector:?}");
    }
}

/// Every call on every state kind, with each combination of presence and of equal and different
/// arguments, in the sample and so in the whole.
fn covers(vectors: &[Vector]) {
    let mut ops = BTreeMap::new();
    let mut kinds = BTreeSet::new();
    let mut presence = BTreeSet::new();
    let mut requests = BTreeSet::new();
    let mut updates = BTreeSet::new();
    let mut results = BTreeSet::new();
    for vector in vectors {
        let Parts {
            op,
            record,
            argument,
            result,
            ..
        } = parts(vector);
        *ops.entry(op).or_insert(0) += 1;
        results.insert((op, result[0]));
        match op {
            1..=10 => {
                kinds.insert((op, record[0]));
                presence.insert((op, record[0], record[6], record[12]));
                let slot = |at: usize| (record[at], argument[0], record[at..at + 6] == *argument);
                if op == 4 {
                    updates.insert((record[0], slot(6)));
                }
                if op == 5 {
                    requests.insert((record[0], slot(12)));
                }
            }
            11..=18 => {
                kinds.insert((op, record[0]));
                let second = if op <= 12 { argument[0] } else { 0 };
                presence.insert((op, record[0], record[1], second));
            }
            _ => {}
        }
    }
    assert_eq!(
        ops.keys().copied().collect::<Vec<_>>(),
        Vec::from_iter(1..=LAST)
    );
    for op in 1..=18 {
        for state in 0..4 {
            assert!(kinds.contains(&(op, state)), "op {op} state {state}");
            for present in 0..=1 {
                // The second choice: a request, or the PSU state that a charger is told of.
                for second in if op <= 12 { 0..=1 } else { 0..=0 } {
                    let wanted = (op, state, present, second);
                    assert!(presence.contains(&wanted), "{wanted:?}");
                }
            }
        }
    }
    // Slot absent or present, argument absent or present, both equal or not.
    let combinations = [
        (0, 0, true),
        (0, 1, false),
        (1, 0, false),
        (1, 1, false),
        (1, 1, true),
    ];
    for state in 0..4 {
        for combination in combinations {
            assert!(updates.contains(&(state, combination)));
            assert!(requests.contains(&(state, combination)));
        }
    }
    for (op, wanted) in [
        (1, vec![0, 4]),
        (2, vec![0]),
        (3, vec![0, 4]),
        (4, vec![0, 4]),
        (5, vec![0, 4]),
        (6, vec![0, 4]),
        (7, vec![0, 4]),
        (8, vec![0, 4]),
        (9, vec![0, 4]),
        (10, vec![0, 1]),
        (11, vec![0, 1]),
        (12, vec![0, 1]),
        (18, vec![0, 1]),
        (20, vec![0, 1, 2]),
        (21, vec![0, 1]),
    ] {
        for byte in wanted {
            assert!(results.contains(&(op, byte)), "op {op} result {byte}");
        }
    }
}

#[test]
fn sample_covers() {
    let sample = interface::sample();
    assert!((2000..=4000).contains(&sample.len()), "{}", sample.len());
    covers(&sample);
}

#[test]
fn full_covers() {
    let full = interface::full();
    assert!((50_000..=500_000).contains(&full.len()), "{}", full.len());
    covers(&full);
    let each: BTreeSet<&Vector> = full.iter().collect();
    assert_eq!(each.len(), full.len(), "a vector twice");
    // Every PSU type and none, with both flags, as a contract, a capability and a request.
    let flags = |at: usize, state: Option<u8>| -> BTreeSet<u8> {
        full.iter()
            .map(parts)
            .filter(|parts| parts.op <= 10 && state.is_none_or(|state| parts.record[0] == state))
            .map(|parts| parts.record[at])
            .collect()
    };
    assert_eq!(flags(5, Some(3)), BTreeSet::from_iter(0..14));
    assert_eq!(flags(5, Some(2)), BTreeSet::from_iter((0..14).step_by(2)));
    assert_eq!(flags(11, None), BTreeSet::from_iter(0..14));
    assert_eq!(flags(17, None), BTreeSet::from_iter((0..14).step_by(2)));
}

#[test]
fn sample_is_always_the_same() {
    assert_eq!(interface::sample(), interface::sample());
}

fn vector(op: Op, record: &[u8], argument: &[u8], result: &[u8], after: &[u8]) -> Vector {
    let mut vector = [0; VECTOR];
    vector[0] = op;
    vector[1..1 + record.len()].copy_from_slice(record);
    vector[19..19 + argument.len()].copy_from_slice(argument);
    vector[25..25 + result.len()].copy_from_slice(result);
    vector[31..31 + after.len()].copy_from_slice(after);
    vector
}

/// Vectors written by hand that the sample has.
#[test]
fn edges_are_there() {
    let idle = [1];
    // Detached, no capability, a request of 5,000 mV, 3,000 mA, TypeC.
    let request = [1, 0x88, 0x13, 0xB8, 0x0B, 2];
    let mut detached = [0; 18];
    detached[12..].copy_from_slice(&request);
    let edges = [
        // P1: 5,000 mV, 3,000 mA is 15,000 mW; 999 mV, 1 mA is 0; 65,535 twice is 4,294,836.
        vector(19, &[0x88, 0x13, 0xB8, 0x0B], &[], &[0x98, 0x3A], &[]),
        vector(19, &[0xE7, 0x03, 1, 0], &[], &[0], &[]),
        vector(19, &[0xFF; 4], &[], &[0xB4, 0x88, 0x41, 0x00], &[]),
        // P8: attach in Idle is InvalidState (4), expected Detached (1), actual Idle (1).
        vector(1, &idle, &[], &[4, 1, 1], &idle),
        // P9: an equal request on a Detached record is no error.
        vector(5, &detached, &request, &[0], &detached),
        vector(22, &[], &[], &[], &[]),
        vector(23, &[], &[], &[], &[]),
    ];
    let sample: BTreeSet<Vector> = interface::sample().into_iter().collect();
    for edge in edges {
        assert!(sample.contains(&edge), "{edge:?}");
    }
}
