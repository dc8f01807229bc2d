//! The programs `follow` and `sheet`, and the records.

use std::collections::BTreeMap;

use link_model::follower::Follower;
use link_model::packet::{Capability, Consumer, Display, Event, Notice, flags_of};
use link_model::page::page;
use link_model::program::{follow, sheet};
use link_model::record::{DISPLAY, RECORD, SLOT, record};

const HEADER: &str = "take shown state port mw\n";
const EMPTY_PICTURE: [u8; 7] = [6, 2, 0, 0, 0, 0, 0];

fn lines(input: &[u8]) -> String {
    let out = String::from_utf8(follow(input)).unwrap();
    let rest = out.strip_prefix(HEADER).expect("the header");
    rest.to_string()
}

/// What comes after an empty picture and these bytes.
fn after_picture(bytes: &[u8]) -> String {
    let mut input = EMPTY_PICTURE.to_vec();
    input.extend(bytes);
    let out = lines(&input);
    let rest = out.strip_prefix("1 0 level - -\n").expect("the picture");
    rest.to_string()
}

#[test]
fn p12() {
    let hex = "06 02 00 00 00 00 00 \
               05 01 02 00 00 00 \
               0D 01 01 00 02 01 02 01 A0 9C 01 B8 17 02 \
               0D 01 01 00 02 01 02 01 A0 9C 01 B8 17 02 \
               05 01 03 07 01 00";
    let input: Vec<u8> = hex
        .split_whitespace()
        .map(|byte| u8::from_str_radix(byte, 16).unwrap())
        .collect();
    let expected = "take shown state port mw\n\
                    1 0 level - -\n\
                    2 0 waiting - -\n\
                    3 2 level 1 60000\n\
                    4 2 level 1 60000\n\
                    5 - lost - -\n";
    assert_eq!(String::from_utf8(follow(&input)).unwrap(), expected);
}

#[test]
fn no_input_gives_the_header_alone() {
    assert_eq!(follow(&[]), HEADER.as_bytes());
}

#[test]
fn an_end_between_packets_just_stops() {
    assert_eq!(after_picture(&[]), "");
}

#[test]
fn a_refused_packet_counts_and_the_next_follows() {
    // One packet for each refusal, then the same picture again.
    let mut input = vec![1, 1, 3, 1, 0x80, 0x00, 2, 1, 0, 7, 2, 0, 0, 0, 0, 0, 9];
    input.extend(EMPTY_PICTURE);
    assert_eq!(
        after_picture(&input),
        "2 refused 30\n3 refused 31\n4 refused 32\n5 refused 33\n6 0 level - -\n"
    );
}

#[test]
fn a_packet_cut_by_the_end_is_30_and_stops() {
    assert_eq!(lines(&[6, 2, 0, 0, 0, 0]), "1 refused 30\n");
    assert_eq!(after_picture(&[5]), "2 refused 30\n");
    assert_eq!(after_picture(&[64, 1]), "2 refused 30\n");
}

#[test]
fn a_length_cut_by_the_end_is_30_and_stops() {
    assert_eq!(lines(&[0x80]), "1 refused 30\n");
    assert_eq!(after_picture(&[0xFF, 0xFF, 0xFF, 0xFF]), "2 refused 30\n");
}

#[test]
fn an_ill_formed_length_is_31_and_stops() {
    let picture_after = |length: &[u8]| {
        let mut input = length.to_vec();
        input.extend(EMPTY_PICTURE);
        after_picture(&input)
    };
    assert_eq!(picture_after(&[0x80, 0x00]), "2 refused 31\n");
    assert_eq!(picture_after(&[0x86, 0x00]), "2 refused 31\n");
    assert_eq!(picture_after(&[0xFF; 5]), "2 refused 31\n");
    assert_eq!(
        picture_after(&[0x80, 0x80, 0x80, 0x80, 0x10]),
        "2 refused 31\n"
    );
}

#[test]
fn a_length_of_0_is_32_and_stops() {
    let mut input = vec![0];
    input.extend(EMPTY_PICTURE);
    assert_eq!(after_picture(&input), "2 refused 32\n");
    assert_eq!(lines(&[0]), "1 refused 32\n");
}

#[test]
fn a_length_over_64_is_32_and_stops() {
    let mut input = vec![65];
    input.extend([1; 100]);
    assert_eq!(after_picture(&input), "2 refused 32\n");
    // Looked at before the packet's bytes are.
    assert_eq!(after_picture(&[65]), "2 refused 32\n");
    assert_eq!(after_picture(&[0x80, 0x01]), "2 refused 32\n");
    assert_eq!(
        after_picture(&[0xFF, 0xFF, 0xFF, 0xFF, 0x0F]),
        "2 refused 32\n"
    );
}

#[test]
fn a_length_of_64_is_read() {
    let mut input = vec![64, 2, 0, 0, 0, 0, 0];
    input.extend([0; 58]);
    input.extend(EMPTY_PICTURE);
    assert_eq!(after_picture(&input), "2 refused 33\n3 0 level - -\n");
}

#[test]
fn a_dropped_packet_prints_what_is_shown() {
    assert_eq!(after_picture(&EMPTY_PICTURE), "2 0 level - -\n");
    assert_eq!(lines(&[5, 1, 3, 0, 0, 0]), "1 - lost - -\n");
    // A picture below the floor.
    let input = [5, 1, 3, 0, 0, 0, 6, 2, 2, 0, 0, 0, 0];
    assert_eq!(lines(&input), "1 - lost - -\n2 - lost - -\n");
}

#[test]
fn figures_are_printed_whole() {
    // 0 mW prints 0.
    let input = [10, 2, 7, 1, 0, 0, 0, 0, 0, 0, 0];
    assert_eq!(lines(&input), "1 7 level 0 0\n");
    // The greatest of each.
    let input = [
        18, 2, 0xFF, 0xFF, 0xFF, 0xFF, 0x0F, 1, 15, 0xFF, 0xFF, 0x03, 0xFF, 0xFF, 0x03, 0, 0, 0, 0,
    ];
    assert_eq!(lines(&input), "1 4294967295 level 15 4294836\n");
}

#[test]
fn waiting_and_level_again() {
    let input = [
        5, 1, 3, 0, 0, 0, 5, 1, 2, 0, 0, 0, 5, 1, 1, 0, 0, 0, 5, 1, 12, 0, 0, 0,
    ];
    assert_eq!(
        after_picture(&input),
        "2 0 waiting - -\n3 0 waiting - -\n4 3 level - -\n5 - lost - -\n"
    );
}

#[test]
fn ten_packets_have_ordinals_of_two_digits() {
    let mut input = Vec::new();
    for _ in 0..10 {
        input.extend(EMPTY_PICTURE);
    }
    assert!(lines(&input).ends_with("9 0 level - -\n10 0 level - -\n"));
}

// `sheet`.

/// The lines that `sheet` writes on standard error, and whether its page is that of picture 0.
fn refused(input: &[u8]) -> (String, bool) {
    let sheet = sheet(input);
    let mut follower = Follower::new();
    follower.take(&EMPTY_PICTURE[1..]).unwrap();
    assert!(sheet.page == page(&follower) || sheet.page == page(&Follower::new()));
    let lines = String::from_utf8(sheet.refused).unwrap();
    (lines, sheet.page == page(&follower))
}

#[test]
fn a_sheet_of_no_input_is_lost() {
    assert_eq!(refused(&[]), (String::new(), false));
}

#[test]
fn a_sheet_tells_of_refused_packets_alone() {
    let mut input = vec![1, 3];
    input.extend(EMPTY_PICTURE);
    input.extend([1, 1, 3, 1, 0x80, 0, 2, 1, 0, 7, 2, 0, 0, 0, 0, 0, 9]);
    let lines = "1 refused 32\n3 refused 30\n4 refused 31\n5 refused 32\n6 refused 33\n";
    assert_eq!(refused(&input), (lines.to_string(), true));
}

#[test]
fn what_ends_follow_ends_a_sheet() {
    for (end, refusal) in [
        (&[6, 2, 9][..], 30),
        (&[0x80], 30),
        (&[0x80, 0x00], 31),
        (&[0], 32),
        (&[65], 32),
    ] {
        let mut input = EMPTY_PICTURE.to_vec();
        input.extend(end);
        assert_eq!(refused(&input), (format!("2 refused {refusal}\n"), true));
        assert_eq!(refused(end), (format!("1 refused {refusal}\n"), false));
        if refusal > 30 {
            // What comes after it is not read.
            input.extend([6, 2, 9, 0, 0, 0, 0]);
            assert_eq!(refused(&input), (format!("2 refused {refusal}\n"), true));
        }
    }
}

// Records.

#[test]
fn sizes() {
    assert_eq!(DISPLAY, 16);
    assert_eq!(SLOT, 36);
    assert_eq!(RECORD, 274);
}

#[test]
fn the_record_of_a_lost_follower() {
    let follower = Follower::Lost { floor: 0x0403_0201 };
    let mut expected = vec![0, 0, 1, 2, 3, 4];
    expected.resize(274, 0);
    assert_eq!(record(Ok(()), &follower), expected);
    expected[0] = 33;
    assert_eq!(record(Err(33), &follower), expected);
}

#[test]
fn the_record_of_an_empty_picture() {
    let follower = Follower::Showing {
        n: u32::MAX,
        display: Display::empty(),
        held: BTreeMap::new(),
    };
    let mut expected = vec![0, 1, 255, 255, 255, 255];
    expected.resize(274, 0);
    assert_eq!(record(Ok(()), &follower), expected);
}

#[test]
fn the_record_of_a_full_follower() {
    let capability = |provider| Capability {
        mv: 0x0201,
        ma: 0x0403,
        flags: flags_of(if provider { 12 } else { 13 }, provider).unwrap(),
    };
    let first = Event {
        number: 12,
        answer: 10,
        orders: 35,
        notices: vec![
            Notice::ConsumerDisconnected {
                port: 15,
                reason: 6,
            },
            Notice::ConsumerConnected {
                port: 14,
                capability: capability(false),
            },
            Notice::ProviderDisconnected { port: 13 },
            Notice::ProviderConnected {
                port: 12,
                capability: capability(true),
            },
        ],
    };
    let last = Event {
        number: 18,
        answer: 0,
        orders: 1,
        notices: vec![Notice::Unconstrained {
            unconstrained: true,
            available: 16,
        }],
    };
    let follower = Follower::Showing {
        n: 10,
        display: Display {
            consumer: Some(Consumer {
                port: 11,
                capability: capability(false),
            }),
            unconstrained: true,
            available: 9,
            tracked: vec![4, 6, 8],
        },
        held: BTreeMap::from([(12, first), (18, last)]),
    };
    let mut expected = vec![0, 1, 10, 0, 0, 0];
    expected.extend([1, 11, 1, 2, 3, 4, 13, 1, 9, 3, 4, 6, 8, 0, 0, 0]);
    expected.extend([1, 10, 35, 4]);
    expected.extend([1, 15, 6, 0, 0, 0, 0, 0]);
    expected.extend([2, 14, 1, 2, 3, 4, 13, 0]);
    expected.extend([3, 13, 0, 0, 0, 0, 0, 0]);
    expected.extend([4, 12, 1, 2, 3, 4, 12, 0]);
    expected.extend([0; 5 * 36]);
    expected.extend([1, 0, 1, 1]);
    expected.extend([5, 1, 16, 0, 0, 0, 0, 0]);
    expected.extend([0; 24]);
    assert_eq!(record(Ok(()), &follower), expected);
}
