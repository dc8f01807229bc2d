//! Reading and writing of packets and pictures.

use link_model::generate;
use link_model::packet::{
    Capability, Consumer, Display, Event, Flags, Notice, Packet, Picture, PsuType, flags_byte,
    flags_of, read, write,
};

/// An event 1 with these bytes as its only notice.
fn with_notice(notice: &[u8]) -> Vec<u8> {
    let mut bytes = vec![1, 1, 0, 0, 1];
    bytes.extend(notice);
    bytes
}

fn refused(bytes: &[u8]) -> u8 {
    read(bytes).expect_err("to be refused")
}

fn accepted(bytes: &[u8]) -> Packet {
    read(bytes).expect("to be read")
}

// What is laid out.

#[test]
fn an_event_with_every_notice_kind_but_the_fifth() {
    let bytes = [
        1, 0xAC, 0x02, 10, 35, 4, // event 300, answer 10, 35 orders, 4 notices
        1, 15, 6, // consumer disconnected
        2, 0, 0xFF, 0xFF, 0x03, 0x80, 0x01, 0x0D, // consumer connected
        3, 7, // provider disconnected
        4, 9, 0, 0x7F, 0x02, // provider connected
    ];
    let packet = Packet::Event(Event {
        number: 300,
        answer: 10,
        orders: 35,
        notices: vec![
            Notice::ConsumerDisconnected {
                port: 15,
                reason: 6,
            },
            Notice::ConsumerConnected {
                port: 0,
                capability: Capability {
                    mv: 65_535,
                    ma: 128,
                    flags: Flags {
                        unconstrained_power: true,
                        psu_type: Some(PsuType::Custom3),
                    },
                },
            },
            Notice::ProviderDisconnected { port: 7 },
            Notice::ProviderConnected {
                port: 9,
                capability: Capability {
                    mv: 0,
                    ma: 127,
                    flags: Flags {
                        unconstrained_power: false,
                        psu_type: Some(PsuType::TypeC),
                    },
                },
            },
        ],
    });
    assert_eq!(accepted(&bytes), packet);
    assert_eq!(write(&packet), bytes);
}

#[test]
fn the_fifth_notice_kind() {
    let bytes = with_notice(&[5, 1, 16]);
    let packet = Packet::Event(Event {
        number: 1,
        answer: 0,
        orders: 0,
        notices: vec![Notice::Unconstrained {
            unconstrained: true,
            available: 16,
        }],
    });
    assert_eq!(accepted(&bytes), packet);
    assert_eq!(write(&packet), bytes);
}

#[test]
fn a_picture_with_everything() {
    let bytes = [
        2, 0xFF, 0xFF, 0xFF, 0xFF, 0x0F, // picture 4294967295
        1, 3, 0xA0, 0x9C, 0x01, 0xB8, 0x17, 0x04, // consumer
        1, 2, 4, 0, 1, 14, 15,
    ];
    let packet = Packet::Picture(Picture {
        number: u32::MAX,
        display: Display {
            consumer: Some(Consumer {
                port: 3,
                capability: Capability {
                    mv: 20_000,
                    ma: 3_000,
                    flags: Flags {
                        unconstrained_power: false,
                        psu_type: Some(PsuType::DcJack),
                    },
                },
            }),
            unconstrained: true,
            available: 2,
            tracked: vec![0, 1, 14, 15],
        },
    });
    assert_eq!(accepted(&bytes), packet);
    assert_eq!(write(&packet), bytes);
}

#[test]
fn picture_0_is_read() {
    let picture = Packet::Picture(Picture {
        number: 0,
        display: Display::empty(),
    });
    assert_eq!(accepted(&[2, 0, 0, 0, 0, 0]), picture);
    assert_eq!(write(&picture), [2, 0, 0, 0, 0, 0]);
}

#[test]
fn no_checks_across_fields() {
    // Unconstrained without a consumer.
    accepted(&[2, 9, 0, 1, 16, 0]);
    // A flagged consumer while both figures are zero.
    accepted(&[2, 9, 1, 0, 0, 0, 1, 0, 0, 0]);
    // Notices that no service gives: the same one twice, a disconnect of nothing,
    // an error with notices and without orders.
    accepted(&[1, 1, 0, 0, 2, 5, 1, 3, 5, 1, 3]);
    accepted(&[1, 1, 4, 0, 2, 3, 8, 1, 8, 0]);
}

#[test]
fn flag_bytes() {
    for byte in 0..=255_u8 {
        let good = byte < 14;
        assert_eq!(flags_of(byte, false).is_ok(), good);
        assert_eq!(flags_of(byte, true).is_ok(), good && byte % 2 == 0);
        if let Ok(flags) = flags_of(byte, false) {
            assert_eq!(flags_byte(&flags), byte);
            assert_eq!(flags.unconstrained_power, byte & 1 == 1);
        }
    }
    let types = [
        None,
        Some(PsuType::TypeC),
        Some(PsuType::DcJack),
        Some(PsuType::Custom0),
        Some(PsuType::Custom1),
        Some(PsuType::Custom2),
        Some(PsuType::Custom3),
    ];
    for (code, psu_type) in types.into_iter().enumerate() {
        assert_eq!(flags_of(2 * code as u8, true).unwrap().psu_type, psu_type);
    }
}

#[test]
fn mw_is_rounded_down() {
    let mw = |mv, ma| {
        let flags = Flags {
            unconstrained_power: false,
            psu_type: None,
        };
        Capability { mv, ma, flags }.mw()
    };
    assert_eq!(mw(5_000, 3_000), 15_000);
    assert_eq!(mw(999, 1), 0);
    assert_eq!(mw(65_535, 65_535), 4_294_836);
}

// 30.

#[test]
fn empty_is_30() {
    assert_eq!(refused(&[]), 30);
}

#[test]
fn every_cut_is_30() {
    let whole = [
        vec![
            1, 0xAC, 0x02, 0, 35, 4, 1, 15, 6, 2, 0, 0xFF, 0xFF, 0x03, 0x80, 0x01, 0x0D, 4, 9, 0,
            0x7F, 0x02, 5, 0, 16,
        ],
        vec![
            2, 0x80, 0x01, 1, 3, 0xA0, 0x9C, 0x01, 0xB8, 0x17, 0x04, 1, 2, 4, 0, 1, 14, 15,
        ],
        vec![2, 0x80, 0x01, 0, 1, 2, 1, 0],
    ];
    for bytes in whole {
        accepted(&bytes);
        for length in 0..bytes.len() {
            assert_eq!(refused(&bytes[..length]), 30);
        }
    }
}

// 31.

#[test]
fn a_number_not_shortest_is_31() {
    assert_eq!(refused(&[1, 0x81, 0x00, 0, 0, 0]), 31);
    assert_eq!(refused(&[2, 0x80, 0x00, 0, 0, 0, 0]), 31);
    assert_eq!(refused(&[1, 1, 0, 0x81, 0x00, 0]), 31);
    assert_eq!(refused(&with_notice(&[2, 0, 0x80, 0x00, 0, 0])), 31);
    assert_eq!(refused(&with_notice(&[4, 0, 0, 0x80, 0x00, 0])), 31);
    assert_eq!(refused(&[2, 0, 1, 0, 0x80, 0x00, 0, 0, 0, 0, 0]), 31);
}

#[test]
fn event_number_0_in_two_bytes_is_31() {
    assert_eq!(refused(&[1, 0x80, 0x00, 0, 0, 0]), 31);
}

#[test]
fn a_number_over_its_limit_is_31() {
    assert_eq!(refused(&[1, 0x80, 0x80, 0x80, 0x80, 0x10, 0, 0, 0]), 31);
    assert_eq!(refused(&[2, 0x80, 0x80, 0x80, 0x80, 0x10, 0, 0, 0, 0]), 31);
    assert_eq!(refused(&with_notice(&[2, 0, 0x80, 0x80, 0x04, 0, 0])), 31);
    assert_eq!(refused(&with_notice(&[4, 0, 0, 0x80, 0x80, 0x04, 0])), 31);
    assert_eq!(refused(&[2, 0, 1, 0, 0x80, 0x80, 0x04, 0, 0, 0, 0, 0]), 31);
}

#[test]
fn orders_over_the_number_limit_are_31() {
    assert_eq!(refused(&[1, 1, 0, 0x80, 0x80, 0x80, 0x80, 0x10, 0]), 31);
    assert_eq!(refused(&[1, 1, 0, 0xFF, 0xFF, 0xFF, 0xFF, 0xFF, 0]), 31);
}

#[test]
fn mv_three_continued_bytes_and_end_are_30() {
    assert_eq!(refused(&with_notice(&[2, 0, 0xFF, 0xFF, 0xFF])), 30);
    assert_eq!(refused(&[2, 0, 1, 0, 0xFF, 0xFF, 0xFF]), 30);
}

#[test]
fn mv_three_continued_bytes_and_a_last_one_are_31() {
    assert_eq!(refused(&with_notice(&[2, 0, 0xFF, 0xFF, 0xFF, 0x01])), 31);
    assert_eq!(refused(&with_notice(&[4, 0, 0xFF, 0xFF, 0xFF, 0x7F])), 31);
    assert_eq!(refused(&[2, 0, 1, 0, 0xFF, 0xFF, 0xFF, 0x01]), 31);
}

/// What comes before each # number of a packet.
fn before_each_number() -> Vec<Vec<u8>> {
    vec![
        vec![1],
        vec![2],
        vec![1, 1, 0],
        with_notice(&[2, 0]),
        with_notice(&[2, 0, 0]),
        with_notice(&[4, 0]),
        with_notice(&[4, 0, 0]),
        vec![2, 0, 1, 0],
        vec![2, 0, 1, 0, 0],
    ]
}

#[test]
fn four_continued_bytes_and_end_are_30() {
    for before in before_each_number() {
        for byte in [0x80, 0xFF] {
            let mut bytes = before.clone();
            bytes.extend([byte; 4]);
            assert_eq!(refused(&bytes), 30);
        }
    }
}

#[test]
fn five_continued_bytes_are_31() {
    for before in before_each_number() {
        for byte in [0x80, 0xFF] {
            let mut bytes = before.clone();
            bytes.extend([byte; 5]);
            assert_eq!(refused(&bytes), 31);
            bytes.push(1);
            assert_eq!(refused(&bytes), 31);
        }
    }
}

// 32.

#[test]
fn kind_other_than_1_and_2_is_32() {
    for kind in (0..=255_u8).filter(|kind| *kind != 1 && *kind != 2) {
        assert_eq!(refused(&[kind]), 32);
        assert_eq!(refused(&[kind, 0, 0, 0, 0, 0]), 32);
    }
}

#[test]
fn event_number_0_is_32() {
    assert_eq!(refused(&[1, 0, 0, 0, 0]), 32);
}

#[test]
fn event_number_0_then_cut_is_32() {
    assert_eq!(refused(&[1, 0]), 32);
}

#[test]
fn answer_11_is_32() {
    accepted(&[1, 1, 10, 0, 0]);
    for answer in 11..=255 {
        assert_eq!(refused(&[1, 1, answer]), 32);
    }
}

#[test]
fn orders_over_35_are_32() {
    accepted(&[1, 1, 0, 35, 0]);
    assert_eq!(refused(&[1, 1, 0, 36]), 32);
    assert_eq!(refused(&[1, 1, 0, 0x80, 0x01, 0]), 32);
    assert_eq!(refused(&[1, 1, 0, 0xA3, 0x02, 0]), 32);
    assert_eq!(refused(&[1, 1, 0, 0xFF, 0xFF, 0xFF, 0xFF, 0x0F, 0]), 32);
    // 256 and 2^16 and 2^31, which a narrower field would take for 0.
    assert_eq!(refused(&[1, 1, 0, 0x80, 0x02, 0]), 32);
    assert_eq!(refused(&[1, 1, 0, 0x80, 0x80, 0x04, 0]), 32);
    assert_eq!(refused(&[1, 1, 0, 0x80, 0x80, 0x80, 0x80, 0x08, 0]), 32);
}

#[test]
fn notice_count_5_is_32() {
    accepted(&[1, 1, 0, 0, 4, 3, 0, 3, 0, 3, 0, 3, 0]);
    for count in 5..=255 {
        assert_eq!(refused(&[1, 1, 0, 0, count]), 32);
    }
}

#[test]
fn notice_kind_0_and_6_are_32() {
    assert_eq!(refused(&with_notice(&[0])), 32);
    for kind in 6..=255 {
        assert_eq!(refused(&with_notice(&[kind])), 32);
    }
}

#[test]
fn port_16_is_32() {
    accepted(&with_notice(&[1, 15, 0]));
    accepted(&with_notice(&[2, 15, 0, 0, 0]));
    accepted(&with_notice(&[3, 15]));
    accepted(&with_notice(&[4, 15, 0, 0, 0]));
    accepted(&[2, 0, 1, 15, 0, 0, 0, 0, 0, 1, 15]);
    for port in 16..=255 {
        for kind in 1..=4 {
            assert_eq!(refused(&with_notice(&[kind, port])), 32);
        }
        assert_eq!(refused(&[2, 0, 1, port]), 32);
        assert_eq!(refused(&[2, 0, 0, 0, 0, 1, port]), 32);
        assert_eq!(refused(&[2, 0, 0, 0, 0, 2, 3, port]), 32);
    }
}

#[test]
fn reason_7_is_32() {
    accepted(&with_notice(&[1, 0, 6]));
    for reason in 7..=255 {
        assert_eq!(refused(&with_notice(&[1, 0, reason])), 32);
    }
}

#[test]
fn available_17_is_32() {
    accepted(&with_notice(&[5, 0, 16]));
    accepted(&[2, 0, 0, 0, 16, 0]);
    for available in 17..=255 {
        assert_eq!(refused(&with_notice(&[5, 0, available])), 32);
        assert_eq!(refused(&[2, 0, 0, 0, available]), 32);
    }
}

#[test]
fn unconstrained_2_is_32() {
    for value in 2..=255 {
        assert_eq!(refused(&with_notice(&[5, value])), 32);
        assert_eq!(refused(&[2, 0, 0, value]), 32);
    }
}

#[test]
fn presence_2_is_32() {
    for presence in 2..=255 {
        assert_eq!(refused(&[2, 0, presence]), 32);
    }
}

#[test]
fn tracked_count_5_is_32() {
    accepted(&[2, 0, 0, 0, 0, 4, 0, 1, 2, 3]);
    for count in 5..=255 {
        assert_eq!(refused(&[2, 0, 0, 0, 0, count]), 32);
    }
}

#[test]
fn flags_with_type_7_are_32() {
    for byte in [14, 15] {
        assert_eq!(refused(&with_notice(&[2, 0, 0, 0, byte])), 32);
        assert_eq!(refused(&with_notice(&[4, 0, 0, 0, byte])), 32);
        assert_eq!(refused(&[2, 0, 1, 0, 0, 0, byte]), 32);
    }
}

#[test]
fn flags_with_bits_4_to_7_are_32() {
    for bit in [16, 32, 64, 128] {
        assert_eq!(refused(&with_notice(&[2, 0, 0, 0, bit])), 32);
        assert_eq!(refused(&with_notice(&[4, 0, 0, 0, bit + 2])), 32);
        assert_eq!(refused(&[2, 0, 1, 0, 0, 0, bit + 13]), 32);
    }
}

#[test]
fn flags_of_a_provider_with_bit_0_are_32() {
    for psu_type in 0..=6 {
        let byte = 2 * psu_type + 1;
        accepted(&with_notice(&[4, 0, 0, 0, byte - 1]));
        assert_eq!(refused(&with_notice(&[4, 0, 0, 0, byte])), 32);
        accepted(&with_notice(&[2, 0, 0, 0, byte]));
        accepted(&[2, 0, 1, 0, 0, 0, byte, 0, 0, 0]);
    }
}

#[test]
fn tracked_ports_not_strictly_rising_are_32_at_the_port() {
    // Cut after the port in question, so that 32 was met before 30.
    assert_eq!(refused(&[2, 0, 0, 0, 0, 4, 3, 3]), 32);
    assert_eq!(refused(&[2, 0, 0, 0, 0, 4, 3, 2]), 32);
    assert_eq!(refused(&[2, 0, 0, 0, 0, 4, 0, 0]), 32);
    assert_eq!(refused(&[2, 0, 0, 0, 0, 4, 1, 5, 2]), 32);
    assert_eq!(refused(&[2, 0, 0, 0, 0, 4, 0, 1, 2, 2]), 32);
    // Not yet at the port.
    assert_eq!(refused(&[2, 0, 0, 0, 0, 4, 3]), 30);
    assert_eq!(refused(&[2, 0, 0, 0, 0, 4, 3, 4]), 30);
    accepted(&[2, 0, 0, 0, 0, 2, 3, 4]);
}

// 33.

#[test]
fn left_over_is_33() {
    for extra in 0..=255 {
        assert_eq!(refused(&[1, 1, 0, 0, 0, extra]), 33);
        assert_eq!(refused(&[2, 0, 0, 0, 0, 0, extra]), 33);
        assert_eq!(refused(&[1, 1, 0, 0, 1, 3, 0, extra]), 33);
        assert_eq!(refused(&[2, 0, 0, 0, 0, 1, 0, extra]), 33);
    }
}

// What is met first.

#[test]
fn the_first_from_the_left_wins() {
    // 32 in the answer before 31 in the orders, and the other way round.
    assert_eq!(refused(&[1, 1, 11, 0x80, 0x00]), 32);
    assert_eq!(refused(&[1, 0x80, 0x00, 11]), 31);
    assert_eq!(refused(&[1, 1, 0, 0x80, 0x00, 5]), 31);
    assert_eq!(refused(&[1, 1, 0, 36, 5, 9]), 32);
    // A bad port before a bad number, and the other way round.
    assert_eq!(refused(&with_notice(&[2, 16, 0x80, 0x00, 0, 0])), 32);
    assert_eq!(refused(&with_notice(&[2, 15, 0x80, 0x00, 0, 255])), 31);
    // A bad field before bytes left over.
    assert_eq!(refused(&with_notice(&[1, 0, 7, 0, 0])), 32);
    // A second notice that is cut before what would be left over.
    assert_eq!(refused(&[1, 1, 0, 0, 2, 3, 0]), 30);
    assert_eq!(refused(&[1, 1, 0, 0, 2, 3, 0, 3]), 30);
}

// Over many byte strings.

/// Valid packets, their damages and short strings.
fn many() -> Vec<Vec<u8>> {
    let mut out = vec![Vec::new()];
    for packet in generate::packets(11, 300) {
        out.extend(generate::damages(&write(&packet)));
    }
    for a in 0..=4 {
        for b in 0..=255 {
            for c in 0..=255 {
                out.push(vec![a, b, c]);
            }
        }
    }
    out
}

#[test]
fn written_packets_are_read_back() {
    for packet in generate::packets(5, 20_000) {
        let bytes = write(&packet);
        assert!(bytes.len() <= 64);
        assert_eq!(read(&bytes), Ok(packet));
    }
}

#[test]
fn what_is_read_is_what_would_be_written() {
    let mut count = 0;
    for bytes in many() {
        if let Ok(packet) = read(&bytes) {
            assert_eq!(write(&packet), bytes);
            count += 1;
        }
    }
    assert!(count > 1000);
}

#[test]
fn a_refusal_depends_only_on_what_is_left_of_it() {
    for bytes in many() {
        let outcome = read(&bytes);
        for extra in [0, 1, 128] {
            let mut longer = bytes.clone();
            longer.push(extra);
            match outcome {
                Ok(_) => assert_eq!(refused(&longer), 33),
                Err(30) => {}
                Err(refusal) => assert_eq!(refused(&longer), refusal),
            }
        }
        if outcome.is_ok() || outcome == Err(30) {
            for length in 0..bytes.len() {
                assert_eq!(refused(&bytes[..length]), 30);
            }
        }
    }
}
