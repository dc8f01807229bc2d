//! The follower's rules, one by one.

use std::collections::BTreeMap;

use link_model::follower::Follower;
use link_model::packet::{
    Capability, Consumer, Display, Event, Flags, Notice, Packet, Picture, PsuType, write,
};

const MAX: u32 = u32::MAX;

fn capability(mv: u16) -> Capability {
    Capability {
        mv,
        ma: 1_000,
        flags: Flags {
            unconstrained_power: false,
            psu_type: Some(PsuType::TypeC),
        },
    }
}

fn consumer(port: u8) -> Option<Consumer> {
    Some(Consumer {
        port,
        capability: capability(5_000),
    })
}

/// A display that can be told from others by its port.
fn display(port: u8) -> Display {
    Display {
        consumer: consumer(port),
        unconstrained: true,
        available: port,
        tracked: vec![port],
    }
}

fn event(number: u32, answer: u8, notices: Vec<Notice>) -> Event {
    Event {
        number,
        answer,
        orders: 0,
        notices,
    }
}

fn connected(port: u8) -> Notice {
    Notice::ConsumerConnected {
        port,
        capability: capability(5_000),
    }
}

fn provider(port: u8) -> Notice {
    Notice::ProviderConnected {
        port,
        capability: capability(5_000),
    }
}

fn give(follower: &mut Follower, event: &Event) {
    let bytes = write(&Packet::Event(event.clone()));
    assert_eq!(follower.take(&bytes), Ok(()));
}

/// An event that makes this port the consumer.
fn give_done(follower: &mut Follower, number: u32, port: u8) {
    give(follower, &event(number, 0, vec![connected(port)]));
}

fn give_error(follower: &mut Follower, number: u32) {
    give(follower, &event(number, 7, vec![]));
}

fn give_picture(follower: &mut Follower, number: u32, display: &Display) {
    let bytes = write(&Packet::Picture(Picture {
        number,
        display: display.clone(),
    }));
    assert_eq!(follower.take(&bytes), Ok(()));
}

fn showing(n: u32) -> Follower {
    Follower::Showing {
        n,
        display: display(3),
        held: BTreeMap::new(),
    }
}

fn lost(floor: u32) -> Follower {
    Follower::Lost { floor }
}

fn n_of(follower: &Follower) -> u32 {
    match follower {
        Follower::Lost { .. } => panic!("lost"),
        Follower::Showing { n, .. } => *n,
    }
}

fn display_of(follower: &Follower) -> &Display {
    match follower {
        Follower::Lost { .. } => panic!("lost"),
        Follower::Showing { display, .. } => display,
    }
}

fn held_of(follower: &Follower) -> Vec<u32> {
    match follower {
        Follower::Lost { .. } => panic!("lost"),
        Follower::Showing { held, .. } => held.keys().copied().collect(),
    }
}

// Lost.

#[test]
fn starts_lost_with_floor_0() {
    assert_eq!(Follower::new(), lost(0));
}

#[test]
fn lost_raises_the_floor_to_each_event_number() {
    let mut follower = Follower::new();
    give_done(&mut follower, 5, 0);
    assert_eq!(follower, lost(5));
    give_done(&mut follower, 3, 0);
    assert_eq!(follower, lost(5));
    give_error(&mut follower, 9);
    assert_eq!(follower, lost(9));
    give_done(&mut follower, MAX, 0);
    assert_eq!(follower, lost(MAX));
}

#[test]
fn lost_accepts_a_picture_at_the_floor() {
    let mut follower = lost(9);
    give_picture(&mut follower, 9, &display(3));
    assert_eq!(follower, showing(9));
}

#[test]
fn lost_accepts_a_picture_above_the_floor() {
    let mut follower = lost(9);
    give_picture(&mut follower, 1_000_000, &display(3));
    assert_eq!(follower, showing(1_000_000));
}

#[test]
fn fresh_accepts_picture_0() {
    let mut follower = Follower::new();
    give_picture(&mut follower, 0, &display(3));
    assert_eq!(follower, showing(0));
}

#[test]
fn lost_drops_a_picture_below_the_floor_and_keeps_the_floor() {
    let mut follower = lost(9);
    give_picture(&mut follower, 8, &display(3));
    assert_eq!(follower, lost(9));
    give_picture(&mut follower, 0, &display(3));
    assert_eq!(follower, lost(9));
}

// Showing: events.

#[test]
fn n_or_less_is_dropped() {
    let mut follower = showing(20);
    for number in [20, 19, 12, 11, 1] {
        give_done(&mut follower, number, 8);
        give_error(&mut follower, number);
        assert_eq!(follower, showing(20));
    }
}

#[test]
fn the_next_is_applied() {
    let mut follower = showing(20);
    give_done(&mut follower, 21, 8);
    assert_eq!(n_of(&follower), 21);
    assert_eq!(
        display_of(&follower),
        &Display {
            consumer: consumer(8),
            ..display(3)
        }
    );
    assert!(held_of(&follower).is_empty());
}

#[test]
fn the_next_with_any_error_makes_lost() {
    for answer in 1..=10 {
        let mut follower = showing(20);
        give(&mut follower, &event(21, answer, vec![]));
        assert_eq!(follower, lost(21));
    }
}

#[test]
fn the_floor_on_becoming_lost_counts_those_held() {
    let mut follower = showing(20);
    give_done(&mut follower, 26, 0);
    give_done(&mut follower, 24, 0);
    give_error(&mut follower, 21);
    assert_eq!(follower, lost(26));
    // And those held are gone.
    give_picture(&mut follower, 26, &display(3));
    assert_eq!(follower, showing(26));
}

#[test]
fn n_plus_2_to_n_plus_8_are_held() {
    let mut follower = showing(20);
    for number in 22..=28 {
        give_done(&mut follower, number, 8);
    }
    assert_eq!(n_of(&follower), 20);
    assert_eq!(display_of(&follower), &display(3));
    assert_eq!(held_of(&follower), [22, 23, 24, 25, 26, 27, 28]);
}

#[test]
fn beyond_n_plus_8_makes_lost() {
    let mut follower = showing(20);
    give_done(&mut follower, 25, 8);
    give_done(&mut follower, 29, 8);
    assert_eq!(follower, lost(29));

    let mut follower = showing(20);
    give_error(&mut follower, MAX);
    assert_eq!(follower, lost(MAX));
}

#[test]
fn of_equal_numbers_the_first_is_held() {
    let mut follower = showing(20);
    give_done(&mut follower, 22, 8);
    give_done(&mut follower, 22, 9);
    give_error(&mut follower, 22);
    give(&mut follower, &event(21, 0, vec![]));
    assert_eq!(n_of(&follower), 22);
    assert_eq!(display_of(&follower).consumer, consumer(8));

    let mut follower = showing(20);
    give_error(&mut follower, 22);
    give_done(&mut follower, 22, 9);
    give(&mut follower, &event(21, 0, vec![]));
    assert_eq!(follower, lost(22));
}

#[test]
fn a_held_packet_is_kept_whole() {
    let notices = vec![
        Notice::ConsumerDisconnected { port: 1, reason: 5 },
        connected(2),
        Notice::ProviderDisconnected { port: 4 },
        provider(5),
    ];
    let packet = Event {
        number: 28,
        answer: 3,
        orders: 35,
        notices,
    };
    let mut follower = showing(20);
    give(&mut follower, &packet);
    let held = BTreeMap::from([(28, packet)]);
    let expected = Follower::Showing {
        n: 20,
        display: display(3),
        held,
    };
    assert_eq!(follower, expected);
}

#[test]
fn held_packets_are_applied_in_turn_up_to_the_first_hole() {
    let mut follower = showing(20);
    give(&mut follower, &event(23, 0, vec![provider(1)]));
    give(&mut follower, &event(22, 0, vec![connected(7)]));
    give(&mut follower, &event(25, 0, vec![connected(9)]));
    give(&mut follower, &event(21, 0, vec![connected(6)]));
    assert_eq!(n_of(&follower), 23);
    assert_eq!(display_of(&follower).consumer, consumer(7));
    assert_eq!(display_of(&follower).tracked, [1, 3]);
    assert_eq!(held_of(&follower), [25]);
}

#[test]
fn after_a_turn_the_window_is_the_new_one() {
    let mut follower = showing(20);
    give_done(&mut follower, 22, 0);
    give_done(&mut follower, 28, 0);
    give_done(&mut follower, 21, 0);
    assert_eq!(n_of(&follower), 22);
    give_done(&mut follower, 30, 0);
    assert_eq!(held_of(&follower), [28, 30]);
    give_done(&mut follower, 31, 0);
    assert_eq!(follower, lost(31));
}

#[test]
fn all_seven_held_are_applied() {
    let mut follower = showing(20);
    for number in (21..=28).rev() {
        give_done(&mut follower, number, (number - 20) as u8);
    }
    assert_eq!(n_of(&follower), 28);
    assert_eq!(display_of(&follower).consumer, consumer(8));
    assert!(held_of(&follower).is_empty());
}

#[test]
fn an_error_packet_may_be_held() {
    let mut follower = showing(20);
    give_error(&mut follower, 22);
    assert_eq!(n_of(&follower), 20);
    assert_eq!(held_of(&follower), [22]);
}

#[test]
fn a_held_error_makes_lost_in_its_turn() {
    let mut follower = showing(20);
    give_error(&mut follower, 23);
    give_done(&mut follower, 22, 8);
    give_done(&mut follower, 27, 8);
    assert_eq!(held_of(&follower), [22, 23, 27]);
    give_done(&mut follower, 21, 8);
    assert_eq!(follower, lost(27));
}

#[test]
fn a_held_error_alone_sets_the_floor() {
    let mut follower = showing(20);
    give_error(&mut follower, 22);
    give_done(&mut follower, 21, 8);
    assert_eq!(follower, lost(22));
}

#[test]
fn a_held_error_behind_a_hole_waits() {
    let mut follower = showing(20);
    give_error(&mut follower, 23);
    give_done(&mut follower, 21, 8);
    assert_eq!(n_of(&follower), 21);
    assert_eq!(held_of(&follower), [23]);
}

// Showing: pictures.

#[test]
fn a_picture_at_or_below_n_is_dropped() {
    let mut follower = showing(20);
    give_done(&mut follower, 23, 8);
    let before = follower.clone();
    for number in [20, 19, 0] {
        give_picture(&mut follower, number, &display(9));
        assert_eq!(follower, before);
    }
}

#[test]
fn a_picture_above_n_replaces_the_display() {
    for number in [21, 22, 28, 29, MAX] {
        let mut follower = showing(20);
        give_picture(&mut follower, number, &display(9));
        let expected = Follower::Showing {
            n: number,
            display: display(9),
            held: BTreeMap::new(),
        };
        assert_eq!(follower, expected);
    }
}

#[test]
fn held_packets_above_a_picture_stay() {
    let mut follower = showing(20);
    for number in [22, 23, 24, 26, 28] {
        give_done(&mut follower, number, 8);
    }
    give_picture(&mut follower, 24, &display(9));
    assert_eq!(n_of(&follower), 24);
    assert_eq!(display_of(&follower), &display(9));
    assert_eq!(held_of(&follower), [26, 28]);
}

#[test]
fn held_packets_right_above_a_picture_follow_in_turn() {
    let mut follower = showing(20);
    for number in [22, 23, 24, 26] {
        give_done(&mut follower, number, number as u8 - 20);
    }
    give_picture(&mut follower, 21, &display(9));
    assert_eq!(n_of(&follower), 24);
    let expected = Display {
        consumer: consumer(4),
        ..display(9)
    };
    assert_eq!(display_of(&follower), &expected);
    assert_eq!(held_of(&follower), [26]);
}

#[test]
fn a_picture_passes_over_a_held_error() {
    let mut follower = showing(20);
    give_error(&mut follower, 23);
    give_done(&mut follower, 25, 8);
    give_picture(&mut follower, 23, &display(9));
    assert_eq!(n_of(&follower), 23);
    assert_eq!(display_of(&follower), &display(9));
    assert_eq!(held_of(&follower), [25]);
}

#[test]
fn a_held_error_makes_lost_within_the_take_of_a_picture() {
    let mut follower = showing(20);
    give_error(&mut follower, 24);
    give_done(&mut follower, 23, 8);
    give_done(&mut follower, 28, 8);
    give_picture(&mut follower, 22, &display(9));
    assert_eq!(follower, lost(28));

    let mut follower = showing(20);
    give_error(&mut follower, 24);
    give_picture(&mut follower, 23, &display(9));
    assert_eq!(follower, lost(24));
}

#[test]
fn a_picture_beyond_all_held_drops_them() {
    let mut follower = showing(20);
    for number in 22..=28 {
        give_error(&mut follower, number);
    }
    give_picture(&mut follower, 28, &display(3));
    assert_eq!(follower, showing(28));
}

// Notices.

fn applied(display: &Display, notices: Vec<Notice>) -> Display {
    let mut follower = Follower::Showing {
        n: 0,
        display: display.clone(),
        held: BTreeMap::new(),
    };
    give(&mut follower, &event(1, 0, notices));
    assert_eq!(n_of(&follower), 1);
    display_of(&follower).clone()
}

#[test]
fn no_notice_changes_nothing() {
    assert_eq!(applied(&display(3), vec![]), display(3));
}

#[test]
fn notice_1_leaves_no_consumer_whatever_port_it_names() {
    for port in 0..=15 {
        for reason in 0..=6 {
            let notice = Notice::ConsumerDisconnected { port, reason };
            let expected = Display {
                consumer: None,
                ..display(3)
            };
            assert_eq!(applied(&display(3), vec![notice]), expected);
            assert_eq!(applied(&expected, vec![notice]), expected);
        }
    }
}

#[test]
fn notice_2_sets_the_consumer() {
    let capability = Capability {
        mv: 65_535,
        ma: 0,
        flags: Flags {
            unconstrained_power: true,
            psu_type: None,
        },
    };
    let notice = Notice::ConsumerConnected {
        port: 12,
        capability,
    };
    // The flag in the capability does not touch the figures.
    let before = Display {
        unconstrained: false,
        ..display(3)
    };
    let expected = Display {
        consumer: Some(Consumer {
            port: 12,
            capability,
        }),
        ..before.clone()
    };
    assert_eq!(applied(&before, vec![notice]), expected);
}

#[test]
fn notice_3_untracks_the_port() {
    let tracking = |tracked: &[u8]| Display {
        tracked: tracked.to_vec(),
        ..display(3)
    };
    let notice = Notice::ProviderDisconnected { port: 5 };
    let before = tracking(&[1, 5, 9, 15]);
    assert_eq!(applied(&before, vec![notice]), tracking(&[1, 9, 15]));
    assert_eq!(applied(&tracking(&[1, 9]), vec![notice]), tracking(&[1, 9]));
    assert_eq!(applied(&tracking(&[]), vec![notice]), tracking(&[]));
}

#[test]
fn notice_4_tracks_the_port_if_there_is_room() {
    let tracking = |tracked: &[u8]| Display {
        tracked: tracked.to_vec(),
        ..display(3)
    };
    let after = |tracked: &[u8]| applied(&tracking(tracked), vec![provider(5)]);
    assert_eq!(after(&[]), tracking(&[5]));
    assert_eq!(after(&[1, 9]), tracking(&[1, 5, 9]));
    assert_eq!(after(&[0, 1, 2]), tracking(&[0, 1, 2, 5]));
    assert_eq!(after(&[6, 7, 8]), tracking(&[5, 6, 7, 8]));
    assert_eq!(after(&[5]), tracking(&[5]));
    assert_eq!(after(&[1, 2, 3, 5]), tracking(&[1, 2, 3, 5]));
    assert_eq!(after(&[1, 2, 3, 4]), tracking(&[1, 2, 3, 4]));
}

#[test]
fn notice_5_sets_both_figures() {
    for unconstrained in [false, true] {
        for available in 0..=16 {
            let notice = Notice::Unconstrained {
                unconstrained,
                available,
            };
            let expected = Display {
                unconstrained,
                available,
                ..display(3)
            };
            assert_eq!(applied(&display(3), vec![notice]), expected);
        }
    }
}

#[test]
fn notices_act_in_order() {
    let gone = Notice::ConsumerDisconnected { port: 6, reason: 0 };
    let there = applied(&display(3), vec![gone, connected(6)]);
    assert_eq!(there.consumer, consumer(6));
    let not_there = applied(&display(3), vec![connected(6), gone]);
    assert_eq!(not_there.consumer, None);

    let full = Display {
        tracked: vec![1, 2, 3, 4],
        ..display(3)
    };
    let out = Notice::ProviderDisconnected { port: 2 };
    let room_first = applied(&full, vec![out, provider(9)]);
    assert_eq!(room_first.tracked, [1, 3, 4, 9]);
    let room_last = applied(&full, vec![provider(9), out]);
    assert_eq!(room_last.tracked, [1, 3, 4]);
}

#[test]
fn the_notices_of_an_error_are_not_applied() {
    let mut follower = showing(20);
    give(&mut follower, &event(21, 1, vec![connected(9)]));
    assert_eq!(follower, lost(21));
}

// Near the greatest number.

#[test]
fn nothing_wraps_near_the_greatest_number() {
    // The window ends at the greatest number.
    let mut follower = showing(MAX - 3);
    give_done(&mut follower, MAX, 8);
    give_done(&mut follower, MAX - 1, 7);
    assert_eq!(held_of(&follower), [MAX - 1, MAX]);
    give_done(&mut follower, MAX - 2, 6);
    assert_eq!(n_of(&follower), MAX);
    assert_eq!(display_of(&follower).consumer, consumer(8));

    // Small numbers are old, not next.
    let before = follower.clone();
    for number in 1..=9 {
        give_done(&mut follower, number, 1);
        give_error(&mut follower, number);
        give_picture(&mut follower, number, &display(9));
    }
    give_picture(&mut follower, 0, &display(9));
    assert_eq!(follower, before);
    give_error(&mut follower, MAX);
    assert_eq!(follower, before);

    let mut follower = showing(MAX - 1);
    give_done(&mut follower, 6, 1);
    assert_eq!(follower, showing(MAX - 1));
    give_error(&mut follower, MAX);
    assert_eq!(follower, lost(MAX));
    give_picture(&mut follower, MAX - 1, &display(3));
    assert_eq!(follower, lost(MAX));
    give_picture(&mut follower, MAX, &display(3));
    assert_eq!(follower, showing(MAX));

    let mut follower = showing(MAX - 8);
    give_error(&mut follower, MAX);
    assert_eq!(held_of(&follower), [MAX]);
    let mut follower = showing(MAX - 9);
    give_done(&mut follower, MAX, 1);
    assert_eq!(follower, lost(MAX));
}

// Refused bytes.

#[test]
fn refused_bytes_change_nothing() {
    let mut waiting = showing(20);
    give_done(&mut waiting, 22, 8);
    for start in [lost(0), lost(9), showing(20), waiting] {
        let refused: [(&[u8], u8); 6] = [
            (&[], 30),
            (&[1, 21, 0, 0], 30),
            (&[1, 0x95, 0x00, 0, 0, 0], 31),
            (&[1, 21, 0, 0, 1, 6], 32),
            (&[2, 30, 0, 0, 0, 2, 1, 1], 32),
            (&[2, 30, 0, 0, 0, 0, 0], 33),
        ];
        for (bytes, refusal) in refused {
            let mut follower = start.clone();
            assert_eq!(follower.take(bytes), Err(refusal));
            assert_eq!(follower, start);
        }
    }
}
