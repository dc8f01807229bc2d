//! The generators, and the follower over whole streams.

use std::collections::{BTreeMap, BTreeSet};

use link_model::follower::Follower;
use link_model::generate;
use link_model::packet::{Notice, Packet, flags_byte, read, write};
use link_model::program::{Frames, frame};

fn unframed(stream: &[u8]) -> Vec<Vec<u8>> {
    let mut out = Vec::new();
    let mut frames = Frames::new(stream);
    while let Some(bytes) = frames.next_packet().expect("good framing") {
        out.push(bytes.to_vec());
    }
    out
}

#[test]
fn the_same_seed_gives_the_same_stream() {
    let packets = generate::packet_stream(3, 500);
    assert_eq!(packets, generate::packet_stream(3, 500));
    assert_ne!(packets, generate::packet_stream(4, 500));
    let takes = generate::take_stream(3, 500);
    assert_eq!(takes, generate::take_stream(3, 500));
    assert_ne!(takes, generate::take_stream(4, 500));
}

#[test]
fn framing_of_long_packets() {
    let mut stream = Vec::new();
    frame(&mut stream, &[7; 64]);
    frame(&mut stream, &[8]);
    assert_eq!(unframed(&stream), [vec![7; 64], vec![8]]);
}

#[test]
fn generated_packets_cover_the_edges() {
    let mut numbers = BTreeSet::new();
    let mut kinds = BTreeSet::new();
    let mut counts = BTreeSet::new();
    let mut answers = BTreeSet::new();
    let mut orders = BTreeSet::new();
    let mut reasons = BTreeSet::new();
    let mut consumer_flags = BTreeSet::new();
    let mut provider_flags = BTreeSet::new();
    let mut millis = BTreeSet::new();
    let mut ports = BTreeSet::new();
    let mut available_figures = BTreeSet::new();
    let mut tracked_counts = BTreeSet::new();
    let mut presences = BTreeSet::new();
    let stream = generate::packet_stream(1, 5000);
    let all = unframed(&stream);
    assert_eq!(all.len(), 5000);
    for bytes in all {
        match read(&bytes).expect("a valid packet") {
            Packet::Event(event) => {
                numbers.insert((1, event.number));
                counts.insert(event.notices.len());
                answers.insert(event.answer);
                orders.insert(event.orders);
                for notice in event.notices {
                    match notice {
                        Notice::ConsumerDisconnected { port, reason } => {
                            kinds.insert(1);
                            ports.insert((1, port));
                            reasons.insert(reason);
                        }
                        Notice::ConsumerConnected { port, capability } => {
                            kinds.insert(2);
                            ports.insert((2, port));
                            consumer_flags.insert(flags_byte(&capability.flags));
                            millis.insert((2, capability.mv));
                            millis.insert((3, capability.ma));
                        }
                        Notice::ProviderDisconnected { port } => {
                            kinds.insert(3);
                            ports.insert((3, port));
                        }
                        Notice::ProviderConnected { port, capability } => {
                            kinds.insert(4);
                            ports.insert((4, port));
                            provider_flags.insert(flags_byte(&capability.flags));
                            millis.insert((4, capability.mv));
                            millis.insert((5, capability.ma));
                        }
                        Notice::Unconstrained {
                            unconstrained,
                            available,
                        } => {
                            kinds.insert(5);
                            available_figures.insert((unconstrained, available));
                        }
                    }
                }
            }
            Packet::Picture(picture) => {
                numbers.insert((2, picture.number));
                let display = picture.display;
                presences.insert(display.consumer.is_some());
                if let Some(consumer) = display.consumer {
                    ports.insert((5, consumer.port));
                    millis.insert((6, consumer.capability.mv));
                    millis.insert((7, consumer.capability.ma));
                }
                tracked_counts.insert(display.tracked.len());
            }
        }
    }
    for edge in [1, 127, 128, 16_383, 16_384, u32::MAX] {
        assert!(numbers.contains(&(1, edge)) && numbers.contains(&(2, edge)));
    }
    assert!(numbers.contains(&(2, 0)));
    for edge in [0, 1, 127, 128, 16_383, 16_384, 65_535] {
        for place in 2..=7 {
            assert!(millis.contains(&(place, edge)));
        }
    }
    for port in 0..=15 {
        for place in 1..=5 {
            assert!(ports.contains(&(place, port)));
        }
    }
    assert_eq!(kinds.len(), 5);
    assert_eq!(counts.len(), 5);
    assert_eq!(answers.len(), 11);
    assert_eq!(orders.len(), 36);
    assert_eq!(reasons.len(), 7);
    assert_eq!(consumer_flags.len(), 14);
    assert_eq!(provider_flags.len(), 7);
    assert_eq!(available_figures.len(), 34);
    assert_eq!(tracked_counts.len(), 5);
    assert_eq!(presences.len(), 2);
}

#[test]
fn damages_are_as_told() {
    let out = generate::damages(&[1, 1, 0]);
    for cut in [vec![1], vec![1, 1], vec![1, 1, 0]] {
        assert!(out.contains(&cut));
    }
    for new in [0, 2, 127, 128, 255] {
        assert!(out.contains(&vec![new, 1, 0]));
        assert!(out.contains(&vec![1, new, 0]));
    }
    for new in [1, 127, 128, 255] {
        assert!(out.contains(&vec![1, 1, new]));
        assert!(out.contains(&vec![1, 1, 0, new]));
    }
    assert_eq!(out.len(), 3 + 5 + 5 + 5 + 4);
    // Nothing longer than a frame allows.
    let long = generate::damages(&[9; 64]);
    assert!(long.iter().all(|bytes| bytes.len() <= 64));
}

#[test]
fn damaged_packets_meet_every_refusal_and_none() {
    let mut outcomes: BTreeMap<Result<(), u8>, usize> = BTreeMap::new();
    for bytes in unframed(&generate::damaged_stream(1, 100)) {
        *outcomes.entry(read(&bytes).map(|_| ())).or_default() += 1;
    }
    for outcome in [Ok(()), Err(30), Err(31), Err(32), Err(33)] {
        assert!(outcomes[&outcome] > 50, "{outcome:?}");
    }
}

#[test]
fn short_strings_are_all_there() {
    let all = unframed(&generate::short_stream(false));
    assert_eq!(all.len(), 256 + 65_536 + 2 * 65_536);
    let set: BTreeSet<&Vec<u8>> = all.iter().collect();
    assert_eq!(set.len(), all.len());
}

/// What is seen when one follower takes a whole list.
#[derive(Default, Debug)]
struct Seen {
    refused: usize,
    old_event: usize,
    applied: usize,
    applied_with_held: usize,
    held: usize,
    held_again: usize,
    error: usize,
    held_error: usize,
    beyond: usize,
    floor_raised: usize,
    floor_kept: usize,
    picture_old: usize,
    picture_below_floor: usize,
    picture_found: usize,
    picture_ahead: usize,
    picture_ahead_with_held: usize,
    picture_follow: usize,
    picture_error: usize,
    near_end: usize,
    at_end: usize,
}

/// Takes the list and checks after each take what holds of every follower.
fn run(packets: &[Vec<u8>], seen: &mut Seen, mut shown: impl FnMut(&Follower)) {
    let mut follower = Follower::new();
    // The greatest event number met.
    let mut met: u32 = 0;
    for bytes in packets {
        let before = follower.clone();
        let outcome = follower.take(bytes);
        let packet = read(bytes);
        assert_eq!(outcome.err(), packet.clone().err());
        if let Ok(Packet::Event(event)) = &packet {
            met = met.max(event.number);
        }
        match &follower {
            Follower::Lost { floor } => assert_eq!(*floor, met),
            Follower::Showing { n, display, held } => {
                for (number, event) in held {
                    assert_eq!(*number, event.number);
                    assert!(*number - *n >= 2 && *number - *n <= 8);
                }
                assert!(display.tracked.len() <= 4);
                assert!(display.tracked.is_sorted_by(|a, b| a < b));
                assert!(met <= *n || held.contains_key(&met));
                if *n == u32::MAX {
                    seen.at_end += 1;
                } else if *n >= u32::MAX - 8 {
                    seen.near_end += 1;
                }
            }
        }
        count(&before, &follower, &packet, seen);
        shown(&follower);
    }
}

fn count(before: &Follower, after: &Follower, packet: &Result<Packet, u8>, seen: &mut Seen) {
    match (packet, before, after) {
        (Err(_), _, _) => {
            assert_eq!(before, after);
            seen.refused += 1;
        }
        (Ok(Packet::Event(_)), Follower::Lost { .. }, _) => {
            if before == after {
                seen.floor_kept += 1;
            } else {
                seen.floor_raised += 1;
            }
        }
        (Ok(Packet::Picture(picture)), Follower::Lost { floor }, _) => {
            if before == after {
                assert!(picture.number < *floor);
                seen.picture_below_floor += 1;
            } else {
                seen.picture_found += 1;
            }
        }
        (Ok(Packet::Event(event)), Follower::Showing { n, held, .. }, _) => {
            if event.number <= *n {
                assert_eq!(before, after);
                seen.old_event += 1;
            } else if event.number - n > 8 {
                seen.beyond += 1;
            } else if event.number - n > 1 {
                if held.contains_key(&event.number) {
                    assert_eq!(before, after);
                    seen.held_again += 1;
                } else {
                    assert_ne!(before, after);
                    seen.held += 1;
                }
            } else if event.answer != 0 {
                seen.error += 1;
            } else {
                match after {
                    Follower::Lost { .. } => seen.held_error += 1,
                    Follower::Showing { n, .. } if *n == event.number => seen.applied += 1,
                    Follower::Showing { .. } => seen.applied_with_held += 1,
                }
            }
        }
        (Ok(Packet::Picture(picture)), Follower::Showing { n, .. }, _) => {
            if picture.number <= *n {
                assert_eq!(before, after);
                seen.picture_old += 1;
                return;
            }
            match after {
                Follower::Lost { .. } => seen.picture_error += 1,
                Follower::Showing { n, held, .. } => {
                    if *n > picture.number {
                        seen.picture_follow += 1;
                    } else if held.is_empty() {
                        seen.picture_ahead += 1;
                    } else {
                        seen.picture_ahead_with_held += 1;
                    }
                }
            }
        }
    }
}

#[test]
fn take_lists_meet_every_case() {
    let mut seen = Seen::default();
    for seed in 0..20 {
        let takes = generate::takes(seed, 5000, true);
        assert_eq!(takes.packets.len(), 5000);
        run(&takes.packets, &mut seen, |_| {});
    }
    println!("{seen:?}");
    let cases = [
        seen.refused,
        seen.old_event,
        seen.applied,
        seen.applied_with_held,
        seen.held,
        seen.held_again,
        seen.error,
        seen.held_error,
        seen.beyond,
        seen.floor_raised,
        seen.floor_kept,
        seen.picture_old,
        seen.picture_below_floor,
        seen.picture_found,
        seen.picture_ahead,
        seen.picture_ahead_with_held,
        seen.picture_follow,
        seen.picture_error,
        seen.near_end,
        seen.at_end,
    ];
    for (case, times) in cases.into_iter().enumerate() {
        assert!(times >= 30, "case {case}: {times}");
    }
}

#[test]
fn what_is_shown_is_what_the_run_held() {
    let mut seen = Seen::default();
    let mut showing = 0;
    for seed in 100..120 {
        let takes = generate::takes(seed, 5000, false);
        run(&takes.packets, &mut seen, |follower| {
            if let Follower::Showing { n, display, .. } = follower {
                assert_eq!(Some(display), takes.held.get(n));
                showing += 1;
            }
        });
    }
    assert!(showing > 50_000, "{showing}");
}

#[test]
fn streams_of_packets_and_damages_keep_the_follower_well_formed() {
    let mut seen = Seen::default();
    let packets: Vec<Vec<u8>> = generate::packets(2, 5000).iter().map(write).collect();
    run(&packets, &mut seen, |_| {});
    run(
        &unframed(&generate::damaged_stream(2, 300)),
        &mut seen,
        |_| {},
    );
}
