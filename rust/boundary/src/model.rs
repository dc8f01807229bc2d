//! Takes and pages compared with rust/model, a model of packets, follower and page that was written by itself.

use link_model::{
    follower::Follower,
    generate,
    packet::{Capability, Display, Event, Notice, flags_byte},
    page,
};

use crate::{
    bytes::*,
    calls::{Call, Calls, perform},
    report::Report,
};

fn put_contract(image: &mut [u8], port: u8, capability: &Capability) {
    let [v0, v1] = capability.mv.to_le_bytes();
    let [a0, a1] = capability.ma.to_le_bytes();
    image[..6].copy_from_slice(&[port, v0, v1, a0, a1, flags_byte(&capability.flags)]);
}

fn put_display(image: &mut [u8], display: &Display) {
    if let Some(consumer) = &display.consumer {
        image[0] = 1;
        put_contract(&mut image[1..], consumer.port, &consumer.capability);
    }
    image[7] = display.unconstrained.into();
    image[8] = display.available;
    let tracked = display
        .tracked
        .iter()
        .fold(0u16, |ports, port| ports | 1 << port);
    image[9..11].copy_from_slice(&tracked.to_le_bytes());
}

fn put_event(slot: &mut [u8], event: &Event) {
    slot[..4].copy_from_slice(&[1, event.answer, event.orders, event.notices.len() as u8]);
    for (place, notice) in slot[4..].chunks_exact_mut(7).zip(&event.notices) {
        match notice {
            Notice::ConsumerDisconnected { port, reason } => {
                place[..3].copy_from_slice(&[1, *port, *reason]);
            }
            Notice::ConsumerConnected { port, capability } => {
                place[0] = 2;
                put_contract(&mut place[1..], *port, capability);
            }
            Notice::ProviderDisconnected { port } => place[..2].copy_from_slice(&[3, *port]),
            Notice::ProviderConnected { port, capability } => {
                place[0] = 4;
                put_contract(&mut place[1..], *port, capability);
            }
            Notice::Unconstrained {
                unconstrained,
                available,
            } => place[..3].copy_from_slice(&[5, u8::from(*unconstrained), *available]),
        }
    }
}

/// The image that docs/STATE.md gives the model's follower, and what is shown of it.
fn image(follower: &Follower) -> (Vec<u8>, u64) {
    let mut image = vec![0; FOLLOWER_IMAGE];
    image[0] = 2;
    match follower {
        Follower::Lost { floor } => {
            image[2..6].copy_from_slice(&floor.to_le_bytes());
            (image, 5)
        }
        Follower::Showing { n, display, held } => {
            image[1] = 1;
            image[2..6].copy_from_slice(&n.to_le_bytes());
            put_display(&mut image[6..17], display);
            for (number, event) in held {
                let slot = 17 + 32 * (number - n - 2) as usize;
                put_event(&mut image[slot..slot + 32], event);
            }
            let state = if held.is_empty() { 1 } else { 2 };
            let [low, high] = [image[13], image[14]];
            let shown = u64::from(u32::from_le_bytes([5, state, low, high]));
            (image, shown | u64::from(*n) << 32)
        }
    }
}

/// The packets of a stream: each after its length, which is one byte.
fn packets(stream: &[u8]) -> Vec<&[u8]> {
    let mut rest = stream;
    let mut packets = Vec::new();
    while let Some((length, after)) = rest.split_first() {
        let (packet, after) = after.split_at(usize::from(*length).min(after.len()));
        packets.push(packet);
        rest = after;
    }
    packets
}

/// The model's page of its follower, which must be read as what that shows.
fn page_of(model: &Follower) -> Result<Vec<u8>, String> {
    let page = page::page(model);
    let said = page::read(&page);
    if said != Some(page::entries(model)) {
        return Err(format!("the page of {model:?} is read as {said:?}"));
    }
    Ok(page)
}

/// The page of an image is this one.
fn compare_page(calls: &dyn Calls, image: &[u8], wanted: &[u8]) -> Result<(), String> {
    let call = Call::FollowerWritePage(vec![0xEE; PAGE + 2]);
    let after = perform(calls, image, &call)?;
    if after.written() == wanted {
        return Ok(());
    }
    Err(format!(
        "gives {:#x} and {:?}; the model's page {:?}",
        after.result,
        String::from_utf8_lossy(&after.buffer),
        String::from_utf8_lossy(wanted)
    ))
}

pub fn run(report: &mut Report, calls: &dyn Calls, seed: u64, count: usize) {
    let streams = [
        ("valid packets", generate::packet_stream(seed, count / 4)),
        (
            "damaged packets",
            generate::damaged_stream(seed, 1 + count / 400),
        ),
        (
            "all packets of one and two bytes, and of three that begin with 1 or 2",
            generate::short_stream(false),
        ),
        (
            "lists over a bad link",
            generate::take_stream(seed, count / 2),
        ),
        (
            "lists over a bad link",
            generate::take_stream(seed + 1000, 400),
        ),
    ];
    for (name, stream) in streams {
        let mut model = Follower::new();
        let mut state = image(&model).0;
        let mut page = page_of(&model);
        for packet in packets(&stream) {
            let before = state.clone();
            let wanted = match model.take(packet) {
                Ok(()) => 4,
                Err(refusal) => u64::from(refusal) << 8,
            };
            let (wanted_image, wanted_shown) = image(&model);
            if wanted_image != before {
                page = page_of(&model);
            }
            let call = Call::FollowerTake(packet.to_vec());
            let result = perform(calls, &before, &call).and_then(|after| {
                let shown = perform(calls, &after.image, &Call::FollowerShown)?.result;
                if (after.result, &after.image, shown) == (wanted, &wanted_image, wanted_shown) {
                    return compare_page(calls, &after.image, page.as_ref()?);
                }
                Err(format!(
                    "gives {:#x} {} shown {shown:#x}; the model {wanted:#x} {} shown {wanted_shown:#x}",
                    after.result,
                    hex(&after.image),
                    hex(&wanted_image)
                ))
            });
            let case = |what| format!("{what}; image {} packet {}", hex(&before), hex(packet));
            report.check(name, result.map_err(case));
            state = wanted_image;
        }
    }
}
