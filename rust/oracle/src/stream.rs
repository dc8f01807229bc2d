//! Runs of the service as bytes, to be replayed by a program in another language.
//!
//! A stream is any number of runs. A run is a start and its calls, each followed by what it leads
//! to. Numbers of more than one byte have the low byte first.
//!
//! Start, 22 bytes:
//!
//! | bytes | |
//! |---|---|
//! | 0 | `S` |
//! | 1 to 4 | limited_power_threshold_mw |
//! | 5 to 8 | provider_unlimited: mV, mA |
//! | 9 to 12 | provider_limited: mV, mA |
//! | 13 | 1 if there is a minimum, else 0 |
//! | 14 to 17 | min_consumer_threshold_mw, 0 if there is none |
//! | 18 | number of ports |
//! | 19 | number of chargers |
//! | 20, 21 | 0 |
//!
//! Opening of an event: 4 bytes, the records, an outcome:
//!
//! | bytes | |
//! |---|---|
//! | 0 | `O` |
//! | 1 | kind: 0 Attached, 1 UpdatedConsumerCapability, 2 RequestedProviderCapability, 3 Disconnected, 4 Detached, 5 the charger's event |
//! | 2 | port or charger |
//! | 3 | kind 3: reason, 0 none to 6 Reset; kind 5: PSU state, 0 Attached, 1 Detached; else 0 |
//!
//! Answer to the last order: 2 bytes, the records, an outcome:
//!
//! | bytes | |
//! |---|---|
//! | 0 | `A` |
//! | 1 | answer: 0 done, 1 to 10 the error |
//!
//! The records are those of all ports, 18 bytes each, and then of all chargers, 7 bytes each.
//!
//! Outcome, 64 bytes, the rest zero. An order is asked for:
//!
//! | bytes | |
//! |---|---|
//! | 0 | 1 |
//! | 1 | 1 disconnect, 2 connect consumer, 3 connect provider, 4 is_ready, 5 init_charger, 6 attach, 7 detach, 8 wait |
//! | 2 | port or charger, 0 for the wait |
//! | 3 to 7 | the capability that goes with 2, 3 and 6: mV, mA, flags; else zeros |
//!
//! The event is closed:
//!
//! | bytes | |
//! |---|---|
//! | 0 | 2 |
//! | 1 | answer: 0 done, 1 to 10 the error |
//! | 2 | mask of expected states, if a transition of the original gave an InvalidState, else 0 |
//! | 3 | actual state, likewise: 0 Detached, 1 Idle, 2 ConnectedProvider, 3 ConnectedConsumer |
//! | 4 | number of orders given, failed ones too |
//! | 5 | number of notices |
//! | 6 to 37 | four notices, 8 bytes each |
//! | 38 to 44 | current consumer: 1, port, mV, mA, flags; or zeros |
//! | 45 | unconstrained, 0 or 1 |
//! | 46 | available |
//! | 47 | power state: 0 Unlimited, 1 Limited |
//! | 48 | number of tracked providers |
//! | 49 to 52 | their ports, rising |
//!
//! A notice, the rest zero: 1 (consumer disconnected), port, reason. 2 (consumer connected), port,
//! mV, mA, flags. 3 (provider disconnected), port. 4 (provider connected), port, mV, mA, flags. 5
//! (unconstrained), 0 or 1, available.

use power_policy_interface::capability::PowerCapabilityFlags;

use crate::{
    driver::{Config, Event, Notice, Order, PowerState, Records},
    record,
    run::{EventRun, Run},
};

pub const START: usize = 22;
pub const OUTCOME: usize = 64;
pub const NOTICE: usize = 8;

/// Puts the bytes at the front of a field of fixed width.
fn put(field: &mut [u8], bytes: &[u8]) {
    field[..bytes.len()].copy_from_slice(bytes);
}

fn start(config: &Config, ports: usize, chargers: usize) -> [u8; START] {
    let mut bytes = [0; START];
    bytes[0] = b'S';
    put(
        &mut bytes[1..5],
        &config.limited_power_threshold_mw.to_le_bytes(),
    );
    put(
        &mut bytes[5..9],
        &record::power_to_bytes(&config.provider_unlimited),
    );
    put(
        &mut bytes[9..13],
        &record::power_to_bytes(&config.provider_limited),
    );
    if let Some(minimum) = config.min_consumer_threshold_mw {
        bytes[13] = 1;
        put(&mut bytes[14..18], &minimum.to_le_bytes());
    }
    bytes[18] = ports as u8;
    bytes[19] = chargers as u8;
    bytes
}

fn open(event: &Event) -> [u8; 4] {
    let (device, detail) = match *event {
        Event::Attached { port }
        | Event::UpdatedConsumerCapability { port }
        | Event::RequestedProviderCapability { port }
        | Event::Detached { port } => (port, 0),
        Event::Disconnected { port, reason } => (port, record::reason_byte(reason)),
        Event::Charger { charger, psu_state } => (charger, record::charger_psu_byte(psu_state)),
    };
    [b'O', event.kind(), device, detail]
}

fn extend_by_records(bytes: &mut Vec<u8>, records: &Records) {
    for state in &records.ports {
        bytes.extend(record::psu_to_bytes(state));
    }
    for state in &records.chargers {
        bytes.extend(record::charger_to_bytes(state));
    }
}

fn order_outcome(order: &Order) -> [u8; OUTCOME] {
    let mut bytes = [0; OUTCOME];
    let capability = match order.capability {
        None => [0; record::CAPABILITY],
        Some(PowerCapabilityFlags::Consumer(capability)) => record::consumer_to_bytes(&capability),
        Some(PowerCapabilityFlags::Provider(capability)) => record::provider_to_bytes(&capability),
    };
    put(&mut bytes, &[1, order.kind.number(), order.device]);
    put(&mut bytes[3..8], &capability);
    bytes
}

fn notice(notice: &Notice) -> [u8; NOTICE] {
    let mut bytes = [0; NOTICE];
    bytes[0] = notice.kind();
    match notice {
        Notice::ConsumerDisconnected { port, reason } => {
            put(&mut bytes[1..], &[*port, record::reason_byte(*reason)]);
        }
        Notice::ConsumerConnected { port, capability } => {
            bytes[1] = *port;
            put(&mut bytes[2..], &record::consumer_to_bytes(capability));
        }
        Notice::ProviderDisconnected { port } => bytes[1] = *port,
        Notice::ProviderConnected { port, capability } => {
            bytes[1] = *port;
            put(&mut bytes[2..], &record::provider_to_bytes(capability));
        }
        Notice::Unconstrained(state) => {
            let available = u8::try_from(state.available).expect("at most 16 ports");
            put(&mut bytes[1..], &[u8::from(state.unconstrained), available]);
        }
    }
    bytes
}

fn close_outcome(event: &EventRun) -> [u8; OUTCOME] {
    let mut bytes = [0; OUTCOME];
    bytes[0] = 2;
    put(&mut bytes[1..4], &record::result_to_bytes(&event.answer));
    bytes[4] = event.orders as u8;
    bytes[5] = event.notices.len() as u8;
    let notices: Vec<u8> = event.notices.iter().flat_map(notice).collect();
    put(&mut bytes[6..38], &notices);
    let held = &event.held;
    if let Some((port, capability)) = held.consumer {
        put(&mut bytes[38..40], &[1, port]);
        put(&mut bytes[40..45], &record::consumer_to_bytes(&capability));
    }
    bytes[45] = u8::from(held.unconstrained.unconstrained);
    bytes[46] = u8::try_from(held.unconstrained.available).expect("at most 16 ports");
    bytes[47] = match held.power {
        PowerState::Unlimited => 0,
        PowerState::Limited => 1,
    };
    bytes[48] = held.providers.len() as u8;
    put(&mut bytes[49..53], &held.providers);
    bytes
}

/// The run as bytes.
pub fn bytes(run: &Run) -> Vec<u8> {
    let mut bytes = start(&run.config, run.ports, run.chargers).to_vec();
    for event in &run.events {
        bytes.extend(open(&event.event));
        extend_by_records(&mut bytes, &event.records);
        for exchange in &event.exchanges {
            bytes.extend(order_outcome(&exchange.order));
            bytes.extend([b'A', exchange.answer]);
            extend_by_records(&mut bytes, &exchange.records);
        }
        bytes.extend(close_outcome(event));
    }
    bytes
}
