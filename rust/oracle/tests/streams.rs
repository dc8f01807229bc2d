//! Streams of the service: read back from the layout alone, and replayed by a second reading of
//! the requirements in terms of bytes alone.

use std::collections::BTreeSet;

use oracle::{
    check, driver, exhaustive, random, record, records,
    run::{Run, Session},
    scenario, stream,
};

type Psu = [u8; 18];
type Charger = [u8; 7];
/// mV, mA and flags.
type Capability = [u8; 5];
/// Kind, device and capability.
type Order = [u8; 7];

#[derive(Debug)]
struct Start {
    threshold: u32,
    unlimited: [u8; 4],
    limited: [u8; 4],
    minimum: Option<u32>,
    ports: usize,
    chargers: usize,
}

/// A call and what it leads to: an order, but for the last call of an event.
#[derive(Debug)]
struct Call {
    answer: u8,
    ports: Vec<Psu>,
    chargers: Vec<Charger>,
    order: Option<Order>,
}

#[derive(Debug, Clone, Default, PartialEq, Eq)]
struct Held {
    consumer: Option<(u8, Capability)>,
    unconstrained: (bool, u8),
    limited: bool,
    providers: BTreeSet<u8>,
}

#[derive(Debug, PartialEq, Eq)]
struct Close {
    /// Answer, expected mask, actual state.
    result: [u8; 3],
    orders: usize,
    notices: Vec<[u8; 8]>,
    held: Held,
}

#[derive(Debug)]
struct Event {
    kind: u8,
    device: u8,
    detail: u8,
    calls: Vec<Call>,
    close: Close,
}

struct Reader<'a>(&'a [u8]);

impl<'a> Reader<'a> {
    fn take(&mut self, length: usize) -> &'a [u8] {
        let (front, rest) = self.0.split_at(length);
        self.0 = rest;
        front
    }

    fn array<const N: usize>(&mut self) -> [u8; N] {
        self.take(N).try_into().unwrap()
    }

    fn byte(&mut self) -> u8 {
        self.take(1)[0]
    }

    /// A byte that is at most `most`.
    fn byte_to(&mut self, most: usize) -> u8 {
        let byte = self.byte();
        assert!(usize::from(byte) <= most, "{byte} above {most}");
        byte
    }

    fn flag(&mut self) -> bool {
        self.byte_to(1) == 1
    }

    fn u32(&mut self) -> u32 {
        u32::from_le_bytes(self.array())
    }

    fn zeros(&mut self, length: usize) {
        assert!(self.take(length).iter().all(|byte| *byte == 0));
    }

    /// The byte that an item begins with, if there is one more.
    fn peek(&self) -> Option<u8> {
        self.0.first().copied()
    }

    fn start(&mut self) -> Start {
        assert_eq!(self.byte(), b'S');
        let threshold = self.u32();
        let unlimited = self.array();
        let limited = self.array();
        let present = self.flag();
        let minimum = self.u32();
        assert!(present || minimum == 0);
        let start = Start {
            threshold,
            unlimited,
            limited,
            minimum: present.then_some(minimum),
            ports: self.byte_to(16).into(),
            chargers: self.byte_to(8).into(),
        };
        self.zeros(2);
        start
    }

    fn capability(&mut self, provider: bool) -> Capability {
        let capability: Capability = self.array();
        let flags = capability[4];
        assert!(flags < 14 && !(provider && flags % 2 == 1));
        capability
    }

    /// The records and the outcome; the close, if it is one.
    fn call(&mut self, start: &Start, answer: u8) -> (Call, Option<Close>) {
        let ports: Vec<Psu> = (0..start.ports).map(|_| self.array()).collect();
        for port in &ports {
            assert_eq!(records::ask(records::READ_PSU, port)[25], 1);
        }
        let chargers: Vec<Charger> = (0..start.chargers).map(|_| self.array()).collect();
        for charger in &chargers {
            let mut input = [0; 18];
            input[..7].copy_from_slice(charger);
            assert_eq!(records::ask(records::READ_CHARGER, &input)[25], 1);
        }
        let mut call = Call {
            answer,
            ports,
            chargers,
            order: None,
        };
        let mut outcome = Reader(self.take(64));
        let close = match outcome.byte() {
            1 => {
                call.order = Some(outcome.0[..7].try_into().unwrap());
                let kind = outcome.byte();
                match kind {
                    1..=3 => assert!(usize::from(outcome.byte()) < start.ports),
                    4..=7 => assert!(usize::from(outcome.byte()) < start.chargers),
                    8 => outcome.zeros(1),
                    other => panic!("order {other}"),
                }
                match kind {
                    2 | 3 | 6 => {
                        outcome.capability(kind == 3);
                    }
                    _ => outcome.zeros(5),
                }
                outcome.zeros(56);
                None
            }
            2 => Some(outcome.close(start)),
            other => panic!("outcome {other}"),
        };
        assert_eq!(outcome.0, [0; 0]);
        (call, close)
    }

    fn port(&mut self, start: &Start) -> u8 {
        let port = self.byte();
        assert!(usize::from(port) < start.ports);
        port
    }

    fn close(&mut self, start: &Start) -> Close {
        let result = self.array();
        match result {
            [0..=10, 0, 0] | [4, 10, 0 | 2] | [4, 6, 0 | 3] => {}
            other => panic!("result {other:?}"),
        }
        let orders = self.byte_to(3 + 4 * start.chargers).into();
        let count = self.byte_to(4);
        let mut notices = Vec::new();
        for number in 0..4 {
            let mut notice = Reader(self.take(8));
            if number >= count {
                notice.zeros(8);
                continue;
            }
            notices.push(notice.0.try_into().unwrap());
            match notice.byte() {
                1 => {
                    notice.port(start);
                    notice.byte_to(6);
                }
                kind @ (2 | 4) => {
                    notice.port(start);
                    notice.capability(kind == 4);
                }
                3 => {
                    notice.port(start);
                }
                5 => {
                    notice.flag();
                    notice.byte_to(start.ports);
                }
                other => panic!("notice {other}"),
            }
            notice.zeros(notice.0.len());
        }
        let consumer = if self.flag() {
            Some((self.port(start), self.capability(false)))
        } else {
            self.zeros(6);
            None
        };
        let unconstrained = (self.flag(), self.byte_to(start.ports));
        let limited = self.flag();
        let tracked = self.byte_to(4).into();
        let ports = self.take(tracked);
        self.zeros(4 - tracked);
        assert!(ports.is_sorted_by(|one, next| one < next));
        assert!(ports.iter().all(|port| usize::from(*port) < start.ports));
        self.zeros(64 - 53);
        Close {
            result,
            orders,
            notices,
            held: Held {
                consumer,
                unconstrained,
                limited,
                providers: ports.iter().copied().collect(),
            },
        }
    }

    fn event(&mut self, start: &Start) -> Event {
        assert_eq!(self.byte(), b'O');
        let kind = self.byte_to(5);
        let device = self.byte();
        let devices = if kind == 5 {
            start.chargers
        } else {
            start.ports
        };
        assert!(usize::from(device) < devices);
        let detail = self.byte_to(match kind {
            3 => 6,
            5 => 1,
            _ => 0,
        });
        let mut calls = Vec::new();
        let (mut call, mut close) = self.call(start, 0);
        loop {
            calls.push(call);
            if let Some(close) = close {
                return Event {
                    kind,
                    device,
                    detail,
                    calls,
                    close,
                };
            }
            assert_eq!(self.byte(), b'A');
            let answer = self.byte_to(10);
            (call, close) = self.call(start, answer);
        }
    }
}

/// What came up.
#[derive(Default)]
struct Seen {
    runs: usize,
    events: usize,
    things: BTreeSet<String>,
}

impl Seen {
    fn add(&mut self, thing: impl Into<String>) {
        self.things.insert(thing.into());
    }

    fn add_if(&mut self, fact: bool, thing: &str) {
        if fact {
            self.add(thing);
        }
    }

    #[track_caller]
    fn expect(&self, things: impl IntoIterator<Item = String>) {
        let missing: Vec<String> = things
            .into_iter()
            .filter(|thing| !self.things.contains(thing))
            .collect();
        assert!(missing.is_empty(), "never came up: {missing:#?}");
    }
}

/// An order's failure or an InvalidState.
type Failure = [u8; 3];

const DETACHED: u8 = 0;
const IDLE: u8 = 1;
const PROVIDER: u8 = 2;
const CONSUMER: u8 = 3;

fn milliwatts(bytes: &[u8]) -> u32 {
    let figure = |at: usize| u32::from(bytes[at]) + 256 * u32::from(bytes[at + 1]);
    figure(0) * figure(2) / 1000
}

/// The consumer capability of a record.
fn offered(port: &Psu) -> Option<Capability> {
    (port[6] == 1).then(|| port[7..12].try_into().unwrap())
}

fn requested(port: &Psu) -> Option<Capability> {
    (port[12] == 1).then(|| port[13..18].try_into().unwrap())
}

/// The contract's mW of a port that provides.
fn provided(port: &Psu) -> u32 {
    if port[0] == PROVIDER {
        milliwatts(&port[1..5])
    } else {
        0
    }
}

/// A replay of one event by the requirements.
struct Replay<'a> {
    start: &'a Start,
    held: &'a mut Held,
    calls: &'a [Call],
    /// The number of the present call.
    at: usize,
    notices: Vec<[u8; 8]>,
    seen: &'a mut Seen,
}

impl<'a> Replay<'a> {
    fn now(&self) -> &'a Call {
        &self.calls[self.at]
    }

    /// The present call led to this order; the next one brings its answer.
    fn order(&mut self, kind: u8, device: u8, capability: Capability) -> Result<(), Failure> {
        let [v0, v1, c0, c1, flags] = capability;
        let order = [kind, device, v0, v1, c0, c1, flags];
        assert_eq!(self.now().order, Some(order));
        self.at += 1;
        let answer = self.now().answer;
        self.seen.add(format!("order {kind} answer {answer}"));
        match answer {
            0 => Ok(()),
            error => Err([error, 0, 0]),
        }
    }

    fn plain(&mut self, kind: u8, device: u8) -> Result<(), Failure> {
        self.order(kind, device, [0; 5])
    }

    fn notice(&mut self, bytes: &[u8]) {
        let mut notice = [0; 8];
        notice[..bytes.len()].copy_from_slice(bytes);
        self.notices.push(notice);
    }

    fn connected(&mut self, kind: u8, port: u8, capability: Capability) {
        let [v0, v1, c0, c1, flags] = capability;
        self.notice(&[kind, port, v0, v1, c0, c1, flags]);
    }

    /// InvalidState unless the port is in one of two states.
    fn check_state(&mut self, port: u8, one: u8, other: u8) -> Result<(), Failure> {
        let state = self.now().ports[usize::from(port)][0];
        if state == one || state == other {
            return Ok(());
        }
        let mask = 1 << one | 1 << other;
        let when = if self.at == 0 { "opening" } else { "reply" };
        self.seen
            .add(format!("mask {mask} actual {state} at {when}"));
        Err([4, mask, state])
    }

    fn set_power(&mut self, total: u32) {
        let limited = total > self.start.threshold;
        self.seen
            .add_if(total == self.start.threshold, "total is the threshold");
        self.seen
            .add(format!("limited {} to {limited}", self.held.limited));
        self.held.limited = limited;
    }

    fn event(&mut self, kind: u8, device: u8, detail: u8) -> Result<(), Failure> {
        match kind {
            1 => self.update(0),
            2 => self.provide(device),
            3 | 4 => {
                self.remove(device);
                self.update(if kind == 4 { 1 } else { detail })
            }
            _ => Ok(()),
        }
    }

    fn remove(&mut self, port: u8) {
        if !self.held.providers.remove(&port) {
            self.seen.add("untracked port removed");
            return;
        }
        self.seen.add("tracked port removed");
        self.set_power(self.now().ports.iter().map(provided).sum());
        self.notice(&[3, port]);
    }

    fn provide(&mut self, port: u8) -> Result<(), Failure> {
        let ports = &self.now().ports;
        let Some(request) = requested(&ports[usize::from(port)]) else {
            self.seen.add("no request");
            return Ok(());
        };
        let total = (0..).zip(ports).map(|(number, record)| {
            if number == port {
                milliwatts(&request)
            } else {
                provided(record)
            }
        });
        let was_limited = self.held.limited;
        self.set_power(total.sum());
        let changed = self.held.limited != was_limited;
        let figures: [u8; 4] = if self.held.limited {
            let above = milliwatts(&self.start.limited) > milliwatts(&request);
            self.seen.add(format!("limited grant above {above}"));
            self.start.limited
        } else if milliwatts(&request) < milliwatts(&self.start.unlimited) {
            self.seen.add("grant of the request");
            request[..4].try_into().unwrap()
        } else {
            self.seen.add("grant of unlimited");
            self.start.unlimited
        };
        let [v0, v1, c0, c1] = figures;
        let grant = [v0, v1, c0, c1, request[4]];
        let result = self
            .check_state(port, IDLE, PROVIDER)
            .and_then(|()| self.order(3, port, grant));
        self.seen
            .add_if(changed && result.is_err(), "power state set and failed");
        result?;
        let full = self.held.providers.len() == 4;
        let known = self.held.providers.contains(&port);
        self.seen.add(format!("full {full} tracked {known}"));
        if known || !full {
            self.held.providers.insert(port);
        }
        self.connected(4, port, grant);
        Ok(())
    }

    /// The earliest of the eligible ports with the greatest mW, the current one first.
    fn choose(&mut self) -> Option<(u8, Capability)> {
        let current = self.held.consumer.map(|(port, _)| port);
        let ports = &self.now().ports;
        let offers: Vec<(u8, Capability)> = (0..)
            .zip(ports)
            .filter_map(|(number, record)| Some((number, offered(record)?)))
            .collect();
        let eligible: Vec<_> = offers
            .iter()
            .copied()
            .filter(|(_, capability)| {
                self.start
                    .minimum
                    .is_none_or(|minimum| milliwatts(capability) >= minimum)
            })
            .collect();
        self.seen
            .add_if(eligible.len() < offers.len(), "under the minimum");
        self.seen.add_if(
            eligible
                .iter()
                .any(|(_, capability)| Some(milliwatts(capability)) == self.start.minimum),
            "at the minimum",
        );
        let most = eligible
            .iter()
            .map(|(_, capability)| milliwatts(capability))
            .max()?;
        let best: Vec<_> = eligible
            .into_iter()
            .filter(|(_, capability)| milliwatts(capability) == most)
            .collect();
        let place = best.iter().position(|(port, _)| Some(*port) == current);
        if best.len() > 1 {
            self.seen.add(match (current, place) {
                (None, _) => "tie without a current consumer",
                (Some(_), None) => "tie of others than the current consumer",
                (Some(_), Some(0)) => "tie, the current consumer first",
                (Some(_), Some(_)) => "tie, the current consumer later",
            });
        }
        let chosen = best[place.unwrap_or(0)];
        let state = ports[usize::from(chosen.0)][0];
        self.seen.add(format!("chosen in state {state}"));
        Some(chosen)
    }

    fn update(&mut self, reason: u8) -> Result<(), Failure> {
        let chosen = self.choose();
        match (chosen, self.held.consumer) {
            (None, None) => self.seen.add("none and none before"),
            (None, Some((port, _))) => {
                self.detach_chargers()?;
                self.seen.add(format!("lost for reason {reason}"));
                self.notice(&[1, port, reason]);
                self.held.consumer = None;
            }
            (Some((port, _)), current) if current == chosen => {
                let state = self.now().ports[usize::from(port)][0];
                self.seen.add(format!("unchanged in state {state}"));
            }
            (Some(new), current) => self.connect(new, current, reason)?,
        }

        let unconstrained = self
            .held
            .consumer
            .is_some_and(|(_, capability)| capability[4] & 1 == 1);
        let free: Vec<Capability> = self
            .now()
            .ports
            .iter()
            .filter_map(offered)
            .filter(|capability| capability[4] & 1 == 1)
            .collect();
        let available = free.len() as u8;
        let low = |capability: &Capability| Some(milliwatts(capability)) < self.start.minimum;
        self.seen
            .add_if(free.iter().any(low), "available under the minimum");
        let (was, before) = self.held.unconstrained;
        if (unconstrained, available) == (was, before) {
            self.seen.add("unconstrained figures the same");
        } else {
            self.seen.add(format!(
                "unconstrained changed {} available changed {}",
                unconstrained != was,
                available != before
            ));
            self.held.unconstrained = (unconstrained, available);
            self.notice(&[5, u8::from(unconstrained), available]);
        }
        Ok(())
    }

    fn detach_chargers(&mut self) -> Result<(), Failure> {
        for number in 0..self.start.chargers {
            let state = self.now().chargers[number][0];
            self.seen.add(format!("detach of charger in state {state}"));
            if state != 0 {
                self.plain(7, number as u8)?;
            }
        }
        Ok(())
    }

    fn connect(
        &mut self,
        (port, capability): (u8, Capability),
        current: Option<(u8, Capability)>,
        reason: u8,
    ) -> Result<(), Failure> {
        if let Some((old, _)) = current {
            self.held.consumer = None;
            let state = self.now().ports[usize::from(old)][0];
            self.seen.add(format!("disconnect in state {state}"));
            if state == CONSUMER {
                self.plain(1, old)?;
            }
            self.detach_chargers()?;
            let given = match (old == port, reason) {
                (true, _) => 3,
                (false, 0) => 2,
                (false, reason) => reason,
            };
            self.seen.add(format!(
                "disconnected, same port {}, event's reason {reason}",
                old == port
            ));
            self.notice(&[1, old, given]);
        } else {
            self.seen.add("connected, none before");
        }
        self.check_state(port, IDLE, CONSUMER)?;
        let by_now = offered(&self.now().ports[usize::from(port)]);
        self.seen
            .add_if(by_now != Some(capability), "chosen and changed by now");
        self.order(2, port, capability)?;
        self.held.consumer = Some((port, capability));
        self.plain(8, 0)?;
        for number in 0..self.start.chargers {
            let state = self.now().chargers[number][0];
            self.seen.add(format!("attach of charger in state {state}"));
            let number = number as u8;
            if state == 0 {
                self.plain(4, number)?;
                self.plain(5, number)?;
            }
            self.order(6, number, capability)?;
        }
        self.connected(2, port, capability);
        Ok(())
    }
}

/// Reads the stream and replays it.
fn replay(bytes: &[u8], seen: &mut Seen) {
    let mut reader = Reader(bytes);
    while reader.peek().is_some() {
        let start = reader.start();
        seen.runs += 1;
        seen.add(format!("ports {}", start.ports));
        seen.add(format!("chargers {}", start.chargers));
        seen.add(format!("minimum {}", start.minimum.is_some()));
        seen.add_if(start.threshold == 0, "threshold least");
        seen.add_if(start.threshold == u32::MAX, "threshold most");
        let mut held = Held::default();
        while reader.peek() == Some(b'O') {
            let event = reader.event(&start);
            seen.events += 1;
            let mut replay = Replay {
                start: &start,
                held: &mut held,
                calls: &event.calls,
                at: 0,
                notices: Vec::new(),
                seen,
            };
            let result = replay.event(event.kind, event.device, event.detail);
            let close = Close {
                result: result.err().unwrap_or_default(),
                orders: replay.at,
                notices: replay.notices,
                held: replay.held.clone(),
            };
            assert_eq!(replay.at + 1, event.calls.len(), "calls after the close");
            assert_eq!(close, event.close);

            seen.add(format!("event {}", event.kind));
            seen.add(format!("close {}", close.result[0]));
            seen.add_if(close.result == [4, 0, 0], "InvalidState of a device");
            for notice in &close.notices {
                seen.add(format!("notice {}", notice[0]));
            }
            seen.add(format!("{} notices", close.notices.len()));
            seen.add(format!("{} tracked", held.providers.len()));
            seen.add_if(
                close.orders == 3 + 4 * start.chargers,
                &format!("most orders with {} chargers", start.chargers),
            );
            seen.add_if(
                event
                    .calls
                    .windows(2)
                    .any(|calls| calls[0].ports != calls[1].ports),
                "records changed",
            );
        }
    }
}

/// What every stream has.
fn common() -> Vec<String> {
    let mut all = Vec::new();
    all.extend((0..=10).map(|answer| format!("close {answer}")));
    all.extend((1..=5).map(|kind| format!("notice {kind}")));
    all.extend((0..=3).map(|count| format!("{count} notices")));
    all.extend((0..=2).map(|count| format!("{count} tracked")));
    for kind in 1..=3 {
        all.extend((0..=10).map(|answer| format!("order {kind} answer {answer}")));
    }
    for kind in 4..=7 {
        all.extend([0, 9].map(|answer| format!("order {kind} answer {answer}")));
    }
    for when in ["opening", "reply"] {
        all.push(format!("mask 10 actual {DETACHED} at {when}"));
        all.push(format!("mask 10 actual {PROVIDER} at {when}"));
    }
    all.push(format!("mask 6 actual {DETACHED} at opening"));
    all.push(format!("mask 6 actual {CONSUMER} at opening"));
    all.extend((0..=5).map(|kind| format!("event {kind}")));
    for state in 0..=3 {
        all.push(format!("chosen in state {state}"));
        all.push(format!("unchanged in state {state}"));
        all.push(format!("disconnect in state {state}"));
    }
    for state in 0..=1 {
        all.push(format!("detach of charger in state {state}"));
        all.push(format!("attach of charger in state {state}"));
    }
    for from in [false, true] {
        for to in [false, true] {
            all.push(format!("limited {from} to {to}"));
        }
    }
    for (unconstrained, available) in [(true, true), (true, false), (false, true)] {
        all.push(format!(
            "unconstrained changed {unconstrained} available changed {available}"
        ));
    }
    all.extend(
        [
            "order 8 answer 0",
            "InvalidState of a device",
            "minimum true",
            "minimum false",
            "under the minimum",
            "available under the minimum",
            "unconstrained figures the same",
            "tie without a current consumer",
            "tie, the current consumer first",
            "tie, the current consumer later",
            "none and none before",
            "connected, none before",
            "lost for reason 0",
            "disconnected, same port true, event's reason 0",
            "disconnected, same port false, event's reason 0",
            "disconnected, same port false, event's reason 1",
            "chosen and changed by now",
            "records changed",
            "most orders with 0 chargers",
            "most orders with 1 chargers",
            "no request",
            "limited grant above true",
            "grant of the request",
            "grant of unlimited",
            "power state set and failed",
            "full false tracked false",
            "full false tracked true",
            "tracked port removed",
            "untracked port removed",
        ]
        .map(String::from),
    );
    all
}

/// What larger worlds have as well.
fn large() -> Vec<String> {
    let mut all = common();
    all.extend((0..=16).map(|count| format!("ports {count}")));
    all.extend((0..=8).map(|count| format!("chargers {count}")));
    for reason in 0..=6 {
        all.push(format!("lost for reason {reason}"));
        all.push(format!(
            "disconnected, same port false, event's reason {reason}"
        ));
    }
    all.extend((2..=3).map(|state| format!("detach of charger in state {state}")));
    all.extend((2..=3).map(|state| format!("attach of charger in state {state}")));
    all.extend((3..=4).map(|count| format!("{count} tracked")));
    all.extend(
        [
            "threshold least",
            "threshold most",
            "4 notices",
            "at the minimum",
            "total is the threshold",
            "tie of others than the current consumer",
            "disconnected, same port true, event's reason 1",
            "limited grant above false",
            "full true tracked false",
            "full true tracked true",
        ]
        .map(String::from),
    );
    all
}

fn replayed(runs: impl IntoIterator<Item = Run>) -> Seen {
    let mut seen = Seen::default();
    for run in runs {
        replay(&stream::bytes(&run), &mut seen);
    }
    seen
}

#[test]
fn sample_stream() {
    // The runs made by hand have every branch.
    replayed(scenario::runs()).expect(large());
    let sample: Vec<Vec<u8>> = scenario::sample().iter().map(stream::bytes).collect();
    let bytes = sample.concat();
    assert!((250_000..=300_000).contains(&bytes.len()));
    let mut seen = Seen::default();
    replay(&bytes, &mut seen);
    seen.expect(large());
    let again: Vec<Vec<u8>> = scenario::sample().iter().map(stream::bytes).collect();
    assert_eq!(sample, again);
    let mut counts = check::Counts::default();
    for run in scenario::sample() {
        check::check(&run, &mut counts).unwrap();
    }
    assert_eq!(counts.missing(), Vec::<String>::new());
    assert_eq!(counts.most_orders, 35);
}

#[test]
fn random_stream() {
    let seen = replayed(random::Runs::new(1).take(5000));
    assert!(seen.events > 50_000);
    seen.expect(large());
}

#[test]
fn exhaustive_stream() {
    let seen = replayed(exhaustive::runs());
    assert!((50_000..=500_000).contains(&seen.events), "{}", seen.events);
    seen.expect(common());
}

/// An event and its records at the opening, as the stream has them.
fn opening(event: &Event) -> (u8, u8, u8, &[Psu], &[Charger]) {
    let call = &event.calls[0];
    (
        event.kind,
        event.device,
        event.detail,
        &call.ports,
        &call.chargers,
    )
}

/// All the events of the runs with this minimum and so many chargers.
fn exhaustive_events(minimum: Option<u32>, chargers: usize) -> Vec<Vec<Event>> {
    let mut all = Vec::new();
    for run in exhaustive::runs() {
        if run.config.min_consumer_threshold_mw != minimum || run.chargers != chargers {
            continue;
        }
        let bytes = stream::bytes(&run);
        let mut reader = Reader(&bytes);
        let start = reader.start();
        let mut events = Vec::new();
        while reader.peek().is_some() {
            events.push(reader.event(&start));
        }
        all.push(events);
    }
    all
}

/// Every sequence of openings is there, and no run twice.
#[test]
fn exhaustive_sequences() {
    for (chargers, length, openings) in [(0, 3, 5 * 4), (1, 2, 5 * 3)] {
        let runs = exhaustive_events(None, chargers);
        let mut firsts = BTreeSet::new();
        let mut sequences = BTreeSet::new();
        let mut answers = BTreeSet::new();
        for events in &runs {
            assert_eq!(events.len(), length);
            let sequence: Vec<_> = events.iter().map(opening).collect();
            firsts.insert(sequence[0]);
            let replies: Vec<Vec<bool>> = events
                .iter()
                .map(|event| event.calls.iter().map(|call| call.answer == 0).collect())
                .collect();
            assert!(answers.insert((sequence.clone(), replies)), "a run twice");
            sequences.insert(sequence);
        }
        assert_eq!(firsts.len(), openings);
        assert_eq!(sequences.len(), openings.pow(length as u32));
    }
}

/// Every opening is there on everything that is held at any close.
#[test]
fn exhaustive_states() {
    // Kinds 1 to 4, of which all but the first come from either port, with every choice of records;
    // Attached and the charger's two with one.
    for (minimum, chargers, openings) in [(7500, 0, 7 * 36 + 1), (15_000, 1, 7 * 8 + 1 + 2)] {
        let runs = exhaustive_events(Some(minimum), chargers);
        let mut states = BTreeSet::from([key(&Held::default())]);
        let mut opened = BTreeSet::new();
        for events in &runs {
            let mut held = key(&Held::default());
            for event in events {
                opened.insert((held, opening(event)));
                held = key(&event.close.held);
                states.insert(held.clone());
            }
        }
        assert!(states.len() > 50, "{}", states.len());
        assert_eq!(opened.len(), states.len() * openings);
    }
}

/// What is held, as something that has an order.
fn key(held: &Held) -> String {
    format!("{held:?}")
}

/// A stream written by hand.
#[test]
fn stream_by_hand() {
    let port: Psu = [
        1, 0, 0, 0, 0, 0, 1, 0x88, 0x13, 0xB8, 0x0B, 3, 0, 0, 0, 0, 0, 0,
    ];
    let gone: Psu = [
        0, 0, 0, 0, 0, 0, 0, 0, 0, 0, 0, 0, 1, 0x88, 0x13, 0xB8, 0x0B, 2,
    ];
    let charger: Charger = [1, 0, 0, 0, 0, 0, 0];
    let records = |port: &Psu| driver::Records {
        ports: vec![record::psu_from_bytes(port)],
        chargers: vec![record::charger_from_bytes(&charger)],
    };
    let mut session = Session::start(driver::Config::default(), 1, 1);
    let updated = driver::Event::UpdatedConsumerCapability { port: 0 };
    let mut answers = [0, 0, 9].into_iter();
    session.event(updated, &records(&port), |_order| {
        (answers.next().unwrap(), records(&port))
    });
    session.event(updated, &records(&port), |_order| panic!("no order"));
    let requested = driver::Event::RequestedProviderCapability { port: 0 };
    session.event(requested, &records(&gone), |_order| panic!("no order"));
    let lost = driver::Event::Disconnected {
        port: 0,
        reason: record::REASONS[6],
    };
    session.event(lost, &records(&gone), |_order| (0, records(&gone)));

    let mut expected = vec![b'S', 0x98, 0x3A, 0, 0, 0x88, 0x13, 0xB8, 0x0B];
    expected.extend([0x88, 0x13, 0xDC, 0x05, 0, 0, 0, 0, 0, 1, 1, 0, 0]);
    let mut call = |head: &[u8], port: &Psu, outcome: &[(usize, &[u8])]| {
        expected.extend(head);
        expected.extend(port);
        expected.extend(charger);
        let mut bytes = [0; 64];
        for (place, part) in outcome {
            bytes[*place..place + part.len()].copy_from_slice(part);
        }
        expected.extend(bytes);
    };
    let consumer: &[u8] = &[1, 0, 0x88, 0x13, 0xB8, 0x0B, 3];
    let connect: &[u8] = &[1, 2, 0, 0x88, 0x13, 0xB8, 0x0B, 3];
    let attach: &[u8] = &[1, 6, 0, 0x88, 0x13, 0xB8, 0x0B, 3];
    call(b"O\x01\x00\x00", &port, &[(0, connect)]);
    call(b"A\x00", &port, &[(0, &[1, 8])]);
    call(b"A\x00", &port, &[(0, attach)]);
    // Failed: three orders, no notice, and the consumer is held.
    call(b"A\x09", &port, &[(0, &[2, 9, 0, 0, 3, 0]), (38, consumer)]);
    // The figures follow.
    let notice: &[u8] = &[2, 0, 0, 0, 0, 1, 5, 1, 1];
    call(
        b"O\x01\x00\x00",
        &port,
        &[(0, notice), (38, consumer), (45, &[1, 1])],
    );
    // Detached, and Idle or ConnectedProvider is expected.
    call(
        b"O\x02\x00\x00",
        &gone,
        &[(0, &[2, 4, 6]), (38, consumer), (45, &[1, 1])],
    );
    call(b"O\x03\x00\x06", &gone, &[(0, &[1, 7])]);
    // Two notices.
    let notices: &[u8] = &[2, 0, 0, 0, 1, 2, 1, 0, 6, 0, 0, 0, 0, 0, 5, 0, 0];
    call(b"A\x00", &gone, &[(0, notices)]);
    assert_eq!(stream::bytes(&session.finish()), expected);
}
