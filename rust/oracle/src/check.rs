//! Checks of random runs that need no second implementation, and counts of what came up.

use std::{collections::BTreeMap, fmt};

use power_policy_interface::{capability::PowerCapabilityFlags, charger};

use crate::{
    driver::{Event, Held, Ignored, Machine, Notice, Order, OrderKind, Step},
    random::Runs,
    record,
    run::{EventRun, Run},
};

/// How often each thing came up.
#[derive(Debug, Default)]
pub struct Counts {
    pub runs: usize,
    pub events: BTreeMap<u8, usize>,
    pub orders: BTreeMap<OrderKind, usize>,
    pub notices: BTreeMap<u8, usize>,
    /// Closes by their answer byte.
    pub closes: BTreeMap<u8, usize>,
    pub most_orders: usize,
    pub most_notices: usize,
}

impl Counts {
    pub fn all_events(&self) -> usize {
        self.events.values().sum()
    }

    fn add(&mut self, event: &EventRun) {
        *self.events.entry(event.event.kind()).or_default() += 1;
        for exchange in &event.exchanges {
            *self.orders.entry(exchange.order.kind).or_default() += 1;
        }
        for notice in &event.notices {
            *self.notices.entry(notice.kind()).or_default() += 1;
        }
        let [byte, _, _] = record::result_to_bytes(&event.answer);
        *self.closes.entry(byte).or_default() += 1;
        self.most_orders = self.most_orders.max(event.orders);
        self.most_notices = self.most_notices.max(event.notices.len());
    }

    /// What never came up.
    pub fn missing(&self) -> Vec<String> {
        let mut missing = Vec::new();
        for kind in 0..=5 {
            if !self.events.contains_key(&kind) {
                missing.push(format!("event kind {kind}"));
            }
        }
        for kind in [
            OrderKind::Disconnect,
            OrderKind::ConnectConsumer,
            OrderKind::ConnectProvider,
            OrderKind::IsReady,
            OrderKind::InitCharger,
            OrderKind::Attach,
            OrderKind::Detach,
            OrderKind::Wait,
        ] {
            if !self.orders.contains_key(&kind) {
                missing.push(format!("order {kind:?}"));
            }
        }
        for kind in 1..=5 {
            if !self.notices.contains_key(&kind) {
                missing.push(format!("notice {kind}"));
            }
        }
        for byte in 0..=10 {
            if !self.closes.contains_key(&byte) {
                missing.push(format!("close {byte}"));
            }
        }
        missing
    }
}

impl fmt::Display for Counts {
    fn fmt(&self, f: &mut fmt::Formatter<'_>) -> fmt::Result {
        writeln!(f, "runs {}, events {}", self.runs, self.all_events())?;
        writeln!(f, "events by kind {:?}", self.events)?;
        writeln!(f, "orders {:?}", self.orders)?;
        writeln!(f, "notices by kind {:?}", self.notices)?;
        writeln!(f, "closes by answer {:?}", self.closes)?;
        writeln!(
            f,
            "most orders {}, most notices {}",
            self.most_orders, self.most_notices
        )
    }
}

/// Fails with a message unless `fact`.
fn ensure(fact: bool, message: &str) -> Result<(), String> {
    if fact { Ok(()) } else { Err(message.into()) }
}

/// What the notices make of what was held before: all but the power state.
fn follow(before: &Held, notices: &[Notice]) -> Held {
    let mut held = before.clone();
    for notice in notices {
        match *notice {
            Notice::ConsumerDisconnected { .. } => held.consumer = None,
            Notice::ConsumerConnected { port, capability } => {
                held.consumer = Some((port, capability));
            }
            Notice::ProviderDisconnected { port } => held.providers.retain(|one| *one != port),
            Notice::ProviderConnected { port, .. } => {
                if !held.providers.contains(&port) && held.providers.len() < 4 {
                    held.providers.push(port);
                    held.providers.sort();
                }
            }
            Notice::Unconstrained(state) => held.unconstrained = state,
        }
    }
    held
}

fn check_event(run: &Run, before: &Held, event: &EventRun) -> Result<(), String> {
    let held = &event.held;
    ensure(
        event.orders == event.exchanges.len(),
        "the orders are counted wrong",
    )?;
    ensure(event.orders <= 3 + 4 * run.chargers, "too many orders")?;
    ensure(event.notices.len() <= 4, "too many notices")?;
    ensure(held.providers.len() <= 4, "too many providers")?;

    let [byte, expected, _] = record::result_to_bytes(&event.answer);
    let failed = event
        .exchanges
        .iter()
        .position(|exchange| exchange.answer != 0);
    match failed {
        Some(place) => {
            ensure(place + 1 == event.orders, "an order after a failed one")?;
            ensure(
                byte == event.exchanges[place].answer,
                "a failed order and another answer",
            )?;
        }
        None => ensure(
            byte == 0 || (byte == 4 && expected != 0),
            "an error that comes from nowhere",
        )?,
    }

    if byte == 0 {
        let mut followed = follow(before, &event.notices);
        followed.power = held.power;
        ensure(followed == *held, "the notices do not lead to what is held")?;
    } else {
        let unconstrained = event
            .notices
            .iter()
            .any(|notice| matches!(notice, Notice::Unconstrained(_)));
        ensure(
            !unconstrained && before.unconstrained == held.unconstrained,
            "the unconstrained figures changed in spite of an error",
        )?;
    }
    if matches!(event.event, Event::Attached { .. } | Event::Charger { .. }) {
        ensure(
            byte == 0 && event.orders == 0 && event.notices.is_empty() && before == held,
            "an event without effect had one",
        )?;
    }
    Ok(())
}

/// What has to be held while the order is open.
fn check_order(before: &Held, order: &Order, held: &Held) -> Result<(), String> {
    let fact = match order.kind {
        OrderKind::Disconnect | OrderKind::ConnectConsumer => held.consumer.is_none(),
        OrderKind::Detach => held.consumer.is_none() || held.consumer == before.consumer,
        OrderKind::Wait | OrderKind::IsReady | OrderKind::InitCharger => held.consumer.is_some(),
        OrderKind::Attach => {
            let capability = held.consumer.map(|(_port, capability)| capability);
            order.capability == capability.map(PowerCapabilityFlags::Consumer)
        }
        OrderKind::ConnectProvider => {
            held.consumer == before.consumer && held.providers == before.providers
        }
    };
    ensure(fact, "another consumer is held while the order is open")?;
    ensure(
        held.unconstrained == before.unconstrained,
        "the unconstrained figures changed before the last order",
    )
}

/// A second machine, which differs only in what should make no difference and whose state is read
/// at every order, takes the same steps.
fn check_again(run: &Run, ignored: Ignored) -> Result<(), String> {
    let mut machine = Machine::start(run.config, run.ports, run.chargers);
    machine.set_ignored(ignored);
    for event in &run.events {
        let before = machine.held();
        let mut step = machine.open(event.event, &event.records);
        for exchange in &event.exchanges {
            ensure(step == Step::Order(exchange.order), "another order")?;
            check_order(&before, &exchange.order, &machine.held())?;
            step = machine.answer(exchange.answer, &exchange.records);
        }
        let closed = Step::Closed {
            answer: event.answer,
            notices: event.notices.clone(),
            orders: event.orders,
        };
        ensure(step == closed, "another close")?;
        ensure(machine.held() == event.held, "another state held")?;
    }
    Ok(())
}

/// Checks a run and counts it.
pub fn check(run: &Run, counts: &mut Counts) -> Result<(), String> {
    counts.runs += 1;
    let mut before = Machine::start(run.config, run.ports, run.chargers).held();
    for (number, event) in run.events.iter().enumerate() {
        check_event(run, &before, event).map_err(|message| format!("{message}: {event:#?}"))?;
        check_from(run, &before, number)
            .map_err(|message| format!("started at what was held, {message}: {event:#?}"))?;
        counts.add(event);
        before = event.held.clone();
    }
    check_again(
        run,
        Ignored {
            payload: false,
            init: charger::PsuState::Detached,
        },
    )
    .map_err(|message| format!("a second time, {message}"))
}

/// What is held decides the event: a machine that starts there takes the same steps.
fn check_from(run: &Run, before: &Held, number: usize) -> Result<(), String> {
    let event = &run.events[number];
    let mut machine = Machine::start_at(run.config, run.ports, run.chargers, before);
    ensure(machine.held() == *before, "another state is held")?;
    let mut step = machine.open(event.event, &event.records);
    for exchange in &event.exchanges {
        ensure(step == Step::Order(exchange.order), "another order")?;
        step = machine.answer(exchange.answer, &exchange.records);
    }
    ensure(
        matches!(step, Step::Closed { answer, .. } if answer == event.answer)
            && machine.held() == event.held,
        "another close",
    )
}

/// Runs with at least this many events.
pub fn demo(seed: u64, events: usize) -> Result<Counts, String> {
    let mut counts = Counts::default();
    let mut runs = Runs::new(seed);
    while counts.all_events() < events {
        let run = runs.next().expect("runs are endless");
        check(&run, &mut counts)?;
    }
    Ok(counts)
}
