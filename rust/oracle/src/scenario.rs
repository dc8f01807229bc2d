//! Runs made by hand: every branch of the service, in few events.

use power_policy_interface::{
    capability::{ConsumerPowerCapability, DisconnectReason, PowerCapability},
    charger,
    psu::{self, PsuState},
};

use crate::{
    driver::{CHARGER_ERROR, Config, Event, MAX_CHARGERS, MAX_PORTS, Order, OrderKind, Records},
    random::Runs,
    record::REASONS,
    run::{Run, Session, obey},
    stream,
    values::*,
};

const UPDATED: Event = Event::UpdatedConsumerCapability { port: 0 };

fn requested(port: u8) -> Event {
    Event::RequestedProviderCapability { port }
}

fn detached(port: u8) -> Event {
    Event::Detached { port }
}

fn disconnected(port: u8, reason: Option<DisconnectReason>) -> Event {
    Event::Disconnected { port, reason }
}

fn idle() -> psu::State {
    port(PsuState::Idle)
}

/// An Idle port with this consumer capability.
fn offer(capability: ConsumerPowerCapability) -> psu::State {
    offering(idle(), capability)
}

/// An Idle port with a request of so many mV and mA.
fn request(voltage_mv: u16, current_ma: u16, flags: u8) -> psu::State {
    requesting(idle(), provider(voltage_mv, current_ma, flags))
}

/// A port that provides so many mV and mA.
fn providing(voltage_mv: u16, current_ma: u16) -> psu::State {
    let contract = provider(voltage_mv, current_ma, 2);
    port(PsuState::ConnectedProvider(contract))
}

/// A session with its present records, which are changed between events.
struct Play {
    session: Session,
    records: Records,
}

impl Play {
    fn start(config: Config, ports: &[psu::State], chargers: &[charger::State]) -> Self {
        Self {
            session: Session::start(config, ports.len(), chargers.len()),
            records: Records {
                ports: ports.to_vec(),
                chargers: chargers.to_vec(),
            },
        }
    }

    /// An event whose devices do as they are told.
    fn event(&mut self, event: Event) {
        self.answered(event, &[]);
    }

    /// An event with these answers to its first orders and 0 to the rest. A device obeys unless it
    /// answers with an error.
    fn answered(&mut self, event: Event, answers: &[u8]) {
        let mut answers = answers.iter();
        self.replied(event, |order, records| {
            let answer = *answers.next().unwrap_or(&0);
            if answer == 0 {
                obey(records, order);
            }
            answer
        });
    }

    /// An event whose answers come from `reply`, which may change the records.
    fn replied(&mut self, event: Event, mut reply: impl FnMut(&Order, &mut Records) -> u8) {
        let records = &mut self.records;
        let opening = records.clone();
        self.session.event(event, &opening, |order| {
            let answer = reply(order, records);
            (answer, records.clone())
        });
    }

    fn finish(self) -> Run {
        self.session.finish()
    }
}

/// Every error on every order of a PSU.
fn failing_psus() -> Run {
    let low = consumer(5000, 3000, 2);
    let high = consumer(20000, 3000, 4);
    let mut play = Play::start(Config::default(), &[offer(low), request(5000, 500, 2)], &[]);
    play.event(UPDATED);
    for error in 1..=10 {
        play.answered(requested(1), &[error]);
        // The old consumer cannot be disconnected, then the new one not be connected.
        play.records.ports[1].consumer_capability = Some(high);
        play.answered(UPDATED, &[error]);
        play.answered(UPDATED, &[error]);
        play.event(UPDATED);
        // Back to the old one, which cannot be connected at first.
        play.records.ports[1].consumer_capability = None;
        play.answered(UPDATED, &[0, error]);
        play.event(UPDATED);
    }
    play.finish()
}

/// A switch in which each order fails in turn.
fn failing_chargers(chargers: usize) -> Run {
    let low = consumer(5000, 3000, 3);
    let high = consumer(20000, 3000, 5);
    let chargers = vec![unpowered(); chargers];
    let mut play = Play::start(Config::default(), &[idle(), idle()], &chargers);
    for failing in 0..3 + 4 * chargers.len() {
        play.records.ports = vec![offer(low), idle()];
        play.event(UPDATED);
        play.records.ports[1] = offer(high);
        let mut number = 0;
        play.replied(UPDATED, |order, records| {
            number += 1;
            if number == failing + 1 && order.kind != OrderKind::Wait {
                return CHARGER_ERROR;
            }
            obey(records, order);
            // The power is gone for a while.
            if order.kind == OrderKind::ConnectConsumer {
                records.chargers.fill(unpowered());
            }
            0
        });
        play.event(UPDATED);
        // No port is eligible any more. If a charger fails then, the consumer stays.
        play.records.ports = vec![idle(); 2];
        play.records.chargers.fill(powered());
        if failing < chargers.len() {
            let mut answers = vec![0; failing];
            answers.push(CHARGER_ERROR);
            play.answered(UPDATED, &answers);
        }
        play.event(UPDATED);
    }
    play.finish()
}

/// Which port is chosen: ties, the current one, the minimum, and states that cannot be connected.
fn choices() -> Vec<Run> {
    let fifteen = consumer(5000, 3000, 2);
    let same = consumer(15000, 1000, 2);
    let more = consumer(5000, 3001, 2);

    let mut play = Play::start(
        Config::default(),
        &[offer(fifteen), idle(), offer(same)],
        &[powered()],
    );
    // Equal, none current: the earlier one, which stays.
    play.event(UPDATED);
    play.event(UPDATED);
    // More on another: a switch. Less again: a renegotiation, and the current one is kept.
    play.records.ports[2].consumer_capability = Some(more);
    play.event(UPDATED);
    play.records.ports[2].consumer_capability = Some(same);
    play.event(UPDATED);
    // The same in mW and another in mV; another PSU type; another flag.
    play.records.ports[2].consumer_capability = Some(fifteen);
    play.event(UPDATED);
    for flags in [4, 5, 13] {
        play.records.ports[2].consumer_capability = Some(consumer(5000, 3000, flags));
        play.event(detached(1));
    }
    // Nothing happens to an unchanged consumer that went Idle, or that provides by now.
    play.records.ports[2].psu_state = PsuState::Idle;
    play.event(UPDATED);
    play.records.ports[2].psu_state = PsuState::ConnectedProvider(provider(5000, 1500, 2));
    play.event(UPDATED);
    play.records.ports[2].psu_state = PsuState::Detached;
    play.event(UPDATED);
    // It is not disconnected on a switch unless it consumes.
    play.records.ports[1] = offer(more);
    play.event(UPDATED);
    // Two others offer more.
    play.records.ports[0] = offer(consumer(20000, 3000, 2));
    play.records.ports[2] = offer(consumer(12000, 5000, 2));
    play.event(UPDATED);
    // A port that provides is chosen and cannot be connected; then one that is Detached.
    for state in [
        PsuState::ConnectedProvider(provider(5000, 1500, 0)),
        PsuState::Detached,
    ] {
        play.records.ports[0] = offering(port(state), consumer(20000, 5000, 1));
        play.event(UPDATED);
        play.event(UPDATED);
    }
    // None is eligible, and there is no consumer to lose.
    play.records.ports.fill(idle());
    play.event(UPDATED);
    // No power at all is a capability too.
    play.records.ports[1] = offer(consumer(0, 0, 1));
    play.event(UPDATED);
    let first = play.finish();

    let mut config = Config::default();
    config.min_consumer_threshold_mw = Some(7500);
    let mut play = Play::start(config, &[idle(), idle()], &[powered()]);
    for (voltage_mv, flags) in [(7499, 1), (7500, 1), (7499, 0), (7499, 1), (7500, 0)] {
        // Under the minimum it is not eligible, and yet available.
        play.records.ports[1] = offer(consumer(voltage_mv, 1000, flags));
        play.event(UPDATED);
    }
    vec![first, play.finish()]
}

/// A consumer is lost for each reason, without and with another to switch to.
fn reasons() -> Vec<Run> {
    let high = consumer(20000, 3000, 3);
    let low = consumer(9000, 2000, 7);
    let mut runs = Vec::new();
    for second in [idle(), offer(low)] {
        let mut play = Play::start(
            Config::default(),
            &[idle(), second],
            &[initialized(charger::PsuState::Detached), unpowered()],
        );
        let events = REASONS
            .map(|reason| disconnected(0, reason))
            .into_iter()
            .chain([detached(0), UPDATED]);
        for event in events {
            play.records.ports[0] = offer(high);
            play.event(UPDATED);
            play.records.ports[0] = idle();
            play.event(event);
        }
        runs.push(play.finish());
    }
    runs
}

/// Records that change while an event is open.
fn turning() -> Run {
    let low = consumer(5000, 3000, 2);
    let high = consumer(20000, 3000, 3);
    let mut play = Play::start(Config::default(), &[idle(), idle()], &[powered(); 2]);
    let mut switch = |turn: &dyn Fn(&Order, &mut Records)| {
        play.records.ports = vec![offer(low), idle()];
        play.records.chargers.fill(powered());
        play.event(UPDATED);
        play.records.ports[1] = offer(high);
        play.replied(UPDATED, |order, records| {
            obey(records, order);
            turn(order, records);
            0
        });
        play.records.ports.fill(idle());
        play.event(UPDATED);
    };
    // The new port can no longer be connected.
    for state in [
        PsuState::Detached,
        PsuState::ConnectedProvider(provider(5000, 500, 0)),
        PsuState::ConnectedConsumer(low),
    ] {
        switch(&|order, records| {
            if order.kind == OrderKind::Detach {
                records.ports[1].psu_state = state;
            }
        });
    }
    // What is chosen stays, whatever is offered by now; the last records are counted.
    switch(&|_order, records| records.ports = vec![offer(high), offer(low)]);
    switch(&|_order, records| records.ports.fill(idle()));
    // A charger is looked at when its turn comes.
    for kind in [OrderKind::Disconnect, OrderKind::Wait, OrderKind::Attach] {
        for number in 0..2 {
            switch(&|order, records| {
                if order.kind == kind {
                    records.chargers[number] = unpowered();
                }
            });
        }
    }
    play.finish()
}

/// Grants in both power states, and what is tracked.
fn providers() -> Vec<Run> {
    let mut play = Play::start(Config::default(), &[idle(); 6], &[]);
    // No request.
    play.event(requested(0));
    // Alone: below the unlimited power, equal to it at another voltage, above it.
    for (flags, (voltage_mv, current_ma)) in
        (0..)
            .step_by(2)
            .zip([(5000, 2999), (15000, 1000), (5000, 3001)])
    {
        play.records.ports[0] = request(voltage_mv, current_ma, flags);
        play.event(requested(0));
        play.records.ports[0] = idle();
        play.event(detached(0));
    }
    // Beside a contract: the total is equal to the threshold, then above it.
    play.records.ports[1] = providing(5000, 2900);
    for (flags, current_ma) in [(6, 100), (8, 101)] {
        play.records.ports[2] = request(5000, current_ma, flags);
        play.event(requested(2));
    }
    // A port that provides counts by its request.
    play.records.ports[2] = requesting(providing(20000, 3000), provider(5000, 100, 10));
    play.event(requested(2));
    // What is left after a removal: above the threshold, then equal to it.
    play.records.ports[1] = providing(5000, 3001);
    play.event(disconnected(2, Some(DisconnectReason::RoleSwap)));
    play.records.ports[2] = requesting(idle(), provider(5000, 100, 12));
    play.event(requested(2));
    play.records.ports[1] = providing(5000, 3000);
    play.records.ports[2] = idle();
    play.event(detached(2));
    play.event(detached(2));
    // States that cannot be connected and a failed connect; the power state is set all the same.
    for state in [
        PsuState::Detached,
        PsuState::ConnectedConsumer(consumer(5000, 500, 0)),
    ] {
        for current_ma in [1, 0] {
            play.records.ports[3] = requesting(port(state), provider(5000, current_ma, 2));
            play.event(requested(3));
        }
    }
    for current_ma in [1, 0] {
        play.records.ports[3] = request(5000, current_ma, 2);
        play.answered(requested(3), &[2]);
    }
    let first = play.finish();

    // Five of them: the fifth has its notice and is not tracked.
    let mut play = Play::start(Config::default(), &[request(1000, 1000, 2); 6], &[]);
    for port in [5, 3, 0, 4, 1] {
        play.event(requested(port));
    }
    // Again, one that is tracked and one that is not.
    for port in [4, 1] {
        play.event(requested(port));
    }
    // Only one that is tracked makes room, for whichever comes first.
    for port in [1, 3] {
        play.event(detached(port));
    }
    for port in [1, 3, 2] {
        play.event(requested(port));
    }
    for port in 0..6 {
        play.event(disconnected(port, None));
    }
    vec![first, play.finish()]
}

/// The unconstrained figures.
fn unconstrained() -> Run {
    let free = consumer(20000, 3000, 1);
    let mut play = Play::start(Config::default(), &[idle(); 3], &[powered()]);
    // The consumer is connected, and its charger fails: no notice, and the figures stay. The next
    // update has nothing to connect and gives them.
    play.records.ports[1] = offer(free);
    play.answered(UPDATED, &[0, 0, CHARGER_ERROR]);
    play.event(UPDATED);
    play.event(UPDATED);
    // More and fewer are available.
    play.records.ports[0] = offer(consumer(1, 1, 1));
    play.event(UPDATED);
    play.records.ports[0] = offer(consumer(1, 1, 0));
    play.event(UPDATED);
    // As many are available, and the consumer is another.
    play.records.ports[0] = offer(consumer(65535, 65535, 12));
    play.event(UPDATED);
    // An event that does not update leaves them.
    play.records.ports[2] = offer(consumer(1, 1, 1));
    play.event(Event::Attached { port: 2 });
    play.event(requested(2));
    play.event(detached(2));
    play.finish()
}

/// As many ports, chargers, orders and notices as there can be.
fn largest() -> Run {
    let mut play = Play::start(
        Config::default(),
        &[request(1000, 100, 2); MAX_PORTS],
        &[powered(); MAX_CHARGERS],
    );
    play.records.ports[0].consumer_capability = Some(consumer(5000, 3000, 3));
    play.event(UPDATED);
    play.event(requested(15));
    for port in &mut play.records.ports {
        port.consumer_capability = Some(consumer(20000, 3000, 1));
    }
    play.records.ports[15].consumer_capability = Some(consumer(20000, 3001, 1));
    play.records.ports[15].psu_state = PsuState::Idle;
    play.replied(detached(15), |order, records| {
        obey(records, order);
        if order.kind == OrderKind::Wait {
            records.chargers.fill(unpowered());
        }
        0
    });
    let psu_state = charger::PsuState::Detached;
    play.event(Event::Charger {
        charger: 7,
        psu_state,
    });
    play.finish()
}

/// Every number of ports and of chargers, and an event of every kind from the last of them.
fn sizes() -> Vec<Run> {
    let mut runs = Vec::new();
    for ports in 0..=MAX_PORTS {
        let chargers = ports / 2;
        let mut play = Play::start(
            Config::default(),
            &vec![idle(); ports],
            &vec![powered(); chargers],
        );
        if let Some(record) = play.records.ports.last_mut() {
            let port = (ports - 1) as u8;
            *record = offering(request(9000, 1000, 8), consumer(9000, 2000, 11));
            play.event(Event::Attached { port });
            play.event(requested(port));
            play.event(Event::UpdatedConsumerCapability { port });
            play.records.ports.fill(idle());
            play.event(disconnected(port, None));
            play.event(detached(port));
        }
        runs.push(play.finish());
    }
    let mut play = Play::start(Config::default(), &[], &[powered()]);
    for psu_state in [charger::PsuState::Attached, charger::PsuState::Detached] {
        play.event(Event::Charger {
            charger: 0,
            psu_state,
        });
    }
    runs.push(play.finish());
    runs
}

/// Figures of the configuration at their ends.
fn configurations() -> Vec<Run> {
    let mut runs = Vec::new();
    for threshold in [0, 1, u32::MAX] {
        for minimum in [None, Some(0), Some(1), Some(u32::MAX)] {
            for figure in [0, u16::MAX] {
                let mut config = Config::default();
                config.limited_power_threshold_mw = threshold;
                config.provider_unlimited = PowerCapability {
                    voltage_mv: figure,
                    current_ma: 65535,
                };
                config.provider_limited = PowerCapability {
                    voltage_mv: 65535,
                    current_ma: figure,
                };
                config.min_consumer_threshold_mw = minimum;
                let both = offering(request(1000, 1, 2), consumer(999, 1, 3));
                let mut play = Play::start(config, &[both, request(0, 0, 0)], &[]);
                play.event(UPDATED);
                play.event(requested(1));
                play.records.ports[0].consumer_capability = Some(consumer(1000, 1, 3));
                play.event(UPDATED);
                play.records.ports[0].psu_state = PsuState::Idle;
                play.event(requested(0));
                runs.push(play.finish());
            }
        }
    }
    runs
}

/// All of them.
pub fn runs() -> Vec<Run> {
    let mut runs = vec![failing_psus(), failing_chargers(1), failing_chargers(2)];
    runs.extend(choices());
    runs.extend(reasons());
    runs.push(turning());
    runs.extend(providers());
    runs.push(unconstrained());
    runs.push(largest());
    runs.extend(sizes());
    runs.extend(configurations());
    runs
}

/// The size of a sample in bytes is at most this.
pub const SAMPLE: usize = 300_000;

/// All of them and short random runs, as many as fit.
pub fn sample() -> Vec<Run> {
    const SEED: u64 = 1;
    const LONGEST: usize = 8_000;
    let mut runs = runs();
    let mut size: usize = runs.iter().map(|run| stream::bytes(run).len()).sum();
    assert!(size <= SAMPLE);
    for run in Runs::new(SEED) {
        let length = stream::bytes(&run).len();
        if length > LONGEST {
            continue;
        }
        size += length;
        if size > SAMPLE {
            break;
        }
        runs.push(run);
    }
    runs
}
