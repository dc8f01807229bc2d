//! The driver: named edges of the service, written by hand, and random runs.

use oracle::{check, driver::*, random::Runs};
use power_policy_interface::{
    capability::{
        ConsumerFlags, ConsumerPowerCapability, DisconnectReason, PowerCapability,
        PowerCapabilityFlags, ProviderPowerCapability,
    },
    charger,
    psu::{self, PsuState, StateKind},
    service::UnconstrainedState,
};

fn power(voltage_mv: u16, current_ma: u16) -> PowerCapability {
    PowerCapability {
        voltage_mv,
        current_ma,
    }
}

fn consumer(voltage_mv: u16, current_ma: u16) -> ConsumerPowerCapability {
    power(voltage_mv, current_ma).into()
}

fn provider(voltage_mv: u16, current_ma: u16) -> ProviderPowerCapability {
    power(voltage_mv, current_ma).into()
}

fn unconstrained(voltage_mv: u16, current_ma: u16) -> ConsumerPowerCapability {
    ConsumerPowerCapability {
        capability: power(voltage_mv, current_ma),
        flags: ConsumerFlags {
            unconstrained_power: true,
            psu_type: None,
        },
    }
}

fn offering(capability: ConsumerPowerCapability) -> psu::State {
    psu::State {
        psu_state: PsuState::Idle,
        consumer_capability: Some(capability),
        requested_provider_capability: None,
    }
}

fn requesting(capability: ProviderPowerCapability) -> psu::State {
    psu::State {
        psu_state: PsuState::Idle,
        consumer_capability: None,
        requested_provider_capability: Some(capability),
    }
}

fn providing(capability: ProviderPowerCapability) -> psu::State {
    psu::State {
        psu_state: PsuState::ConnectedProvider(capability),
        consumer_capability: None,
        requested_provider_capability: None,
    }
}

fn idle() -> psu::State {
    psu::State {
        psu_state: PsuState::Idle,
        ..psu::State::default()
    }
}

fn powered() -> charger::State {
    let mut state = charger::State::default();
    state.on_ready_success();
    state
}

fn of(ports: &[psu::State], chargers: &[charger::State]) -> Records {
    Records {
        ports: ports.to_vec(),
        chargers: chargers.to_vec(),
    }
}

fn order(kind: OrderKind, device: u8) -> Step {
    Step::Order(Order {
        kind,
        device,
        capability: None,
    })
}

fn consumer_order(kind: OrderKind, device: u8, capability: ConsumerPowerCapability) -> Step {
    Step::Order(Order {
        kind,
        device,
        capability: Some(PowerCapabilityFlags::Consumer(capability)),
    })
}

fn provider_order(device: u8, capability: ProviderPowerCapability) -> Step {
    Step::Order(Order {
        kind: OrderKind::ConnectProvider,
        device,
        capability: Some(PowerCapabilityFlags::Provider(capability)),
    })
}

fn closed(notices: &[Notice], orders: usize) -> Step {
    Step::Closed {
        answer: Ok(()),
        notices: notices.to_vec(),
        orders,
    }
}

fn failed(error: psu::Error, notices: &[Notice], orders: usize) -> Step {
    Step::Closed {
        answer: Err(error),
        notices: notices.to_vec(),
        orders,
    }
}

const UPDATE: Event = Event::UpdatedConsumerCapability { port: 0 };

fn fresh() -> Held {
    Held {
        consumer: None,
        power: PowerState::Unlimited,
        unconstrained: UnconstrainedState::new(false, 0),
        providers: vec![],
    }
}

#[test]
fn nothing_to_choose() {
    let records = of(&[idle(), idle()], &[powered()]);
    let mut machine = Machine::start(Config::default(), 2, 1);
    assert_eq!(machine.best_consumer(&records), None);
    assert_eq!(machine.open(UPDATE, &records), closed(&[], 0));
    assert_eq!(machine.held(), fresh());
}

#[test]
fn minimum() {
    let mut config = Config::default();
    config.min_consumer_threshold_mw = Some(7500);
    let records = of(&[offering(unconstrained(7499, 1000))], &[]);
    let mut machine = Machine::start(config, 1, 0);
    // Not eligible, yet counted as available.
    let state = UnconstrainedState::new(false, 1);
    assert_eq!(
        machine.open(UPDATE, &records),
        closed(&[Notice::Unconstrained(state)], 0)
    );

    let offer = consumer(7500, 1000);
    let records = of(&[offering(offer)], &[]);
    let mut machine = Machine::start(config, 1, 0);
    assert_eq!(
        machine.open(UPDATE, &records),
        consumer_order(OrderKind::ConnectConsumer, 0, offer)
    );
}

#[test]
fn equals() {
    let records = of(
        &[
            offering(consumer(15000, 1000)),
            idle(),
            offering(consumer(5000, 3000)),
        ],
        &[],
    );
    let mut machine = Machine::start(Config::default(), 3, 0);
    let best = machine.best_consumer(&records);
    assert_eq!(best, Some((0, consumer(15000, 1000))));
    assert_eq!(
        machine.open(UPDATE, &records),
        consumer_order(OrderKind::ConnectConsumer, 0, consumer(15000, 1000))
    );

    let held = Held {
        consumer: Some((2, consumer(5000, 3000))),
        ..fresh()
    };
    // The current one stays, and gets no order although it is Idle.
    let mut machine = Machine::start_at(Config::default(), 3, 0, &held);
    assert_eq!(machine.best_consumer(&records), held.consumer);
    assert_eq!(machine.open(UPDATE, &records), closed(&[], 0));
    assert_eq!(machine.held(), held);
}

#[test]
fn total() {
    let records = of(
        &[
            providing(provider(5000, 3000)),
            offering(consumer(20000, 3000)),
            requesting(provider(20000, 3000)),
            providing(provider(1999, 1)),
            providing(provider(1999, 1)),
        ],
        &[],
    );
    let machine = Machine::start(Config::default(), 5, 0);
    assert_eq!(machine.total_provider_power_mw(&records), 15_002);
    let most = of(&[providing(provider(65535, 65535)); 16], &[]);
    let machine = Machine::start(Config::default(), 16, 0);
    assert_eq!(machine.total_provider_power_mw(&most), 16 * 4_294_836);
}

/// The state of the port is looked at when it is to be connected, not in the choice.
#[test]
fn provider_is_chosen_and_refused() {
    let mut port = providing(provider(5000, 3000));
    port.consumer_capability = Some(consumer(20000, 3000));
    let records = of(&[offering(consumer(5000, 3000)), port], &[]);
    let mut machine = Machine::start(Config::default(), 2, 0);
    let error = psu::Error::InvalidState(
        &[StateKind::Idle, StateKind::ConnectedConsumer],
        StateKind::ConnectedProvider,
    );
    assert_eq!(machine.open(UPDATE, &records), failed(error, &[], 0));
}

#[test]
fn grants() {
    // Requests beside a contract, the grant, and the power state.
    for (request, contract, grant, state) in [
        ((15000, 1000), (0, 0), (5000, 3000), PowerState::Unlimited),
        ((5000, 500), (5000, 3000), (5000, 1500), PowerState::Limited),
        ((15000, 1), (5000, 2997), (15000, 1), PowerState::Unlimited),
        ((16000, 1), (5000, 2997), (5000, 1500), PowerState::Limited),
        ((5000, 2999), (0, 0), (5000, 2999), PowerState::Unlimited),
        ((5000, 3001), (0, 0), (5000, 1500), PowerState::Limited),
    ] {
        let request = provider(request.0, request.1);
        let grant = provider(grant.0, grant.1);
        let contract = providing(provider(contract.0, contract.1));
        let records = of(&[contract, requesting(request)], &[]);
        let mut machine = Machine::start(Config::default(), 2, 0);
        assert_eq!(
            machine.open(Event::RequestedProviderCapability { port: 1 }, &records),
            provider_order(1, grant)
        );
        // The power state is set before the order, and the port tracked after it.
        assert_eq!(machine.held().power, state);
        assert_eq!(machine.held().providers, []);
        let notice = Notice::ProviderConnected {
            port: 1,
            capability: grant,
        };
        assert_eq!(machine.answer(0, &records), closed(&[notice], 1));
        assert_eq!(machine.held().power, state);
        assert_eq!(machine.held().providers, [1]);
    }
}

/// The total after a removal: above the threshold is Limited, equal is Unlimited.
#[test]
fn power_state_after_removal() {
    for (current_ma, state) in [(3000, PowerState::Unlimited), (3001, PowerState::Limited)] {
        let records = of(&[idle(), providing(provider(5000, current_ma))], &[]);
        let before = Held {
            power: PowerState::Limited,
            providers: vec![0],
            ..fresh()
        };
        let mut machine = Machine::start_at(Config::default(), 2, 0, &before);
        let notice = Notice::ProviderDisconnected { port: 0 };
        assert_eq!(
            machine.open(Event::Detached { port: 0 }, &records),
            closed(&[notice], 0)
        );
        let after = Held {
            power: state,
            ..fresh()
        };
        assert_eq!(machine.held(), after);
    }
}

#[test]
fn fifth_provider() {
    let request = provider(1000, 1000);
    let records = of(&[requesting(request); 5], &[]);
    let mut machine = Machine::start(Config::default(), 5, 0);
    for port in 0..5 {
        machine.open(Event::RequestedProviderCapability { port }, &records);
        let notice = Notice::ProviderConnected {
            port,
            capability: request,
        };
        assert_eq!(machine.answer(0, &records), closed(&[notice], 1));
    }
    assert_eq!(machine.held().providers, [0, 1, 2, 3]);
    assert_eq!(
        machine.open(Event::Detached { port: 4 }, &records),
        closed(&[], 0)
    );
    // A removal makes room.
    let notice = Notice::ProviderDisconnected { port: 1 };
    assert_eq!(
        machine.open(Event::Detached { port: 1 }, &records),
        closed(&[notice], 0)
    );
    machine.open(Event::RequestedProviderCapability { port: 4 }, &records);
    machine.answer(0, &records);
    assert_eq!(machine.held().providers, [0, 2, 3, 4]);
}

/// As many orders and notices as there can be; every reply brings other records.
#[test]
fn most_orders_and_notices() {
    let old = consumer(5000, 3000);
    let new = unconstrained(20000, 3000);
    let mut current = offering(old);
    current.psu_state = PsuState::ConnectedConsumer(old);
    let on = of(&[current, offering(new)], &[powered(); 8]);
    let off = of(&[idle(), offering(new)], &[charger::State::default(); 8]);
    let before = Held {
        consumer: Some((0, old)),
        providers: vec![1],
        ..fresh()
    };
    let mut machine = Machine::start_at(Config::default(), 2, 8, &before);
    let event = Event::Disconnected {
        port: 1,
        reason: Some(DisconnectReason::RoleSwap),
    };
    let mut step = machine.open(event, &on);
    let mut steps = vec![order(OrderKind::Disconnect, 0)];
    steps.extend((0..8).map(|number| order(OrderKind::Detach, number)));
    for expected in steps {
        assert_eq!(step, expected);
        assert_eq!(machine.held().consumer, None);
        step = machine.answer(0, &on);
    }
    assert_eq!(step, consumer_order(OrderKind::ConnectConsumer, 1, new));
    assert_eq!(machine.held().consumer, None);
    step = machine.answer(0, &on);
    assert_eq!(step, order(OrderKind::Wait, 0));
    assert_eq!(machine.held().consumer, Some((1, new)));
    step = machine.answer(0, &off);
    for number in 0..8 {
        assert_eq!(step, order(OrderKind::IsReady, number));
        step = machine.answer(0, &off);
        assert_eq!(step, order(OrderKind::InitCharger, number));
        step = machine.answer(0, &off);
        assert_eq!(step, consumer_order(OrderKind::Attach, number, new));
        step = machine.answer(0, &off);
    }
    let notices = [
        Notice::ProviderDisconnected { port: 1 },
        Notice::ConsumerDisconnected {
            port: 0,
            reason: Some(DisconnectReason::RoleSwap),
        },
        Notice::ConsumerConnected {
            port: 1,
            capability: new,
        },
        Notice::Unconstrained(UnconstrainedState::new(true, 1)),
    ];
    assert_eq!(step, closed(&notices, 35));
}

/// A charger that is powered when its turn comes gets the attach alone.
#[test]
fn charger_powered_by_its_turn() {
    let offer = consumer(5000, 3000);
    let off = of(&[offering(offer)], &[charger::State::default(); 2]);
    let half = of(&[offering(offer)], &[charger::State::default(), powered()]);
    let mut machine = Machine::start(Config::default(), 1, 2);
    machine.open(UPDATE, &off);
    assert_eq!(machine.answer(0, &off), order(OrderKind::Wait, 0));
    assert_eq!(machine.answer(0, &off), order(OrderKind::IsReady, 0));
    assert_eq!(machine.answer(0, &off), order(OrderKind::InitCharger, 0));
    assert_eq!(
        machine.answer(0, &off),
        consumer_order(OrderKind::Attach, 0, offer)
    );
    assert_eq!(
        machine.answer(0, &half),
        consumer_order(OrderKind::Attach, 1, offer)
    );
}

/// The records at the reply decide, also of a port that is locked meanwhile; the choice does not
/// change.
#[test]
fn records_of_the_reply() {
    let offer = consumer(20000, 3000);
    let old = consumer(5000, 3000);
    let mut current = offering(old);
    current.psu_state = PsuState::ConnectedConsumer(old);
    let before = of(&[current, offering(offer)], &[]);
    let after = of(&[current, providing(provider(5000, 1500))], &[]);
    let held = Held {
        consumer: Some((0, old)),
        ..fresh()
    };
    let notice = Notice::ConsumerDisconnected {
        port: 0,
        reason: Some(DisconnectReason::Switching),
    };

    let mut machine = Machine::start_at(Config::default(), 2, 0, &held);
    assert_eq!(
        machine.open(UPDATE, &before),
        order(OrderKind::Disconnect, 0)
    );
    let error = psu::Error::InvalidState(
        &[StateKind::Idle, StateKind::ConnectedConsumer],
        StateKind::ConnectedProvider,
    );
    assert_eq!(machine.answer(0, &after), failed(error, &[notice], 1));
    assert_eq!(machine.held(), fresh());

    // The chosen capability stays the one read at opening.
    let other = of(&[current, offering(consumer(1, 1))], &[]);
    let mut machine = Machine::start_at(Config::default(), 2, 0, &held);
    machine.open(UPDATE, &before);
    assert_eq!(
        machine.answer(0, &other),
        consumer_order(OrderKind::ConnectConsumer, 1, offer)
    );

    // The same port with another capability is a renegotiation.
    let mut raised = current;
    raised.consumer_capability = Some(offer);
    let raised = of(&[raised, idle()], &[]);
    let mut machine = Machine::start_at(Config::default(), 2, 0, &held);
    machine.open(Event::Detached { port: 1 }, &raised);
    assert_eq!(
        machine.answer(0, &of(&[offering(offer), idle()], &[])),
        consumer_order(OrderKind::ConnectConsumer, 0, offer)
    );
    machine.answer(0, &raised);
    let notices = [
        Notice::ConsumerDisconnected {
            port: 0,
            reason: Some(DisconnectReason::AutoRenegotiation),
        },
        Notice::ConsumerConnected {
            port: 0,
            capability: offer,
        },
    ];
    assert_eq!(machine.answer(0, &raised), closed(&notices, 3));
}

#[test]
fn errors_of_devices() {
    let offer = unconstrained(5000, 3000);
    let records = of(&[offering(offer)], &[powered()]);
    for answer in 1..=10 {
        let mut machine = Machine::start(Config::default(), 1, 1);
        machine.open(UPDATE, &records);
        let Step::Closed {
            answer: Err(error),
            notices,
            orders: 1,
        } = machine.answer(answer, &records)
        else {
            panic!("answer {answer}");
        };
        assert_eq!(oracle::record::error_byte(&error), answer);
        // The consumer is not held and the unconstrained step is skipped.
        assert_eq!(notices, []);
        assert_eq!(machine.held(), fresh());
    }

    // A charger's failure after the connect: the consumer stays held, without a notice.
    let mut machine = Machine::start(Config::default(), 1, 1);
    machine.open(UPDATE, &records);
    machine.answer(0, &records);
    machine.answer(0, &records);
    let error = psu::Error::Charger(charger::ChargerError::BusError);
    assert_eq!(
        machine.answer(CHARGER_ERROR, &records),
        failed(error, &[], 3)
    );
    let held = Held {
        consumer: Some((0, offer)),
        ..fresh()
    };
    assert_eq!(machine.held(), held);
}

/// No eligible port: chargers are detached, the PSU gets no order, the reason is the event's.
#[test]
fn consumer_lost() {
    let old = unconstrained(5000, 3000);
    let mut current = idle();
    current.psu_state = PsuState::ConnectedConsumer(old);
    let chargers = [powered(), charger::State::default(), powered()];
    let records = of(&[current], &chargers);
    let held = Held {
        consumer: Some((0, old)),
        unconstrained: UnconstrainedState::new(true, 1),
        ..fresh()
    };
    let disconnected = oracle::record::REASONS
        .into_iter()
        .map(|reason| (Event::Disconnected { port: 0, reason }, reason));
    let events = disconnected.chain([
        (
            Event::Detached { port: 0 },
            Some(DisconnectReason::Detached),
        ),
        (UPDATE, None),
    ]);
    for (event, reason) in events {
        let mut machine = Machine::start_at(Config::default(), 1, 3, &held);
        assert_eq!(machine.open(event, &records), order(OrderKind::Detach, 0));
        assert_eq!(machine.held(), held);
        assert_eq!(machine.answer(0, &records), order(OrderKind::Detach, 2));
        let notices = [
            Notice::ConsumerDisconnected { port: 0, reason },
            Notice::Unconstrained(UnconstrainedState::new(false, 0)),
        ];
        assert_eq!(machine.answer(0, &records), closed(&notices, 2));
        assert_eq!(machine.held(), fresh());
    }
}

#[test]
fn events_without_effect() {
    let records = of(&[offering(unconstrained(5000, 3000))], &[powered()]);
    let mut machine = Machine::start(Config::default(), 1, 1);
    assert_eq!(
        machine.open(Event::Attached { port: 0 }, &records),
        closed(&[], 0)
    );
    for psu_state in [charger::PsuState::Attached, charger::PsuState::Detached] {
        let event = Event::Charger {
            charger: 0,
            psu_state,
        };
        assert_eq!(machine.open(event, &records), closed(&[], 0));
    }
    assert_eq!(machine.held(), fresh());
    // No request in the record, whatever the event said.
    assert_eq!(
        machine.open(Event::RequestedProviderCapability { port: 0 }, &records),
        closed(&[], 0)
    );
}

/// A dropped event and a dropped machine let go of the devices.
#[test]
fn dropped_events() {
    let offer = consumer(5000, 3000);
    let records = of(&[offering(offer)], &[charger::State::default()]);
    for _ in 0..3 {
        let mut machine = Machine::start(Config::default(), 1, 1);
        for _ in 0..3 {
            assert_eq!(
                machine.open(UPDATE, &records),
                consumer_order(OrderKind::ConnectConsumer, 0, offer)
            );
            machine.cancel();
        }
        machine.open(UPDATE, &records);
        machine.answer(0, &records);
        machine.answer(0, &records);
        assert_eq!(machine.order().unwrap().kind, OrderKind::IsReady);
        // Two machines at a time have different devices.
        let mut other = Machine::start(Config::default(), 1, 1);
        other.open(UPDATE, &records);
        assert_eq!(
            machine.answer(0, &records),
            order(OrderKind::InitCharger, 0)
        );
    }
}

#[test]
#[should_panic(expected = "is not answered by 1")]
fn wait_does_not_fail() {
    let records = of(&[offering(consumer(5000, 3000))], &[]);
    let mut machine = Machine::start(Config::default(), 1, 0);
    machine.open(UPDATE, &records);
    assert_eq!(machine.answer(0, &records), order(OrderKind::Wait, 0));
    machine.answer(1, &records);
}

#[test]
#[should_panic(expected = "is not answered by 8")]
fn charger_fails_by_9_alone() {
    let offer = consumer(5000, 3000);
    let records = of(&[idle()], &[powered()]);
    let held = Held {
        consumer: Some((0, offer)),
        ..fresh()
    };
    let mut machine = Machine::start_at(Config::default(), 1, 1, &held);
    assert_eq!(machine.open(UPDATE, &records), order(OrderKind::Detach, 0));
    machine.answer(8, &records);
}

#[test]
fn random_runs() {
    let counts = check::demo(7, 20_000).unwrap();
    assert_eq!(counts.missing(), Vec::<String>::new());
    assert_eq!(counts.most_notices, 4);
    assert!(counts.most_orders <= 35);
}

#[test]
fn random_runs_are_always_the_same() {
    for (first, second) in Runs::new(3).zip(Runs::new(3)).take(50) {
        assert_eq!(first.events, second.events);
    }
}
