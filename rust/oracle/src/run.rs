//! Runs of the service: a start, its events, and every call between.

use power_policy_interface::{capability::PowerCapabilityFlags, charger, psu};

use crate::driver::{Config, Event, Held, Machine, Notice, Order, OrderKind, Records, Step};

/// An order and the reply to it.
#[derive(Debug, Clone, PartialEq, Eq)]
pub struct Exchange {
    pub order: Order,
    pub answer: u8,
    pub records: Records,
}

/// An event from its opening to its close.
#[derive(Debug, Clone, PartialEq, Eq)]
pub struct EventRun {
    pub event: Event,
    pub records: Records,
    pub exchanges: Vec<Exchange>,
    pub answer: Result<(), psu::Error>,
    pub notices: Vec<Notice>,
    pub orders: usize,
    /// What the service holds at the close.
    pub held: Held,
}

/// A start and its events.
#[derive(Clone)]
pub struct Run {
    pub config: Config,
    pub ports: usize,
    pub chargers: usize,
    pub events: Vec<EventRun>,
}

/// A service and the run that it has made so far.
pub struct Session {
    machine: Machine,
    run: Run,
}

impl Session {
    pub fn start(config: Config, ports: usize, chargers: usize) -> Self {
        Self {
            machine: Machine::start(config, ports, chargers),
            run: Run {
                config,
                ports,
                chargers,
                events: Vec::new(),
            },
        }
    }

    /// Runs an event to its close. `reply` gives the answer to each order and the records by then.
    pub fn event(
        &mut self,
        event: Event,
        records: &Records,
        reply: impl FnMut(&Order) -> (u8, Records),
    ) -> &EventRun {
        self.add(|machine| run_event(machine, event, records, reply))
    }

    /// Adds an event that is run to its close.
    pub fn add(&mut self, run: impl FnOnce(&mut Machine) -> EventRun) -> &EventRun {
        self.run.events.push(run(&mut self.machine));
        self.run.events.last().unwrap()
    }

    /// What the service holds.
    pub fn held(&self) -> Held {
        self.machine.held()
    }

    pub fn finish(self) -> Run {
        self.run
    }
}

/// Runs an event to its close. `reply` gives the answer to each order and the records by then.
pub fn run_event(
    machine: &mut Machine,
    event: Event,
    records: &Records,
    mut reply: impl FnMut(&Order) -> (u8, Records),
) -> EventRun {
    let mut exchanges = Vec::new();
    let mut step = machine.open(event, records);
    loop {
        let order = match step {
            Step::Order(order) => order,
            Step::Closed {
                answer,
                notices,
                orders,
            } => {
                return EventRun {
                    event,
                    records: records.clone(),
                    exchanges,
                    answer,
                    notices,
                    orders,
                    held: machine.held(),
                };
            }
        };
        let (answer, records) = reply(&order);
        step = machine.answer(answer, &records);
        exchanges.push(Exchange {
            order,
            answer,
            records,
        });
    }
}

/// The records as devices would change them that do what they are told.
pub fn obey(records: &mut Records, order: &Order) {
    let device = usize::from(order.device);
    // A refused transition changes what the original changes.
    let _ = match (order.kind, order.capability) {
        (OrderKind::Disconnect, None) => records.ports[device].disconnect(false),
        (OrderKind::ConnectConsumer, Some(PowerCapabilityFlags::Consumer(capability))) => {
            records.ports[device].connect_consumer(capability)
        }
        (OrderKind::ConnectProvider, Some(PowerCapabilityFlags::Provider(capability))) => {
            records.ports[device].connect_provider(capability)
        }
        (OrderKind::IsReady, None) => {
            records.chargers[device].on_ready_success();
            Ok(())
        }
        (OrderKind::InitCharger, None) => records.chargers[device]
            .on_initialized(charger::PsuState::Attached)
            .map_err(psu::Error::from),
        (OrderKind::Attach, Some(PowerCapabilityFlags::Consumer(capability))) => {
            records.chargers[device].on_policy_attach(capability);
            Ok(())
        }
        (OrderKind::Detach, None) => {
            records.chargers[device].on_policy_detach();
            Ok(())
        }
        (OrderKind::Wait, None) => Ok(()),
        other => panic!("{other:?} is no order"),
    };
}
