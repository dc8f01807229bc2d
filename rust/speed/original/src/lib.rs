//! The original service, compiled unchanged, with devices that answer at once, for timing.
//!
//! It is polled by hand, as rust/oracle does, but nothing is written down: that driver keeps the records of each call and what was held before, to be
//! asked for them. Here the devices read prepared records where they lie, and an order moves on to those of the next call; a lock is a flag; the
//! registration, the notifier and the customization are the original's own. A timer is pending once; nothing else is. Only [`Events::results`] writes
//! down the orders and closes, for a comparison before the timing.

use std::{
    array,
    cell::{Cell, RefCell},
    hint::black_box,
    ops::DerefMut,
    pin::pin,
    task::{Context, Poll, Waker},
};

use embedded_services::{event::NonBlockingSender, named::Named, sync::Lockable};
use oracle::record;
use power_policy_interface::{
    capability::{ConsumerPowerCapability, DisconnectFlags, ProviderPowerCapability},
    charger::{self, ChargerError},
    psu::{self, event::EventData},
    service::event::{Event as Notice, NonBlockingSenderNotifier},
};
use power_policy_service::service::{Service, config::Config, registration::ArrayRegistration};

/// The records of all ports, and of all chargers.
pub type Records = [Vec<u8>; 2];

/// A PSU's event: its opening and its answers.
pub struct Event {
    pub kind: u32,
    pub port: u32,
    pub detail: u32,
    /// The answer, which an opening does not have, and which records from then on.
    pub calls: Vec<(u32, usize)>,
}

/// Events of a fresh service.
pub trait Events {
    /// Runs them all.
    fn run(&self);

    /// Runs them all and gives each order and close as the C functions do.
    fn results(&self) -> Vec<u64>;
}

/// The events of a service with so many ports and chargers; none if this size is not built.
pub fn events(
    ports: u32,
    chargers: u32,
    records: &[Records],
    events: &[Event],
) -> Option<Box<dyn Events>> {
    Some(match (ports, chargers) {
        (1, 0) => Box::new(Loaded::<1, 0>::new(records, events)),
        (1, 8) => Box::new(Loaded::<1, 8>::new(records, events)),
        (4, 0) => Box::new(Loaded::<4, 0>::new(records, events)),
        (4, 8) => Box::new(Loaded::<4, 8>::new(records, events)),
        (16, 0) => Box::new(Loaded::<16, 0>::new(records, events)),
        (16, 8) => Box::new(Loaded::<16, 8>::new(records, events)),
        _ => return None,
    })
}

/// Records in the original's terms.
struct Present<const P: usize, const C: usize> {
    psus: [psu::State; P],
    chargers: [charger::State; C],
}

impl<const P: usize, const C: usize> Present<P, C> {
    fn new([psus, chargers]: &Records) -> Self {
        let (psus, rest) = psus.as_chunks();
        assert!(psus.len() == P && rest.is_empty(), "one of each port");
        let (chargers, rest) = chargers.as_chunks();
        assert!(chargers.len() == C && rest.is_empty(), "and charger");
        Self {
            psus: array::from_fn(|port| record::psu_from_bytes(&psus[port])),
            chargers: array::from_fn(|charger| record::charger_from_bytes(&chargers[charger])),
        }
    }
}

/// Where the devices find their records and answers.
struct Desk<'a, const P: usize, const C: usize> {
    records: &'a [Present<P, C>],
    /// The calls to come.
    calls: Cell<&'a [(u32, usize)]>,
    present: Cell<&'a Present<P, C>>,
    results: Option<RefCell<Vec<u64>>>,
}

impl<const P: usize, const C: usize> Desk<'_, P, C> {
    /// The next call, which brings its records and gives its answer.
    fn go_on(&self) -> u32 {
        let (call, rest) = self.calls.get().split_first().expect("a call to come");
        self.calls.set(rest);
        self.present.set(&self.records[call.1]);
        call.0
    }

    /// An order, which is answered by the next call. The kinds are numbered as in the C header.
    fn order<T>(&self, kind: u8, device: usize, with: T, bytes: impl Fn(&T) -> [u8; 5]) -> u32 {
        if let Some(results) = &self.results {
            let [v0, v1, a0, a1, flags] = bytes(&with);
            let order = [1, kind, device as u8, flags, v0, v1, a0, a1];
            results.borrow_mut().push(u64::from_le_bytes(order));
        }
        black_box((kind, device, with));
        self.go_on()
    }

    fn closed(&self, result: Result<(), psu::Error>) {
        if let Some(results) = &self.results {
            let [answer, expected, actual] = record::result_to_bytes(&result);
            let mut results = results.borrow_mut();
            let given = results.iter().rev().take_while(|one| **one as u8 == 1);
            let close = [2, answer, expected, actual, given.count() as u8, 0, 0, 0];
            results.push(u64::from_le_bytes(close));
        }
        let _ = black_box(result);
    }
}

fn nothing(_: &()) -> [u8; 5] {
    [0; 5]
}

/// A wait's milliseconds stand where other orders have mV.
fn wait_bytes(millis: &u64) -> [u8; 5] {
    let [v0, v1] = u16::try_from(*millis).expect("a short wait").to_le_bytes();
    [v0, v1, 0, 0, 0]
}

/// A device behind its lock.
struct Locked<T>(RefCell<T>);

impl<T> Lockable for Locked<T> {
    type Inner = T;

    async fn lock(&self) -> impl DerefMut<Target = T> {
        self.0.borrow_mut()
    }
}

struct Port<'d, 'a, const P: usize, const C: usize> {
    number: usize,
    desk: &'d Desk<'a, P, C>,
}

impl<const P: usize, const C: usize> Named for Port<'_, '_, P, C> {
    fn name(&self) -> &'static str {
        "port"
    }
}

/// Done, or the one error that a charger's order can have too.
fn psu_result(answer: u32) -> Result<(), psu::Error> {
    match answer {
        0 => Ok(()),
        9 => Err(psu::Error::Charger(ChargerError::BusError)),
        other => panic!("answer {other} is not used here"),
    }
}

impl<const P: usize, const C: usize> psu::Psu for Port<'_, '_, P, C> {
    async fn disconnect(&mut self) -> Result<(), psu::Error> {
        psu_result(self.desk.order(0, self.number, (), nothing))
    }

    async fn connect_provider(&mut self, with: ProviderPowerCapability) -> Result<(), psu::Error> {
        let bytes = record::provider_to_bytes;
        psu_result(self.desk.order(2, self.number, with, bytes))
    }

    async fn connect_consumer(&mut self, with: ConsumerPowerCapability) -> Result<(), psu::Error> {
        let bytes = record::consumer_to_bytes;
        psu_result(self.desk.order(1, self.number, with, bytes))
    }

    fn state(&self) -> &psu::State {
        &self.desk.present.get().psus[self.number]
    }

    fn state_mut(&mut self) -> &mut psu::State {
        unreachable!("the service changes no record")
    }
}

struct Charger<'d, 'a, const P: usize, const C: usize> {
    number: usize,
    desk: &'d Desk<'a, P, C>,
}

#[derive(Debug)]
struct ChargerFault;

impl embedded_batteries_async::charger::Error for ChargerFault {}

impl From<ChargerFault> for ChargerError {
    fn from(_fault: ChargerFault) -> Self {
        ChargerError::BusError
    }
}

fn charger_result(answer: u32) -> Result<(), ChargerFault> {
    match answer {
        0 => Ok(()),
        _ => Err(ChargerFault),
    }
}

impl<const P: usize, const C: usize> embedded_batteries_async::charger::Charger
    for Charger<'_, '_, P, C>
{
}

impl<const P: usize, const C: usize> charger::Charger for Charger<'_, '_, P, C> {
    type ChargerError = ChargerFault;

    async fn init_charger(&mut self) -> Result<charger::PsuState, ChargerFault> {
        charger_result(self.desk.order(4, self.number, (), nothing))?;
        Ok(charger::PsuState::Attached)
    }

    async fn attach_handler(&mut self, with: ConsumerPowerCapability) -> Result<(), ChargerFault> {
        let bytes = record::consumer_to_bytes;
        charger_result(self.desk.order(5, self.number, with, bytes))
    }

    async fn detach_handler(&mut self) -> Result<(), ChargerFault> {
        charger_result(self.desk.order(6, self.number, (), nothing))
    }

    async fn is_ready(&mut self) -> Result<(), ChargerFault> {
        charger_result(self.desk.order(3, self.number, (), nothing))
    }

    fn state(&self) -> &charger::State {
        &self.desk.present.get().chargers[self.number]
    }

    fn state_mut(&mut self) -> &mut charger::State {
        unreachable!("the service changes no record")
    }
}

/// Hears the notices.
struct Listener;

impl<'d, T: Lockable<Inner: psu::Psu>> NonBlockingSender<Notice<'d, T>> for Listener {
    fn try_send(&mut self, notice: Notice<'d, T>) -> Option<()> {
        black_box(notice);
        Some(())
    }
}

/// Events in the original's terms.
struct Loaded<const P: usize, const C: usize> {
    /// Each event's port, and what it says.
    events: Vec<(usize, EventData)>,
    records: Vec<Present<P, C>>,
    /// The calls of all events in turn.
    calls: Vec<(u32, usize)>,
}

impl<const P: usize, const C: usize> Loaded<P, C> {
    fn new(records: &[Records], events: &[Event]) -> Self {
        let mut loaded = Self {
            events: Vec::new(),
            records: records.iter().map(Present::new).collect(),
            calls: Vec::new(),
        };
        for event in events {
            let port = event.port as usize;
            let record = &loaded.records[event.calls[0].1].psus[port];
            let data = match event.kind {
                0 => EventData::Attached,
                1 => EventData::UpdatedConsumerCapability(record.consumer_capability),
                2 => EventData::RequestedProviderCapability(record.requested_provider_capability),
                3 => EventData::Disconnected(DisconnectFlags {
                    reason: record::REASONS[event.detail as usize],
                }),
                4 => EventData::Detached,
                other => panic!("event {other} is not used here"),
            };
            loaded.events.push((port, data));
            loaded.calls.extend(&event.calls);
        }
        loaded
    }

    fn run_with(&self, results: Option<RefCell<Vec<u64>>>) -> Option<RefCell<Vec<u64>>> {
        let desk = Desk {
            records: &self.records,
            calls: Cell::new(&self.calls),
            present: Cell::new(&self.records[0]),
            results,
        };
        self.run_at(&desk);
        assert!(desk.calls.get().is_empty(), "a call that was not made");
        desk.results
    }

    fn run_at(&self, desk: &Desk<P, C>) {
        let ports: [_; P] = array::from_fn(|number| Locked(RefCell::new(Port { number, desk })));
        let chargers: [_; C] =
            array::from_fn(|number| Locked(RefCell::new(Charger { number, desk })));
        let registration = ArrayRegistration {
            psus: ports.each_ref(),
            chargers: chargers.each_ref(),
            service_notifiers: [NonBlockingSenderNotifier::new(Listener)],
        };
        let mut service: Service<'_, _> = Service::new(registration, Config::default());
        let mut context = Context::from_waker(Waker::noop());
        for (port, event) in &self.events {
            desk.go_on();
            let event = psu::event::Event {
                psu: &ports[*port],
                event: *event,
            };
            let mut running = pin!(service.process_psu_event(event));
            let result = loop {
                match running.as_mut().poll(&mut context) {
                    Poll::Ready(result) => break result,
                    Poll::Pending => {
                        let millis = embassy_time::take_started().expect("the one wait");
                        desk.order(7, 0, millis, wait_bytes);
                    }
                }
            };
            desk.closed(result);
        }
    }
}

impl<const P: usize, const C: usize> Events for Loaded<P, C> {
    fn run(&self) {
        self.run_with(None);
    }

    fn results(&self) -> Vec<u64> {
        let results = self.run_with(Some(RefCell::default()));
        results.unwrap_or_default().into_inner()
    }
}
