//! Runs the original service one device order at a time.
//!
//! Every method call on a device and every timer is an order: the event waits until the driver is
//! given the answer to it and the present records of all ports and chargers. From then on these are
//! what the devices' `state()` returns. The devices change no record by themselves.
//!
//! ```
//! use oracle::driver::*;
//!
//! let records = Records::default_of(2, 1);
//! let mut machine = Machine::start(Config::default(), 2, 1);
//! let step = machine.open(Event::Detached { port: 0 }, &records);
//! assert_eq!(step, Step::Closed { answer: Ok(()), notices: vec![], orders: 0 });
//! ```

use std::{
    cell::{Cell, RefCell},
    fmt::Debug,
    ops::DerefMut,
    pin::{Pin, pin},
    rc::Rc,
    task::{Context, Poll, Waker},
};

use embedded_services::{event::NonBlockingSender, named::Named, sync::Lockable};
use power_policy_interface::{
    capability::{
        ConsumerPowerCapability, DisconnectFlags, DisconnectReason, PowerCapabilityFlags,
        ProviderPowerCapability,
    },
    charger::{self, ChargerError},
    psu::{self, StateKind},
    service::{
        UnconstrainedState,
        event::{Event as ServiceEvent, NonBlockingSenderNotifier},
    },
};
use power_policy_service::service::{
    InternalState, Service,
    consumer::{AvailableConsumer, cmp_consumer_capability_default, find_best_consumer_default},
    provider,
    registration::Registration,
};

pub use power_policy_service::service::{config::Config, provider::PowerState};

pub const MAX_PORTS: usize = 16;
pub const MAX_CHARGERS: usize = 8;

/// The milliseconds of the one wait.
pub const WAIT_MILLIS: u64 = 800;

/// The number of [`psu::Error::Charger`], the one error of a charger's order.
pub const CHARGER_ERROR: u8 = 9;

/// The present records of all ports and chargers.
#[derive(Debug, Clone, PartialEq, Eq)]
pub struct Records {
    pub ports: Vec<psu::State>,
    pub chargers: Vec<charger::State>,
}

impl Records {
    /// The records that the original starts with.
    pub fn default_of(ports: usize, chargers: usize) -> Self {
        Self {
            ports: vec![psu::State::default(); ports],
            chargers: vec![charger::State::default(); chargers],
        }
    }
}

/// An event, by the number of its port or charger.
#[derive(Debug, Clone, Copy, PartialEq, Eq)]
pub enum Event {
    Attached {
        port: u8,
    },
    UpdatedConsumerCapability {
        port: u8,
    },
    RequestedProviderCapability {
        port: u8,
    },
    Disconnected {
        port: u8,
        reason: Option<DisconnectReason>,
    },
    Detached {
        port: u8,
    },
    /// The charger's one event: its PSU state changed.
    Charger {
        charger: u8,
        psu_state: charger::PsuState,
    },
}

impl Event {
    /// 0 to 4 for the PSU's events as written, 5 for the charger's.
    pub fn kind(&self) -> u8 {
        match self {
            Event::Attached { .. } => 0,
            Event::UpdatedConsumerCapability { .. } => 1,
            Event::RequestedProviderCapability { .. } => 2,
            Event::Disconnected { .. } => 3,
            Event::Detached { .. } => 4,
            Event::Charger { .. } => 5,
        }
    }
}

#[derive(Debug, Clone, Copy, PartialEq, Eq, PartialOrd, Ord, Hash)]
pub enum OrderKind {
    Disconnect,
    ConnectConsumer,
    ConnectProvider,
    IsReady,
    InitCharger,
    Attach,
    Detach,
    Wait,
}

impl OrderKind {
    /// 1 to 8.
    pub fn number(self) -> u8 {
        match self {
            Self::Disconnect => 1,
            Self::ConnectConsumer => 2,
            Self::ConnectProvider => 3,
            Self::IsReady => 4,
            Self::InitCharger => 5,
            Self::Attach => 6,
            Self::Detach => 7,
            Self::Wait => 8,
        }
    }

    /// Whether the device is a charger.
    pub fn is_charger(self) -> bool {
        matches!(
            self,
            Self::IsReady | Self::InitCharger | Self::Attach | Self::Detach
        )
    }

    /// Whether the order can be answered so: 0 done, 1 to 10 an error.
    pub fn can_answer(self, answer: u8) -> bool {
        match self {
            Self::Disconnect | Self::ConnectConsumer | Self::ConnectProvider => answer <= 10,
            Self::Wait => answer == 0,
            _ => answer == 0 || answer == CHARGER_ERROR,
        }
    }
}

/// An order to a device.
#[derive(Debug, Clone, Copy, PartialEq, Eq)]
pub struct Order {
    pub kind: OrderKind,
    /// The number of the port or charger; 0 for the wait.
    pub device: u8,
    /// What the device is to connect or attach to, as the original hands it over.
    pub capability: Option<PowerCapabilityFlags>,
}

/// A notice of the service.
#[derive(Debug, Clone, Copy, PartialEq, Eq)]
pub enum Notice {
    ConsumerDisconnected {
        port: u8,
        reason: Option<DisconnectReason>,
    },
    ConsumerConnected {
        port: u8,
        capability: ConsumerPowerCapability,
    },
    ProviderDisconnected {
        port: u8,
    },
    ProviderConnected {
        port: u8,
        capability: ProviderPowerCapability,
    },
    Unconstrained(UnconstrainedState),
}

impl Notice {
    /// 1 to 5.
    pub fn kind(&self) -> u8 {
        match self {
            Notice::ConsumerDisconnected { .. } => 1,
            Notice::ConsumerConnected { .. } => 2,
            Notice::ProviderDisconnected { .. } => 3,
            Notice::ProviderConnected { .. } => 4,
            Notice::Unconstrained(_) => 5,
        }
    }
}

/// What a call leads to.
#[derive(Debug, Clone, PartialEq, Eq)]
pub enum Step {
    /// The event waits for the answer to this order.
    Order(Order),
    /// The event is over.
    Closed {
        answer: Result<(), psu::Error>,
        notices: Vec<Notice>,
        /// How many orders the event gave, failed ones too.
        orders: usize,
    },
}

/// What the service holds.
#[derive(Debug, Clone, PartialEq, Eq)]
pub struct Held {
    pub consumer: Option<(u8, ConsumerPowerCapability)>,
    pub power: PowerState,
    pub unconstrained: UnconstrainedState,
    /// The tracked provider ports, rising.
    pub providers: Vec<u8>,
}

/// What the original is given and should not depend on. Two machines that differ in it alone have to
/// take the same steps.
#[derive(Debug, Clone, Copy)]
pub struct Ignored {
    /// Whether the two capability events carry the capability of the record or none.
    pub payload: bool,
    /// What a successful init_charger says of the PSU.
    pub init: charger::PsuState,
}

impl Default for Ignored {
    fn default() -> Self {
        Self {
            payload: true,
            init: charger::PsuState::Attached,
        }
    }
}

/// The error that a device answers with.
fn psu_error(answer: u8) -> psu::Error {
    match answer {
        1 => psu::Error::InvalidDevice,
        2 => psu::Error::CannotProvide(None),
        3 => psu::Error::CannotConsume(None),
        4 => psu::Error::InvalidState(&[], StateKind::Detached),
        5 => psu::Error::InvalidResponse,
        6 => psu::Error::Busy,
        7 => psu::Error::Timeout,
        8 => psu::Error::Bus,
        CHARGER_ERROR => psu::Error::Charger(ChargerError::BusError),
        10 => psu::Error::Failed,
        other => panic!("answer {other} is no error"),
    }
}

/// Where the devices leave their orders and find their answers.
struct Desk {
    order: Cell<Option<Order>>,
    answer: Cell<Option<u8>>,
    ignored: Cell<Ignored>,
    notices: RefCell<Vec<Notice>>,
}

impl Desk {
    /// Leaves the order, waits, and takes the answer.
    async fn ask(&self, order: Order) -> u8 {
        let mut left = false;
        std::future::poll_fn(|_context| {
            if left {
                return Poll::Ready(self.answer.take().expect("an answer before the next poll"));
            }
            left = true;
            assert_eq!(self.order.replace(Some(order)), None, "two orders at once");
            Poll::Pending
        })
        .await
    }
}

/// The inside of a device: what its lock guards. `S` is the record's type.
struct Inner<S: 'static> {
    number: u8,
    desk: &'static Desk,
    /// The present record, which the driver sets, also while the device is locked.
    present: &'static Cell<S>,
    /// The record as of the last lock or answer, which `state()` lends.
    read: S,
}

impl<S: Copy + PartialEq + Debug> Inner<S> {
    async fn order(&mut self, kind: OrderKind, capability: Option<PowerCapabilityFlags>) -> u8 {
        let order = Order {
            kind,
            device: self.number,
            capability,
        };
        let answer = self.desk.ask(order).await;
        self.read = self.present.get();
        answer
    }

    fn record(&self) -> &S {
        assert_eq!(
            self.read,
            self.present.get(),
            "the original reads a record that has changed since it was locked"
        );
        &self.read
    }
}

/// A device behind its lock.
struct Device<S: 'static> {
    number: u8,
    present: &'static Cell<S>,
    inner: RefCell<Inner<S>>,
}

type Port = Device<psu::State>;
type Charger = Device<charger::State>;

impl<S: Copy + Default> Device<S> {
    fn new(number: usize, desk: &'static Desk) -> Self {
        let number = number as u8;
        let present: &'static Cell<S> = Box::leak(Box::default());
        let inner = RefCell::new(Inner {
            number,
            desk,
            present,
            read: present.get(),
        });
        Self {
            number,
            present,
            inner,
        }
    }
}

impl<S: Copy> Lockable for Device<S> {
    type Inner = Inner<S>;

    async fn lock(&self) -> impl DerefMut<Target = Inner<S>> {
        // If it were held already, the original would wait for itself.
        let mut inner = self.inner.try_borrow_mut().expect("a device locked twice");
        inner.read = self.present.get();
        inner
    }
}

impl Named for Inner<psu::State> {
    fn name(&self) -> &'static str {
        "port"
    }
}

fn psu_result(answer: u8) -> Result<(), psu::Error> {
    match answer {
        0 => Ok(()),
        error => Err(psu_error(error)),
    }
}

impl psu::Psu for Inner<psu::State> {
    async fn disconnect(&mut self) -> Result<(), psu::Error> {
        psu_result(self.order(OrderKind::Disconnect, None).await)
    }

    async fn connect_provider(
        &mut self,
        capability: ProviderPowerCapability,
    ) -> Result<(), psu::Error> {
        let capability = PowerCapabilityFlags::Provider(capability);
        psu_result(
            self.order(OrderKind::ConnectProvider, Some(capability))
                .await,
        )
    }

    async fn connect_consumer(
        &mut self,
        capability: ConsumerPowerCapability,
    ) -> Result<(), psu::Error> {
        let capability = PowerCapabilityFlags::Consumer(capability);
        psu_result(
            self.order(OrderKind::ConnectConsumer, Some(capability))
                .await,
        )
    }

    fn state(&self) -> &psu::State {
        self.record()
    }

    fn state_mut(&mut self) -> &mut psu::State {
        unreachable!("the service changes no record")
    }
}

/// The error of a charger's order.
#[derive(Debug)]
struct ChargerFault;

impl embedded_batteries_async::charger::Error for ChargerFault {}

impl From<ChargerFault> for ChargerError {
    fn from(_fault: ChargerFault) -> Self {
        ChargerError::BusError
    }
}

fn charger_result(answer: u8) -> Result<(), ChargerFault> {
    match answer {
        0 => Ok(()),
        _ => Err(ChargerFault),
    }
}

impl embedded_batteries_async::charger::Charger for Inner<charger::State> {}

impl charger::Charger for Inner<charger::State> {
    type ChargerError = ChargerFault;

    async fn init_charger(&mut self) -> Result<charger::PsuState, ChargerFault> {
        charger_result(self.order(OrderKind::InitCharger, None).await)?;
        Ok(self.desk.ignored.get().init)
    }

    async fn attach_handler(
        &mut self,
        capability: ConsumerPowerCapability,
    ) -> Result<(), ChargerFault> {
        let capability = PowerCapabilityFlags::Consumer(capability);
        charger_result(self.order(OrderKind::Attach, Some(capability)).await)
    }

    async fn detach_handler(&mut self) -> Result<(), ChargerFault> {
        charger_result(self.order(OrderKind::Detach, None).await)
    }

    async fn is_ready(&mut self) -> Result<(), ChargerFault> {
        charger_result(self.order(OrderKind::IsReady, None).await)
    }

    fn state(&self) -> &charger::State {
        self.record()
    }

    fn state_mut(&mut self) -> &mut charger::State {
        unreachable!("the service changes no record")
    }
}

/// Takes the notices that the original's own notifier sends.
struct Recorder(&'static Desk);

impl NonBlockingSender<ServiceEvent<'static, Port>> for Recorder {
    fn try_send(&mut self, event: ServiceEvent<'static, Port>) -> Option<()> {
        self.0.notices.borrow_mut().push(match event {
            ServiceEvent::ConsumerDisconnected(psu, DisconnectFlags { reason }) => {
                Notice::ConsumerDisconnected {
                    port: psu.number,
                    reason,
                }
            }
            ServiceEvent::ConsumerConnected(psu, capability) => Notice::ConsumerConnected {
                port: psu.number,
                capability,
            },
            ServiceEvent::ProviderDisconnected(psu) => {
                Notice::ProviderDisconnected { port: psu.number }
            }
            ServiceEvent::ProviderConnected(psu, capability) => Notice::ProviderConnected {
                port: psu.number,
                capability,
            },
            ServiceEvent::Unconstrained(state) => Notice::Unconstrained(state),
            _ => panic!("a notice that has no number"),
        });
        Some(())
    }
}

/// As many ports and chargers as are registered.
struct Rows {
    psus: Vec<&'static Port>,
    chargers: Vec<&'static Charger>,
    notifiers: [NonBlockingSenderNotifier<'static, Port, Recorder>; 1],
}

impl Registration<'static> for Rows {
    type Psu = Port;
    type ServiceNotifier = NonBlockingSenderNotifier<'static, Port, Recorder>;
    type Charger = Charger;

    fn psus(&self) -> &[&'static Port] {
        &self.psus
    }

    fn notifiers(&mut self) -> &mut [Self::ServiceNotifier] {
        &mut self.notifiers
    }

    fn chargers(&self) -> &[&'static Charger] {
        &self.chargers
    }
}

/// A desk and all the devices there can be.
struct Bench {
    desk: &'static Desk,
    ports: [Port; MAX_PORTS],
    chargers: [Charger; MAX_CHARGERS],
}

thread_local! {
    /// Benches that no machine uses. The original wants devices that outlive the service, so a bench
    /// is never freed but used again; there are as many as there were machines at one time.
    static FREE: RefCell<Vec<&'static Bench>> = const { RefCell::new(Vec::new()) };
}

impl Bench {
    fn take() -> &'static Self {
        FREE.with_borrow_mut(Vec::pop).unwrap_or_else(|| {
            let desk = Box::leak(Box::new(Desk {
                order: Cell::default(),
                answer: Cell::default(),
                ignored: Cell::default(),
                notices: RefCell::default(),
            }));
            Box::leak(Box::new(Bench {
                desk,
                ports: std::array::from_fn(|number| Port::new(number, desk)),
                chargers: std::array::from_fn(|number| Charger::new(number, desk)),
            }))
        })
    }

    fn give_back(&'static self) {
        FREE.with_borrow_mut(|free| free.push(self));
    }

    fn set(&self, records: &Records) {
        for (port, record) in self.ports.iter().zip(&records.ports) {
            port.present.set(*record);
        }
        for (charger, record) in self.chargers.iter().zip(&records.chargers) {
            charger.present.set(*record);
        }
    }

    fn port(&self, address: usize) -> u8 {
        let port = self
            .ports
            .iter()
            .find(|port| *port as *const Port as usize == address);
        port.expect("the address of a port").number
    }
}

type Policy = Service<'static, Rows>;

/// The service while an event has it. When the event is over or dropped, it goes back.
struct Loan {
    service: Option<Policy>,
    home: Rc<RefCell<Option<Policy>>>,
}

impl Drop for Loan {
    fn drop(&mut self) {
        *self.home.borrow_mut() = self.service.take();
    }
}

/// The calls since the open event was opened.
struct Opened {
    before: Held,
    event: Event,
    records: Records,
    replies: Vec<(u8, Records)>,
}

type Running = Pin<Box<dyn Future<Output = Result<(), psu::Error>>>>;

/// The original service with its devices.
pub struct Machine {
    bench: &'static Bench,
    config: Config,
    ports: usize,
    chargers: usize,
    /// The service, when no event is open.
    home: Rc<RefCell<Option<Policy>>>,
    running: Option<Running>,
    opened: Option<Opened>,
    order: Option<Order>,
    orders: usize,
}

impl Machine {
    /// A fresh service with this many ports and chargers.
    pub fn start(config: Config, ports: usize, chargers: usize) -> Self {
        assert!(ports <= MAX_PORTS && chargers <= MAX_CHARGERS);
        let bench = Bench::take();
        bench.desk.order.set(None);
        bench.desk.answer.set(None);
        bench.desk.ignored.set(Ignored::default());
        bench.desk.notices.borrow_mut().clear();
        let registration = Rows {
            psus: bench.ports[..ports].iter().collect(),
            chargers: bench.chargers[..chargers].iter().collect(),
            notifiers: [NonBlockingSenderNotifier::new(Recorder(bench.desk))],
        };
        Self {
            bench,
            config,
            ports,
            chargers,
            home: Rc::new(RefCell::new(Some(Policy::new(registration, config)))),
            running: None,
            opened: None,
            order: None,
            orders: 0,
        }
    }

    /// A service that holds `held`.
    pub fn start_at(config: Config, ports: usize, chargers: usize, held: &Held) -> Self {
        let machine = Self::start(config, ports, chargers);
        let bench = machine.bench;
        let mut state = InternalState {
            current_consumer_state: held.consumer.map(|(port, capability)| AvailableConsumer {
                psu: &bench.ports[..ports][usize::from(port)],
                consumer_power_capability: capability,
            }),
            current_provider_state: provider::State::with_power_state(held.power),
            unconstrained: held.unconstrained,
            ..InternalState::default()
        };
        for port in &held.providers {
            let port: &Port = &bench.ports[..ports][usize::from(*port)];
            let inserted = state
                .connected_providers
                .insert(port as *const Port as usize);
            assert_eq!(inserted, Ok(true), "four different ports at most");
        }
        let mut home = machine.home.borrow_mut();
        home.as_mut().unwrap().set_internal_state(state);
        drop(home);
        machine
    }

    pub fn ports(&self) -> usize {
        self.ports
    }

    pub fn chargers(&self) -> usize {
        self.chargers
    }

    /// Sets what should make no difference.
    pub fn set_ignored(&mut self, ignored: Ignored) {
        self.bench.desk.ignored.set(ignored);
    }

    /// The order that waits for its answer.
    pub fn order(&self) -> Option<Order> {
        self.order
    }

    /// Opens an event. None may be open, and its port or charger is a registered one.
    pub fn open(&mut self, event: Event, records: &Records) -> Step {
        assert!(self.running.is_none(), "an event is open");
        self.opened = Some(Opened {
            before: self.held(),
            event,
            records: records.clone(),
            replies: Vec::new(),
        });
        self.set(records);
        self.orders = 0;
        self.running = Some(self.run(event));
        self.step()
    }

    /// Answers the order that the open event waits for: 0 done, else the error's number.
    pub fn answer(&mut self, answer: u8, records: &Records) -> Step {
        let order = self.order.take().expect("an open event");
        assert!(
            order.kind.can_answer(answer),
            "{order:?} is not answered by {answer}"
        );
        let opened = self.opened.as_mut().unwrap();
        opened.replies.push((answer, records.clone()));
        self.set(records);
        if order.kind != OrderKind::Wait {
            self.bench.desk.answer.set(Some(answer));
        }
        self.step()
    }

    /// Drops the open event where it stands. Notices that it gave are lost.
    pub fn cancel(&mut self) {
        self.running = None;
        self.opened = None;
        self.order = None;
        self.bench.desk.notices.borrow_mut().clear();
    }

    /// What the service holds. While an event is open the service is lent to it; then a second
    /// machine takes the same steps, its event is dropped, and what that one holds is the answer.
    pub fn held(&self) -> Held {
        if let Some(opened) = &self.opened {
            let mut second = Self::start_at(self.config, self.ports, self.chargers, &opened.before);
            second.set_ignored(self.bench.desk.ignored.get());
            let mut step = second.open(opened.event, &opened.records);
            for (answer, records) in &opened.replies {
                step = second.answer(*answer, records);
            }
            assert_eq!(step, Step::Order(self.order.unwrap()));
            second.cancel();
            return second.held();
        }
        let home = self.home.borrow();
        let state = home.as_ref().unwrap().internal_state();
        let mut providers: Vec<u8> = state
            .connected_providers
            .iter()
            .map(|address| self.bench.port(*address))
            .collect();
        providers.sort();
        Held {
            consumer: state
                .current_consumer_state
                .map(|consumer| (consumer.psu.number, consumer.consumer_power_capability)),
            power: state.current_provider_state.power_state(),
            unconstrained: state.unconstrained,
            providers,
        }
    }

    /// The original's total of the connected provider contracts, in mW. No event may be open.
    pub fn total_provider_power_mw(&self, records: &Records) -> u32 {
        self.set(records);
        let home = self.home.borrow();
        let service = home.as_ref().expect("no open event");
        at_once(service.compute_total_provider_power_mw())
    }

    /// The original's choice of a consumer. No event may be open.
    pub fn best_consumer(&self, records: &Records) -> Option<(u8, ConsumerPowerCapability)> {
        self.set(records);
        let home = self.home.borrow();
        let service = home.as_ref().expect("no open event");
        let best = at_once(find_best_consumer_default(
            &self.config,
            service.internal_state(),
            service.registration(),
            cmp_consumer_capability_default,
        ));
        let best = best.expect("the choice gives no error");
        best.map(|consumer| (consumer.psu.number, consumer.consumer_power_capability))
    }

    fn set(&self, records: &Records) {
        assert_eq!(records.ports.len(), self.ports);
        assert_eq!(records.chargers.len(), self.chargers);
        self.bench.set(records);
    }

    /// The event as a future of the original.
    fn run(&self, event: Event) -> Running {
        let mut loan = Loan {
            service: self.home.borrow_mut().take(),
            home: self.home.clone(),
        };
        let bench = self.bench;
        let payload = bench.desk.ignored.get().payload;
        let (port, data) = match event {
            Event::Attached { port } => (port, psu::event::EventData::Attached),
            Event::UpdatedConsumerCapability { port } => {
                let record = bench.ports[usize::from(port)].present.get();
                let capability = record.consumer_capability.filter(|_| payload);
                (
                    port,
                    psu::event::EventData::UpdatedConsumerCapability(capability),
                )
            }
            Event::RequestedProviderCapability { port } => {
                let record = bench.ports[usize::from(port)].present.get();
                let capability = record.requested_provider_capability.filter(|_| payload);
                (
                    port,
                    psu::event::EventData::RequestedProviderCapability(capability),
                )
            }
            Event::Disconnected { port, reason } => (
                port,
                psu::event::EventData::Disconnected(DisconnectFlags { reason }),
            ),
            Event::Detached { port } => (port, psu::event::EventData::Detached),
            Event::Charger { charger, psu_state } => {
                let event = charger::Event {
                    charger: &bench.chargers[..self.chargers][usize::from(charger)],
                    event: charger::EventData::PsuStateChange(psu_state),
                };
                return Box::pin(async move {
                    let service = loan.service.as_mut().unwrap();
                    service.process_charger_event(event).await
                });
            }
        };
        let event = psu::event::Event {
            psu: &bench.ports[..self.ports][usize::from(port)],
            event: data,
        };
        Box::pin(async move {
            let service = loan.service.as_mut().unwrap();
            service.process_psu_event(event).await
        })
    }

    /// Polls the event once: up to its next order or its end.
    fn step(&mut self) -> Step {
        let running = self.running.as_mut().expect("an open event");
        let mut context = Context::from_waker(Waker::noop());
        let polled = running.as_mut().poll(&mut context);
        let desk = self.bench.desk;
        assert_eq!(desk.answer.get(), None, "an answer that nobody took");
        let order = match (polled, desk.order.take(), embassy_time::take_started()) {
            (Poll::Ready(answer), None, None) => {
                self.running = None;
                self.opened = None;
                return Step::Closed {
                    answer,
                    notices: desk.notices.take(),
                    orders: self.orders,
                };
            }
            (Poll::Pending, Some(order), None) => order,
            (Poll::Pending, None, Some(WAIT_MILLIS)) => Order {
                kind: OrderKind::Wait,
                device: 0,
                capability: None,
            },
            other => panic!("neither an end nor one order: {other:?}"),
        };
        self.orders += 1;
        self.order = Some(order);
        Step::Order(order)
    }
}

/// The output of a future that gives no order.
fn at_once<F: Future>(future: F) -> F::Output {
    let mut context = Context::from_waker(Waker::noop());
    match pin!(future).poll(&mut context) {
        Poll::Ready(output) => output,
        Poll::Pending => panic!("an order where none was expected"),
    }
}

impl Drop for Machine {
    fn drop(&mut self) {
        // The locks that an open event holds are let go before another machine has the bench.
        self.running = None;
        self.bench.give_back();
    }
}
