//! The devices as the policy orders them, and an event run to its close.

use core::future::Future;

use crate::{
    Answer, ChargerError, ConsumerPowerCapability, Error, Event, Order, Outcome,
    ProviderPowerCapability, PsuError, Records, Reply, Service,
};

/// The ports and chargers of a console, by their numbers. The methods are those of the original's `Psu` and `Charger`, which
/// have one device each; an implementation hands each call on to the device ([`run_event`] has an example).
pub trait Devices {
    /// Disconnects power from the port.
    fn disconnect(&mut self, port: u8) -> impl Future<Output = Result<(), PsuError>>;
    /// Connects the port to consume power.
    fn connect_consumer(
        &mut self,
        port: u8,
        capability: ConsumerPowerCapability,
    ) -> impl Future<Output = Result<(), PsuError>>;
    /// Connects the port to provide power.
    fn connect_provider(
        &mut self,
        port: u8,
        capability: ProviderPowerCapability,
    ) -> impl Future<Output = Result<(), PsuError>>;
    /// The charger is powered and ready to communicate once this succeeds.
    fn is_ready(&mut self, charger: u8) -> impl Future<Output = Result<(), ChargerError>>;
    /// Initializes the charger.
    fn init_charger(&mut self, charger: u8) -> impl Future<Output = Result<(), ChargerError>>;
    /// A consumer is connected.
    fn attach_handler(
        &mut self,
        charger: u8,
        capability: ConsumerPowerCapability,
    ) -> impl Future<Output = Result<(), ChargerError>>;
    /// A consumer is disconnected.
    fn detach_handler(&mut self, charger: u8) -> impl Future<Output = Result<(), ChargerError>>;
    /// Waits as long as the order says. It does not fail.
    fn wait(&mut self, millis: u64) -> impl Future<Output = ()>;
    /// Sets the present records of all ports and chargers. Those that are not set are Detached and Unpowered. It may wait, as the
    /// original does for the lock of each device before it reads the state.
    fn records(&mut self, records: &mut Records) -> impl Future<Output = ()>;
}

/// Opens an event, does each order and answers it, until the event is closed. The records are read before the event is opened and
/// before each answer.
///
/// An event that is refused gives no order. Where the answer to an order is refused, as for a record out of its range, and where the
/// future is dropped after its first order, the event stays open at that order: [`Service::order`] has it, and [`Service::answer`]
/// goes on.
///
/// ```
/// use power_policy::*;
///
/// /// One port that obeys.
/// struct Port(Psu);
///
/// impl Devices for Port {
///     async fn disconnect(&mut self, _port: u8) -> Result<(), PsuError> {
///         self.0.psu_state = PsuState::Idle;
///         Ok(())
///     }
///     async fn connect_consumer(&mut self, _port: u8, capability: ConsumerPowerCapability) -> Result<(), PsuError> {
///         self.0.psu_state = PsuState::ConnectedConsumer(capability);
///         Ok(())
///     }
///     async fn connect_provider(&mut self, _port: u8, capability: ProviderPowerCapability) -> Result<(), PsuError> {
///         self.0.psu_state = PsuState::ConnectedProvider(capability);
///         Ok(())
///     }
///     async fn is_ready(&mut self, _charger: u8) -> Result<(), ChargerError> {
///         Err(ChargerError) // there is no charger
///     }
///     async fn init_charger(&mut self, _charger: u8) -> Result<(), ChargerError> {
///         Err(ChargerError)
///     }
///     async fn attach_handler(&mut self, _charger: u8, _capability: ConsumerPowerCapability) -> Result<(), ChargerError> {
///         Err(ChargerError)
///     }
///     async fn detach_handler(&mut self, _charger: u8) -> Result<(), ChargerError> {
///         Err(ChargerError)
///     }
///     async fn wait(&mut self, _millis: u64) {} // the executor's timer
///     async fn records(&mut self, records: &mut Records) {
///         records.set_psu(0, &self.0);
///     }
/// }
///
/// let offered = ConsumerPowerCapability {
///     capability: PowerCapability { voltage_mv: 20000, current_ma: 3000 },
///     flags: ConsumerFlags::default(),
/// };
/// let mut port = Port(Psu { psu_state: PsuState::Idle, consumer_capability: Some(offered), ..Psu::default() });
/// let mut service = Service::start(1, 0, &Config::default())?;
/// let event = Event::UpdatedConsumerCapability { port: 0 };
/// # fn block_on<F: Future>(future: F) -> F::Output {
/// #     let mut context = core::task::Context::from_waker(core::task::Waker::noop());
/// #     let mut future = core::pin::pin!(future);
/// #     loop {
/// #         if let core::task::Poll::Ready(output) = future.as_mut().poll(&mut context) {
/// #             return output;
/// #         }
/// #     }
/// # }
/// let outcome = block_on(run_event(&mut service, &mut port, event))?;
/// assert_eq!(outcome, Outcome { end: End::Done, orders: 2 });
/// assert_eq!(port.0.psu_state, PsuState::ConnectedConsumer(offered));
/// # Ok::<(), Error>(())
/// ```
pub async fn run_event(
    service: &mut Service,
    devices: &mut impl Devices,
    event: Event,
) -> Result<Outcome, Error> {
    let mut reply = service.open(event, &present(service, devices).await)?;
    loop {
        let order = match reply {
            Reply::Order(order) => order,
            Reply::Closed(outcome) => return Ok(outcome),
        };
        let answer = perform(devices, order).await;
        reply = service.answer(answer, &present(service, devices).await)?;
    }
}

async fn present(service: &Service, devices: &mut impl Devices) -> Records {
    let mut records = Records::new(service.ports(), service.chargers());
    devices.records(&mut records).await;
    records
}

async fn perform(devices: &mut impl Devices, order: Order) -> Answer {
    match order {
        Order::Disconnect { port } => devices.disconnect(port).await.into(),
        Order::ConnectConsumer { port, capability } => {
            devices.connect_consumer(port, capability).await.into()
        }
        Order::ConnectProvider { port, capability } => {
            devices.connect_provider(port, capability).await.into()
        }
        Order::IsReady { charger } => devices.is_ready(charger).await.into(),
        Order::InitCharger { charger } => devices.init_charger(charger).await.into(),
        Order::Attach {
            charger,
            capability,
        } => devices.attach_handler(charger, capability).await.into(),
        Order::Detach { charger } => devices.detach_handler(charger).await.into(),
        Order::Wait { millis } => {
            devices.wait(millis.into()).await;
            Answer::Done
        }
    }
}
