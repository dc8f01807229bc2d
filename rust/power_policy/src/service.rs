//! The policy, as its image and the calls on it.

use crate::{
    Answer, BUFFER, Config, Error, Event, Records, Reply, SERVICE_IMAGE, ffi,
    reply::{done, reply, written},
};

/// The policy between calls, as its image.
///
/// ```
/// use power_policy::*;
///
/// let mut service = Service::start(1, 0, &Config::default())?;
/// let mut records = Records::new(service.ports(), service.chargers());
/// let offered = ConsumerPowerCapability {
///     capability: PowerCapability { voltage_mv: 20000, current_ma: 3000 },
///     flags: ConsumerFlags::default(),
/// };
/// let mut psu = Psu { psu_state: PsuState::Idle, consumer_capability: Some(offered), ..Psu::default() };
/// records.set_psu(0, &psu);
///
/// let reply = service.open(Event::UpdatedConsumerCapability { port: 0 }, &records)?;
/// assert_eq!(reply, Reply::Order(Order::ConnectConsumer { port: 0, capability: offered }));
///
/// // The device has done so, and its record says it.
/// psu.psu_state = PsuState::ConnectedConsumer(offered);
/// records.set_psu(0, &psu);
/// let reply = service.answer(Answer::Done, &records)?;
/// assert_eq!(reply, Reply::Order(Order::Wait { millis: 800 }));
/// let reply = service.answer(Answer::Done, &records)?;
/// assert_eq!(reply, Reply::Closed(Outcome { end: End::Done, orders: 2 }));
/// # Ok::<(), Error>(())
/// ```
#[derive(Clone, Copy, Debug, PartialEq, Eq)]
pub struct Service([u8; SERVICE_IMAGE]);

impl Service {
    /// A fresh service. Refused: [`Configuration`](crate::Refusal::Configuration), over 16 ports or 8 chargers.
    ///
    /// ```
    /// use power_policy::{Config, Error, Refusal, Service};
    ///
    /// let refused = Service::start(17, 0, &Config::default());
    /// assert_eq!(refused, Err(Error::Refused(Refusal::Configuration)));
    /// ```
    pub fn start(ports: u8, chargers: u8, config: &Config) -> Result<Self, Error> {
        let mut service = Self([0; SERVICE_IMAGE]);
        let result = ffi::start(
            &mut service.0,
            ports.into(),
            chargers.into(),
            config.limited_power_threshold_mw.into(),
            config.provider_unlimited.voltage_mv.into(),
            config.provider_unlimited.current_ma.into(),
            config.provider_limited.voltage_mv.into(),
            config.provider_limited.current_ma.into(),
            config.min_consumer_threshold_mw.is_some().into(),
            config.min_consumer_threshold_mw.unwrap_or(0).into(),
        );
        done(result).map(|()| service)
    }

    /// The service whose [`image`](Self::image) these bytes are, which were kept over a restart; it goes on where it stood
    /// ([`Service::order`]). Refused: [`Image`](crate::Refusal::Image), bytes that no service is written as, by their content or by
    /// their length.
    ///
    /// ```
    /// use power_policy::{Config, Error, Refusal, SERVICE_IMAGE, Service};
    ///
    /// let service = Service::start(2, 1, &Config::default())?;
    /// let kept = *service.image();
    /// assert_eq!(Service::from_image(&kept), Ok(service));
    ///
    /// let refused = Err(Error::Refused(Refusal::Image));
    /// assert_eq!(Service::from_image(&[0; SERVICE_IMAGE]), refused);
    /// assert_eq!(Service::from_image(&kept[1..]), refused);
    /// # Ok::<(), Error>(())
    /// ```
    pub fn from_image(image: &[u8]) -> Result<Self, Error> {
        let result = ffi::order(image);
        reply(result)?;
        image.try_into().map(Self).or(Err(Error::Unknown(result)))
    }

    /// The bytes to keep over a restart (docs/STATE.md).
    pub fn image(&self) -> &[u8; SERVICE_IMAGE] {
        &self.0
    }

    /// The ports registered.
    pub fn ports(&self) -> u8 {
        self.0[1]
    }

    /// The chargers registered.
    pub fn chargers(&self) -> u8 {
        self.0[2]
    }

    /// Opens an event, with the present records. Refused: [`Records`](crate::Refusal::Records) to [`Open`](crate::Refusal::Open), and
    /// [`LastNumber`](crate::Refusal::LastNumber).
    pub fn open(&mut self, event: Event, records: &Records) -> Result<Reply, Error> {
        let [kind, device, detail] = event.numbers();
        let (psus, chargers) = (records.psus(), records.chargers());
        reply(ffi::open(&mut self.0, psus, chargers, kind, device, detail))
    }

    /// Answers the last order, with the present records. Refused: [`Records`](crate::Refusal::Records), [`Kind`](crate::Refusal::Kind), an
    /// answer that the order cannot have, and [`NoOrder`](crate::Refusal::NoOrder). An order whose answer is refused stays open.
    pub fn answer(&mut self, answer: Answer, records: &Records) -> Result<Reply, Error> {
        let (psus, chargers) = (records.psus(), records.chargers());
        reply(ffi::answer(&mut self.0, psus, chargers, answer.number()))
    }

    /// Where the event stands: the order that waits, or the close of the last PSU event. It is not refused.
    ///
    /// ```
    /// use power_policy::*;
    ///
    /// let service = Service::start(0, 0, &Config::default())?;
    /// assert_eq!(service.order()?, Reply::Closed(Outcome { end: End::Done, orders: 0 }));
    /// # Ok::<(), Error>(())
    /// ```
    pub fn order(&self) -> Result<Reply, Error> {
        reply(ffi::order(&self.0))
    }

    /// Writes the packet of the event closed last and gives its length; later bytes of the buffer stay. Refused:
    /// [`Open`](crate::Refusal::Open), [`NoEvent`](crate::Refusal::NoEvent).
    pub fn write_packet(&self, buffer: &mut [u8; BUFFER]) -> Result<usize, Error> {
        written(ffi::write_packet(&self.0, buffer))
    }

    /// Writes the full picture and gives its length; later bytes of the buffer stay. Refused: [`Open`](crate::Refusal::Open).
    ///
    /// ```
    /// use power_policy::*;
    ///
    /// let service = Service::start(2, 1, &Config::default())?;
    /// let mut buffer = [0; BUFFER];
    /// let length = service.write_picture(&mut buffer)?;
    /// assert_eq!(buffer[..length], [2, 0, 0, 0, 0, 0]);
    /// # Ok::<(), Error>(())
    /// ```
    pub fn write_picture(&self, buffer: &mut [u8; BUFFER]) -> Result<usize, Error> {
        written(ffi::write_picture(&self.0, buffer))
    }
}
