//! Stand-in: the traits that `psu/event.rs` and the service implement. The names and signatures
//! are those that their implementations show.

use embedded_services::sync::Lockable;

use crate::{
    capability::{ConsumerPowerCapability, DisconnectFlags, ProviderPowerCapability},
    psu,
};

/// Why a notification was not passed on.
#[derive(Debug, Clone, Copy, PartialEq, Eq)]
pub enum Error {
    /// A sender that does not block had no room.
    WouldBlock,
}

/// Passes on the notifications of a PSU.
pub trait Notifier {
    fn notify_attached(&mut self) -> impl Future<Output = Result<(), Error>>;
    fn notify_updated_consumer_capability(
        &mut self,
        capability: Option<ConsumerPowerCapability>,
    ) -> impl Future<Output = Result<(), Error>>;
    fn notify_requested_provider_capability(
        &mut self,
        capability: Option<ProviderPowerCapability>,
    ) -> impl Future<Output = Result<(), Error>>;
    fn notify_disconnected(
        &mut self,
        disconnect: DisconnectFlags,
    ) -> impl Future<Output = Result<(), Error>>;
    fn notify_detached(&mut self) -> impl Future<Output = Result<(), Error>>;
}

/// Handles the notifications of the PSUs.
pub trait NotificationHandler<'device> {
    type Psu: Lockable<Inner: psu::Psu> + 'device;

    fn process_notify_attached(
        &mut self,
        device: &'device Self::Psu,
    ) -> impl Future<Output = Result<(), psu::Error>>;
    fn process_notify_detached(
        &mut self,
        device: &'device Self::Psu,
    ) -> impl Future<Output = Result<(), psu::Error>>;
    fn process_notify_updated_consumer_capability(
        &mut self,
        device: &'device Self::Psu,
        capability: Option<ConsumerPowerCapability>,
    ) -> impl Future<Output = Result<(), psu::Error>>;
    fn process_notify_requested_provider_capability(
        &mut self,
        requester: &'device Self::Psu,
        capability: Option<ProviderPowerCapability>,
    ) -> impl Future<Output = Result<(), psu::Error>>;
    fn process_notify_disconnected(
        &mut self,
        device: &'device Self::Psu,
        disconnect: DisconnectFlags,
    ) -> impl Future<Output = Result<(), psu::Error>>;
}
