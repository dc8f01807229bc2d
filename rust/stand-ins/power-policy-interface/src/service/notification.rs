//! Stand-in: the trait that `service/event.rs` implements and the service calls. The names and
//! signatures are those that its implementations and calls show.

use embedded_services::sync::Lockable;

use crate::{
    capability::{ConsumerPowerCapability, DisconnectFlags, ProviderPowerCapability},
    psu::Psu,
    service::UnconstrainedState,
};

/// Why a notification was not passed on.
#[derive(Debug, Clone, Copy, PartialEq, Eq)]
pub enum Error {
    /// A sender that does not block had no room.
    WouldBlock,
}

/// Passes on the notifications of the service.
pub trait Notifier<'device> {
    type Psu: Lockable<Inner: Psu> + 'device;

    fn notify_consumer_disconnected(
        &mut self,
        psu: &'device Self::Psu,
        disconnect: DisconnectFlags,
    ) -> impl Future<Output = Result<(), Error>>;
    fn notify_consumer_connected(
        &mut self,
        psu: &'device Self::Psu,
        capability: ConsumerPowerCapability,
    ) -> impl Future<Output = Result<(), Error>>;
    fn notify_provider_disconnected(
        &mut self,
        psu: &'device Self::Psu,
    ) -> impl Future<Output = Result<(), Error>>;
    fn notify_provider_connected(
        &mut self,
        psu: &'device Self::Psu,
        capability: ProviderPowerCapability,
    ) -> impl Future<Output = Result<(), Error>>;
    fn notify_unconstrained(
        &mut self,
        unconstrained: UnconstrainedState,
    ) -> impl Future<Output = Result<(), Error>>;
}
