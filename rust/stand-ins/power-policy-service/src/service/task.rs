//! Stand-in: the original holds the task that waits for events. Here, as a child of `service`, it
//! opens private fields of [`Service`] to the driver. No function of the original calls it.

use super::*;

impl<'device, Reg: Registration<'device>, Customization: customization::Customization>
    Service<'device, Reg, Customization>
{
    /// What the service holds.
    pub fn internal_state(&self) -> &InternalState<'device, Reg::Psu> {
        &self.state
    }

    /// What is registered.
    pub fn registration(&self) -> &Reg {
        &self.registration
    }

    /// Makes the service hold `state`.
    pub fn set_internal_state(&mut self, state: InternalState<'device, Reg::Psu>) {
        self.state = state;
    }
}
