//! Safe types over the C functions of the console's power policy (include/power_policy.h).
//!
//! [`Service`] is the policy: [`Service::open`] an event, do the order that it replies with, [`Service::answer`], until it is
//! closed; [`run_event`] does so over a trait of devices. [`Follower`] is the desk's side of the packets.
//!
//! ```
//! use power_policy::*;
//!
//! // The console and the desk start, and the desk takes the console's picture.
//! let mut service = Service::start(1, 0, &Config::default())?;
//! let mut desk = Follower::start()?;
//! let mut buffer = [0; BUFFER];
//! let length = service.write_picture(&mut buffer)?;
//! desk.take(&buffer[..length])?;
//!
//! // An event is run to its close, and the desk takes its packet.
//! let records = Records::new(1, 0);
//! let mut reply = service.open(Event::Attached { port: 0 }, &records)?;
//! while let Reply::Order(order) = reply {
//!     println!("{order:?}"); // to the device, which answers
//!     reply = service.answer(Answer::Done, &records)?;
//! }
//! let length = service.write_packet(&mut buffer)?;
//! desk.take(&buffer[..length])?;
//! assert_eq!(desk.shown()?, Shown::Level(Figures { number: 1, unconstrained: false, available: 0 }));
//! # Ok::<(), Error>(())
//! ```

#![no_std]
#![deny(missing_docs)]
#![deny(unsafe_code)]

mod capability;
mod config;
mod device;
mod event;
#[doc(hidden)]
pub mod ffi;
mod follower;
mod record;
mod reply;
mod service;

pub use capability::{
    ConsumerFlags, ConsumerPowerCapability, DisconnectReason, PowerCapability, ProviderFlags,
    ProviderPowerCapability, PsuType,
};
pub use config::Config;
pub use device::{Devices, run_event};
pub use event::{ChargerPsuState, Event};
pub use follower::Follower;
pub use record::{CHARGER_RECORD, Charger, ChargerState, PSU_RECORD, Psu, PsuState, Records};
pub use reply::{
    Answer, ChargerError, Consumer, End, Error, Figures, Order, Outcome, PsuError, Refusal, Reply,
    Shown, StateKind, StateSet, Tracked,
};
pub use service::Service;

/// At most so many ports are registered.
pub const MAX_PORTS: usize = 16;
/// At most so many chargers are registered.
pub const MAX_CHARGERS: usize = 8;
/// The length of a service's image.
pub const SERVICE_IMAGE: usize = 67;
/// The length of a follower's image.
pub const FOLLOWER_IMAGE: usize = 241;
/// The length of a buffer that any packet or picture fits in.
pub const BUFFER: usize = 64;
/// The length of a follower's page.
pub const PAGE: usize = 246;
/// The milliseconds of a wait, which its order carries.
pub const WAIT_MILLIS: u64 = 800;
