//! The service: its state, its image, and what events and answers do.

use crate::{
    SERVICE_IMAGE,
    group::{
        Capability, Contract, Display, LAST_ANSWER, LAST_REASON, MOST_CHARGERS, MOST_PORTS, Role,
        bool_at, optional_at, put_optional, u16_at, u32_at, zeros,
    },
    record::{self, Records},
    reply::{self, Order, Refusal},
};

/// Reasons by their numbers.
const NO_REASON: u8 = 0;
const DETACHED: u8 = 1;
const SWITCHING: u8 = 2;
const AUTO_RENEGOTIATION: u8 = 3;

/// The answer InvalidState.
const INVALID_STATE: u8 = 4;
/// The answer Charger, the one error of a charger's order.
const CHARGER: u8 = 9;

/// The set of expected states: Idle and the one that is named.
const IDLE_OR_CONSUMER: u8 = 1 << record::IDLE | 1 << record::CONSUMER;
const IDLE_OR_PROVIDER: u8 = 1 << record::IDLE | 1 << record::PROVIDER;

#[derive(Clone, Copy, Debug, PartialEq, Eq)]
pub struct Config {
    limited_power_threshold_mw: u32,
    provider_unlimited: Power,
    provider_limited: Power,
    min_consumer_threshold_mw: Option<u32>,
}

/// mV and mA.
#[derive(Clone, Copy, Debug, PartialEq, Eq)]
struct Power {
    mv: u16,
    ma: u16,
}

impl Power {
    fn from_numbers([mv, ma]: [u64; 2]) -> Option<Self> {
        Some(Self {
            mv: mv.try_into().ok()?,
            ma: ma.try_into().ok()?,
        })
    }

    fn at(image: &[u8; SERVICE_IMAGE], at: usize) -> Self {
        Self {
            mv: u16_at(image, at),
            ma: u16_at(image, at + 2),
        }
    }

    fn put(self, image: &mut [u8; SERVICE_IMAGE], at: usize) {
        image[at..at + 2].copy_from_slice(&self.mv.to_le_bytes());
        image[at + 2..at + 4].copy_from_slice(&self.ma.to_le_bytes());
    }

    fn with_flags(self, flags: u8) -> Capability {
        let Self { mv, ma } = self;
        Capability { mv, ma, flags }
    }
}

impl Config {
    /// The configuration, if each figure fits its type.
    pub fn from_numbers(
        threshold_mw: u64,
        unlimited: [u64; 2],
        limited: [u64; 2],
        minimum_present: u64,
        minimum_mw: u64,
    ) -> Option<Self> {
        Some(Self {
            limited_power_threshold_mw: threshold_mw.try_into().ok()?,
            provider_unlimited: Power::from_numbers(unlimited)?,
            provider_limited: Power::from_numbers(limited)?,
            min_consumer_threshold_mw: match minimum_present {
                0 => None,
                1 => Some(minimum_mw.try_into().ok()?),
                _ => return None,
            },
        })
    }
}

/// An event that names a registered device.
#[derive(Clone, Copy, Debug, PartialEq, Eq)]
pub enum Event {
    Attached,
    UpdatedConsumerCapability,
    RequestedProviderCapability { port: u8 },
    Disconnected { port: u8, reason: u8 },
    Charger,
}

impl Event {
    pub fn from_numbers(
        kind: u32,
        device: u32,
        detail: u32,
        ports: u8,
        chargers: u8,
    ) -> Result<Self, Refusal> {
        let devices = if kind == 5 { chargers } else { ports };
        if device >= u32::from(devices) {
            return Err(Refusal::Device);
        }
        let port = device as u8;
        match (kind, detail) {
            (0, _) => Ok(Self::Attached),
            (1, _) => Ok(Self::UpdatedConsumerCapability),
            (2, _) => Ok(Self::RequestedProviderCapability { port }),
            (3, 0..=6) => Ok(Self::Disconnected {
                port,
                reason: detail as u8,
            }),
            (4, _) => Ok(Self::Disconnected {
                port,
                reason: DETACHED,
            }),
            (5, 0 | 1) => Ok(Self::Charger),
            _ => Err(Refusal::Kind),
        }
    }
}

/// Where the event stands: closed, or at an order.
#[derive(Clone, Copy, Debug, PartialEq, Eq)]
enum Phase {
    Closed {
        answer: u8,
        expected: u8,
        actual: u8,
    },
    /// Detaching a charger; no consumer is left.
    Leaving {
        charger: u8,
        port: u8,
        reason: u8,
    },
    /// Disconnecting the old consumer's PSU, or detaching a charger.
    Switching {
        charger: Option<u8>,
        port: u8,
        reason: u8,
        new: Contract,
    },
    Connecting {
        stage: Stage,
        charger: u8,
        new: Contract,
    },
    Providing {
        grant: Contract,
    },
}

#[derive(Clone, Copy, Debug, PartialEq, Eq)]
enum Stage {
    Psu,
    Settling,
    Readying,
    Initializing,
    Attaching,
}

impl Phase {
    /// The ten bytes from 37 on, if they are a phase with so many ports and chargers.
    fn from_image(image: &[u8; SERVICE_IMAGE], ports: u8, chargers: u8) -> Option<Self> {
        let [kind, a, b, c] = [image[37], image[38], image[39], image[40]];
        let no_contract = || zeros(&image[41..47]);
        let contract = |role| Contract::at(image, 41, role, ports);
        match kind {
            0 => {
                let states = match b {
                    0 => c == 0,
                    1..=15 => a == INVALID_STATE && c <= 3,
                    _ => false,
                };
                (a <= LAST_ANSWER && states && no_contract()).then_some(Self::Closed {
                    answer: a,
                    expected: b,
                    actual: c,
                })
            }
            1 => (a < chargers && b < ports && c <= LAST_REASON && no_contract()).then_some(
                Self::Leaving {
                    charger: a,
                    port: b,
                    reason: c,
                },
            ),
            2 => {
                let new = contract(Role::Consumer)?;
                (a <= chargers && b < ports && c <= LAST_REASON).then_some(Self::Switching {
                    charger: a.checked_sub(1),
                    port: b,
                    reason: c,
                    new,
                })
            }
            3 => {
                let new = contract(Role::Consumer)?;
                let stage = match a {
                    0 => Stage::Psu,
                    1 => Stage::Settling,
                    2 => Stage::Readying,
                    3 => Stage::Initializing,
                    4 => Stage::Attaching,
                    _ => return None,
                };
                let charger = match stage {
                    Stage::Psu | Stage::Settling => b == 0,
                    _ => b < chargers,
                };
                (charger && c == 0).then_some(Self::Connecting {
                    stage,
                    charger: b,
                    new,
                })
            }
            4 => {
                let grant = contract(Role::Provider)?;
                (a == 0 && b == 0 && c == 0).then_some(Self::Providing { grant })
            }
            _ => None,
        }
    }

    fn put(self, image: &mut [u8; SERVICE_IMAGE]) {
        let (head, contract) = match self {
            Self::Closed {
                answer,
                expected,
                actual,
            } => ([0, answer, expected, actual], None),
            Self::Leaving {
                charger,
                port,
                reason,
            } => ([1, charger, port, reason], None),
            Self::Switching {
                charger,
                port,
                reason,
                new,
            } => {
                let at = charger.map_or(0, |charger| charger + 1);
                ([2, at, port, reason], Some(new))
            }
            Self::Connecting {
                stage,
                charger,
                new,
            } => ([3, stage as u8, charger, 0], Some(new)),
            Self::Providing { grant } => ([4, 0, 0, 0], Some(grant)),
        };
        image[37..41].copy_from_slice(&head);
        if let Some(contract) = contract {
            contract.put(image, 41);
        }
    }

    /// The least and the most orders that have been given, with so many chargers.
    fn orders(self, chargers: u8) -> (u8, u8) {
        let c = chargers;
        match self {
            Self::Closed { .. } => (0, 3 + 4 * c),
            Self::Leaving { charger: i, .. } => (1, 1 + i),
            Self::Switching { charger: None, .. } => (1, 1),
            Self::Switching {
                charger: Some(i), ..
            } => (1, 2 + i),
            Self::Connecting {
                stage, charger: i, ..
            } => match stage {
                Stage::Psu => (1, 2 + c),
                Stage::Settling => (2, 3 + c),
                Stage::Readying => (3 + i, 4 + c + 3 * i),
                Stage::Initializing => (4 + i, 5 + c + 3 * i),
                Stage::Attaching => (3 + i, 6 + c + 3 * i),
            },
            Self::Providing { .. } => (1, 1),
        }
    }

    /// The order and its device, if the event is open.
    fn order(self) -> Option<(Order, u8)> {
        Some(match self {
            Self::Closed { .. } => return None,
            Self::Leaving { charger, .. } => (Order::Detach, charger),
            Self::Switching {
                charger: None,
                port,
                ..
            } => (Order::Disconnect, port),
            Self::Switching {
                charger: Some(charger),
                ..
            } => (Order::Detach, charger),
            Self::Connecting {
                stage,
                charger,
                new,
            } => match stage {
                Stage::Psu => (Order::ConnectConsumer, new.port),
                Stage::Settling => (Order::Wait, 0),
                Stage::Readying => (Order::IsReady, charger),
                Stage::Initializing => (Order::InitCharger, charger),
                Stage::Attaching => (Order::Attach, charger),
            },
            Self::Providing { grant } => (Order::ConnectProvider, grant.port),
        })
    }
}

/// What an event tells of a provider.
#[derive(Clone, Copy, Debug, PartialEq, Eq)]
pub enum ProviderNotice {
    None,
    Disconnected { port: u8 },
    Connected(Contract),
}

/// What an event tells, in the order of the fields.
#[derive(Clone, Copy, Debug, PartialEq, Eq)]
pub struct Notices {
    pub provider: ProviderNotice,
    /// The port and the reason.
    pub consumer_disconnected: Option<(u8, u8)>,
    pub consumer_connected: Option<Contract>,
    /// Unconstrained, and available.
    pub unconstrained: Option<(bool, u8)>,
}

impl Notices {
    const NONE: Self = Self {
        provider: ProviderNotice::None,
        consumer_disconnected: None,
        consumer_connected: None,
        unconstrained: None,
    };

    /// The twenty bytes from 47 on, if they are notices with so many ports.
    fn from_image(image: &[u8; SERVICE_IMAGE], ports: u8) -> Option<Self> {
        let provider = match image[47] {
            0 if zeros(&image[48..54]) => ProviderNotice::None,
            1 if image[48] < ports && zeros(&image[49..54]) => {
                ProviderNotice::Disconnected { port: image[48] }
            }
            2 => ProviderNotice::Connected(Contract::at(image, 48, Role::Provider, ports)?),
            _ => return None,
        };
        let consumer_disconnected = match [image[54], image[55], image[56]] {
            [0, 0, 0] => None,
            [1, port, reason] if port < ports && reason <= LAST_REASON => Some((port, reason)),
            _ => return None,
        };
        let unconstrained = match [image[64], image[65], image[66]] {
            [0, 0, 0] => None,
            [1, flag, available] if flag <= 1 && available <= ports => Some((flag == 1, available)),
            _ => return None,
        };
        Some(Self {
            provider,
            consumer_disconnected,
            consumer_connected: optional_at(image, 57, ports)?,
            unconstrained,
        })
    }

    fn put(&self, image: &mut [u8; SERVICE_IMAGE]) {
        match self.provider {
            ProviderNotice::None => {}
            ProviderNotice::Disconnected { port } => image[47..49].copy_from_slice(&[1, port]),
            ProviderNotice::Connected(contract) => {
                image[47] = 2;
                contract.put(image, 48);
            }
        }
        if let Some((port, reason)) = self.consumer_disconnected {
            image[54..57].copy_from_slice(&[1, port, reason]);
        }
        put_optional(self.consumer_connected, image, 57);
        if let Some((unconstrained, available)) = self.unconstrained {
            image[64..67].copy_from_slice(&[1, u8::from(unconstrained), available]);
        }
    }

    /// Whether the phase allows these.
    fn fit(&self, phase: &Phase) -> bool {
        let connected = matches!(self.provider, ProviderNotice::Connected(_));
        let late = self.consumer_connected.is_some() || self.unconstrained.is_some();
        match phase {
            Phase::Closed { .. } => true,
            Phase::Leaving { .. } | Phase::Switching { .. } => {
                !connected && !late && self.consumer_disconnected.is_none()
            }
            Phase::Connecting { .. } => !connected && !late,
            Phase::Providing { .. } => *self == Self::NONE,
        }
    }
}

#[derive(Clone, Copy, Debug, PartialEq, Eq)]
pub struct Service {
    pub ports: u8,
    pub chargers: u8,
    config: Config,
    /// The number of the event closed last.
    pub number: u32,
    pub display: Display,
    /// Whether the power state is Limited.
    limited: bool,
    /// Orders that the open or last closed event has given.
    pub orders: u8,
    phase: Phase,
    pub notices: Notices,
}

impl Service {
    /// A fresh service, if there are not too many devices and there is a configuration.
    pub fn start(ports: u32, chargers: u32, config: Option<Config>) -> Option<Self> {
        if ports > u32::from(MOST_PORTS) || chargers > u32::from(MOST_CHARGERS) {
            return None;
        }
        Some(Self {
            ports: ports as u8,
            chargers: chargers as u8,
            config: config?,
            number: 0,
            display: Display::EMPTY,
            limited: false,
            orders: 0,
            phase: Phase::Closed {
                answer: 0,
                expected: 0,
                actual: 0,
            },
            notices: Notices::NONE,
        })
    }

    /// The service that is written so, if one is.
    pub fn from_image(image: &[u8; SERVICE_IMAGE]) -> Option<Self> {
        let (ports, chargers) = (image[1], image[2]);
        if image[0] != 1 || ports > MOST_PORTS || chargers > MOST_CHARGERS {
            return None;
        }
        let min_consumer_threshold_mw = match (image[15], u32_at(image, 16)) {
            (0, 0) => None,
            (1, minimum) => Some(minimum),
            _ => return None,
        };
        let service = Self {
            ports,
            chargers,
            config: Config {
                limited_power_threshold_mw: u32_at(image, 3),
                provider_unlimited: Power::at(image, 7),
                provider_limited: Power::at(image, 11),
                min_consumer_threshold_mw,
            },
            number: u32_at(image, 20),
            display: Display::at(image, 24, ports)?,
            limited: bool_at(image, 35)?,
            orders: image[36],
            phase: Phase::from_image(image, ports, chargers)?,
            notices: Notices::from_image(image, ports)?,
        };
        let (least, most) = service.phase.orders(chargers);
        let fits = least <= service.orders
            && service.orders <= most
            && service.notices.fit(&service.phase)
            && (!service.is_open() || service.number < u32::MAX);
        fits.then_some(service)
    }

    pub fn to_image(self) -> [u8; SERVICE_IMAGE] {
        let mut image = [0; SERVICE_IMAGE];
        image[..3].copy_from_slice(&[1, self.ports, self.chargers]);
        let config = &self.config;
        image[3..7].copy_from_slice(&config.limited_power_threshold_mw.to_le_bytes());
        config.provider_unlimited.put(&mut image, 7);
        config.provider_limited.put(&mut image, 11);
        if let Some(minimum) = config.min_consumer_threshold_mw {
            image[15] = 1;
            image[16..20].copy_from_slice(&minimum.to_le_bytes());
        }
        image[20..24].copy_from_slice(&self.number.to_le_bytes());
        self.display.put(&mut image, 24);
        image[35] = u8::from(self.limited);
        image[36] = self.orders;
        self.phase.put(&mut image);
        self.notices.put(&mut image);
        image
    }

    pub fn is_open(&self) -> bool {
        !matches!(self.phase, Phase::Closed { .. })
    }

    /// The answer of the event closed last; 0 while one is open.
    pub fn closed_with(&self) -> u8 {
        match self.phase {
            Phase::Closed { answer, .. } => answer,
            _ => 0,
        }
    }

    /// Where the event stands, as a result.
    pub fn stand(&self) -> u64 {
        let capability = match self.phase {
            Phase::Closed {
                answer,
                expected,
                actual,
            } => return reply::closed(answer, expected, actual, self.orders),
            Phase::Connecting {
                stage: Stage::Psu | Stage::Attaching,
                new: contract,
                ..
            }
            | Phase::Providing { grant: contract } => contract.capability,
            _ => Capability::default(),
        };
        let (order, device) = self.phase.order().expect("an open event");
        reply::order(order, device, capability)
    }

    /// The answer, if the open order can be answered so. Without one, any answer there is.
    pub fn accepted(&self, answer: u32) -> Option<u8> {
        let fits = match self.phase.order() {
            Some((Order::Wait, _)) => answer == 0,
            Some((Order::IsReady | Order::InitCharger | Order::Attach | Order::Detach, _)) => {
                answer == 0 || answer == u32::from(CHARGER)
            }
            _ => answer <= u32::from(LAST_ANSWER),
        };
        fits.then_some(answer as u8)
    }

    /// Opens an event of a port. None is open.
    pub fn open(&mut self, event: Event, records: &Records) {
        self.orders = 0;
        self.notices = Notices::NONE;
        match event {
            Event::Attached | Event::Charger => self.close(0),
            Event::UpdatedConsumerCapability => self.update(NO_REASON, records),
            Event::RequestedProviderCapability { port } => self.provide(port, records),
            Event::Disconnected { port, reason } => {
                self.remove_provider(port, records);
                self.update(reason, records);
            }
        }
    }

    /// Goes on after the answer to the open order.
    pub fn answer(&mut self, answer: u8, records: &Records) {
        if answer != 0 {
            self.close(answer);
            return;
        }
        match self.phase {
            Phase::Closed { .. } => {}
            Phase::Leaving {
                charger,
                port,
                reason,
            } => self.leave(charger + 1, port, reason, records),
            Phase::Switching {
                charger,
                port,
                reason,
                new,
            } => {
                let next = charger.map_or(0, |charger| charger + 1);
                self.switch(next, port, reason, new, records);
            }
            Phase::Connecting {
                stage,
                charger,
                new,
            } => match stage {
                Stage::Psu => {
                    self.display.consumer = Some(new);
                    self.connecting(Stage::Settling, 0, new);
                }
                Stage::Settling => self.charge(0, new, records),
                Stage::Readying => self.connecting(Stage::Initializing, charger, new),
                Stage::Initializing => self.connecting(Stage::Attaching, charger, new),
                Stage::Attaching => self.charge(charger + 1, new, records),
            },
            Phase::Providing { grant } => {
                self.display.track(grant.port);
                self.notices.provider = ProviderNotice::Connected(grant);
                self.close(0);
            }
        }
    }

    fn ask(&mut self, phase: Phase) {
        self.orders += 1;
        self.phase = phase;
    }

    fn connecting(&mut self, stage: Stage, charger: u8, new: Contract) {
        self.ask(Phase::Connecting {
            stage,
            charger,
            new,
        });
    }

    fn close(&mut self, answer: u8) {
        self.close_with(answer, 0, 0);
    }

    fn close_with(&mut self, answer: u8, expected: u8, actual: u8) {
        self.number += 1;
        self.phase = Phase::Closed {
            answer,
            expected,
            actual,
        };
    }

    /// If the port is tracked, it no longer is, and the power state follows what is left.
    fn remove_provider(&mut self, port: u8, records: &Records) {
        if self.display.is_tracked(port) {
            self.display.untrack(port);
            let total = records
                .provider_contracts()
                .map(|(_, contract)| contract.mw())
                .sum();
            self.set_power_state(total);
            self.notices.provider = ProviderNotice::Disconnected { port };
        }
    }

    fn set_power_state(&mut self, total_mw: u32) {
        self.limited = total_mw > self.config.limited_power_threshold_mw;
    }

    fn provide(&mut self, port: u8, records: &Records) {
        let Some(request) = records.request(port) else {
            self.close(0);
            return;
        };
        let others = records
            .provider_contracts()
            .filter(|(other, _)| *other != port);
        let total: u32 = others.map(|(_, contract)| contract.mw()).sum();
        self.set_power_state(total + request.mw());
        let unlimited = self.config.provider_unlimited.with_flags(request.flags);
        let capability = if self.limited {
            self.config.provider_limited.with_flags(request.flags)
        } else if request.mw() < unlimited.mw() {
            request
        } else {
            unlimited
        };
        match records.state(port) {
            record::IDLE | record::PROVIDER => self.ask(Phase::Providing {
                grant: Contract { port, capability },
            }),
            actual => self.close_with(INVALID_STATE, IDLE_OR_PROVIDER, actual),
        }
    }

    /// The eligible port with most mW, the current one among equals, then the earliest.
    fn best_consumer(&self, records: &Records) -> Option<Contract> {
        let minimum = self.config.min_consumer_threshold_mw.unwrap_or(0);
        let current = self.display.consumer.map(|consumer| consumer.port);
        let mut best: Option<((u32, bool), Contract)> = None;
        for (port, capability) in records.consumer_capabilities() {
            let key = (capability.mw(), current == Some(port));
            if key.0 >= minimum && best.is_none_or(|(greatest, _)| key > greatest) {
                best = Some((key, Contract { port, capability }));
            }
        }
        best.map(|(_, contract)| contract)
    }

    fn update(&mut self, reason: u8, records: &Records) {
        match (self.display.consumer, self.best_consumer(records)) {
            (None, None) => self.finish(records),
            (Some(old), None) => self.leave(0, old.port, reason, records),
            (None, Some(new)) => self.connect(new, records),
            (Some(old), Some(new)) if old == new => self.finish(records),
            (Some(old), Some(new)) => {
                self.display.consumer = None;
                if records.state(old.port) == record::CONSUMER {
                    self.ask(Phase::Switching {
                        charger: None,
                        port: old.port,
                        reason,
                        new,
                    });
                } else {
                    self.switch(0, old.port, reason, new, records);
                }
            }
        }
    }

    /// Detaches the powered chargers from `from` on; then there is no consumer.
    fn leave(&mut self, from: u8, port: u8, reason: u8, records: &Records) {
        match records.powered_from(from) {
            Some(charger) => self.ask(Phase::Leaving {
                charger,
                port,
                reason,
            }),
            None => {
                self.notices.consumer_disconnected = Some((port, reason));
                self.display.consumer = None;
                self.finish(records);
            }
        }
    }

    /// Detaches the powered chargers from `from` on; then the new consumer is connected.
    fn switch(&mut self, from: u8, port: u8, reason: u8, new: Contract, records: &Records) {
        match records.powered_from(from) {
            Some(charger) => self.ask(Phase::Switching {
                charger: Some(charger),
                port,
                reason,
                new,
            }),
            None => {
                let told = if port == new.port {
                    AUTO_RENEGOTIATION
                } else if reason != NO_REASON {
                    reason
                } else {
                    SWITCHING
                };
                self.notices.consumer_disconnected = Some((port, told));
                self.connect(new, records);
            }
        }
    }

    fn connect(&mut self, new: Contract, records: &Records) {
        match records.state(new.port) {
            record::IDLE | record::CONSUMER => self.connecting(Stage::Psu, 0, new),
            actual => self.close_with(INVALID_STATE, IDLE_OR_CONSUMER, actual),
        }
    }

    /// Attaches the chargers from `charger` on, an unpowered one after it is ready and initialized.
    fn charge(&mut self, charger: u8, new: Contract, records: &Records) {
        if charger == self.chargers {
            self.notices.consumer_connected = Some(new);
            self.finish(records);
        } else if records.is_powered(charger) {
            self.connecting(Stage::Attaching, charger, new);
        } else {
            self.connecting(Stage::Readying, charger, new);
        }
    }

    /// The unconstrained figures, and the close without error.
    fn finish(&mut self, records: &Records) {
        let offers = records.consumer_capabilities();
        let available = offers.filter(|(_, offer)| offer.unconstrained()).count() as u8;
        let consumer = self.display.consumer;
        let unconstrained = consumer.is_some_and(|current| current.capability.unconstrained());
        if (unconstrained, available) != (self.display.unconstrained, self.display.available) {
            self.display.unconstrained = unconstrained;
            self.display.available = available;
            self.notices.unconstrained = Some((unconstrained, available));
        }
        self.close(0);
    }
}

#[cfg(test)]
mod tests {
    use super::*;

    /// An image, a few fields set, in every phase.
    fn images() -> [[u8; SERVICE_IMAGE]; 10] {
        let mut base = [0; SERVICE_IMAGE];
        base[..3].copy_from_slice(&[1, 16, 8]);
        base[15..20].copy_from_slice(&[1, 2, 3, 4, 5]);
        base[24..35].copy_from_slice(&[1, 15, 1, 2, 3, 4, 13, 1, 16, 0x0F, 0]);
        base[47..49].copy_from_slice(&[1, 15]);
        [
            (0, [0, 4, 15, 3, 0], 35),
            (0, [0, 10, 0, 0, 0], 0),
            (1, [1, 7, 15, 6, 0], 8),
            (2, [2, 0, 15, 6, 1], 1),
            (2, [2, 8, 15, 6, 1], 9),
            (3, [3, 0, 0, 0, 1], 10),
            (3, [3, 1, 0, 0, 1], 11),
            (3, [3, 2, 7, 0, 1], 33),
            (3, [3, 4, 7, 0, 1], 35),
            (4, [4, 0, 0, 0, 1], 1),
        ]
        .map(|(kind, phase, orders)| {
            let mut image = base;
            image[36] = orders;
            image[37..41].copy_from_slice(&phase[..4]);
            if phase[4] == 1 {
                image[41..47].copy_from_slice(&[15, 9, 9, 9, 9, 12]);
            }
            if kind == 4 {
                image[47..49].fill(0);
            }
            if kind == 0 || kind == 3 {
                image[54..57].copy_from_slice(&[1, 15, 6]);
            }
            if kind == 0 {
                image[47..54].copy_from_slice(&[2, 15, 1, 1, 1, 1, 12]);
                image[57..64].copy_from_slice(&[1, 15, 1, 1, 1, 1, 13]);
                image[64..67].copy_from_slice(&[1, 1, 16]);
            }
            image
        })
    }

    #[test]
    fn one_state_has_one_image() {
        for image in images() {
            assert_eq!(
                Service::from_image(&image).map(Service::to_image),
                Some(image)
            );
            for at in 0..SERVICE_IMAGE {
                for value in 0..=255 {
                    let mut other = image;
                    other[at] = value;
                    if let Some(service) = Service::from_image(&other) {
                        assert_eq!(service.to_image(), other);
                    }
                }
            }
        }
    }

    #[test]
    fn orders_are_bounded() {
        for image in images() {
            let service = Service::from_image(&image).unwrap();
            let (least, most) = service.phase.orders(service.chargers);
            for orders in 0..=255 {
                let mut other = image;
                other[36] = orders;
                let accepted = Service::from_image(&other).is_some();
                assert_eq!(accepted, least <= orders && orders <= most);
            }
        }
    }

    #[test]
    fn an_open_event_has_a_number_left() {
        for mut image in images() {
            image[20..24].fill(0xFF);
            assert_eq!(Service::from_image(&image).is_some(), image[37] == 0);
            image[20] = 0xFE;
            assert!(Service::from_image(&image).is_some());
        }
    }
}
