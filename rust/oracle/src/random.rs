//! Random runs of the original service. A seed gives the same runs every time.

use power_policy_interface::{
    capability::{
        ConsumerFlags, ConsumerPowerCapability, DisconnectReason, PowerCapability, ProviderFlags,
        ProviderPowerCapability,
    },
    charger, psu,
};

use crate::{
    driver::{CHARGER_ERROR, Config, Event, MAX_CHARGERS, MAX_PORTS, Order, OrderKind, Records},
    record,
    run::{Run, Session, obey},
};

/// SplitMix64.
#[derive(Debug, Clone)]
pub struct Rng(u64);

impl Rng {
    pub fn new(seed: u64) -> Self {
        Self(seed)
    }

    pub fn next_u64(&mut self) -> u64 {
        self.0 = self.0.wrapping_add(0x9E37_79B9_7F4A_7C15);
        let z = self.0;
        let z = (z ^ (z >> 30)).wrapping_mul(0xBF58_476D_1CE4_E5B9);
        let z = (z ^ (z >> 27)).wrapping_mul(0x94D0_49BB_1331_11EB);
        z ^ (z >> 31)
    }

    /// A number below `end`, which is not 0.
    pub fn below(&mut self, end: usize) -> usize {
        (self.next_u64() % end as u64) as usize
    }

    /// True `part` times in `whole`.
    pub fn chance(&mut self, part: usize, whole: usize) -> bool {
        self.below(whole) < part
    }

    pub fn pick<T: Copy>(&mut self, all: &[T]) -> T {
        all[self.below(all.len())]
    }

    fn option<T>(&mut self, part: usize, whole: usize, make: fn(&mut Self) -> T) -> Option<T> {
        self.chance(part, whole).then(|| make(self))
    }

    /// Mostly from a few with equal, nearly equal and border milliwatts.
    pub fn power(&mut self) -> PowerCapability {
        const POWERS: [(u16, u16); 12] = [
            (5000, 3000),
            (15000, 1000),
            (3000, 5000),
            (5000, 3001),
            (5000, 1500),
            (7499, 1000),
            (5000, 500),
            (20000, 3000),
            (12000, 5000),
            (65535, 65535),
            (999, 1),
            (0, 0),
        ];
        let (voltage_mv, current_ma) = if self.chance(1, 10) {
            (self.next_u64() as u16, self.next_u64() as u16)
        } else {
            self.pick(&POWERS)
        };
        PowerCapability {
            voltage_mv,
            current_ma,
        }
    }

    pub fn consumer(&mut self) -> ConsumerPowerCapability {
        ConsumerPowerCapability {
            capability: self.power(),
            flags: ConsumerFlags {
                unconstrained_power: self.chance(1, 2),
                psu_type: self.pick(&record::PSU_TYPES),
            },
        }
    }

    pub fn provider(&mut self) -> ProviderPowerCapability {
        ProviderPowerCapability {
            capability: self.power(),
            flags: ProviderFlags {
                psu_type: self.pick(&record::PSU_TYPES),
            },
        }
    }

    pub fn port(&mut self) -> psu::State {
        psu::State {
            psu_state: match self.below(8) {
                0 => psu::PsuState::Detached,
                1..=3 => psu::PsuState::Idle,
                4 | 5 => psu::PsuState::ConnectedProvider(self.provider()),
                _ => psu::PsuState::ConnectedConsumer(self.consumer()),
            },
            consumer_capability: self.option(1, 2, Self::consumer),
            requested_provider_capability: self.option(2, 3, Self::provider),
        }
    }

    pub fn charger(&mut self) -> charger::State {
        let mut state = charger::State::default();
        if self.chance(2, 3) {
            state.on_ready_success();
        }
        if self.chance(2, 3) {
            // Refused by an unpowered charger, which stays one.
            let _ = state.on_initialized(self.psu_state());
        }
        if self.chance(1, 2) {
            state.on_policy_attach(self.consumer());
        }
        state
    }

    pub fn psu_state(&mut self) -> charger::PsuState {
        self.pick(&[charger::PsuState::Attached, charger::PsuState::Detached])
    }

    pub fn records(&mut self, ports: usize, chargers: usize) -> Records {
        Records {
            ports: (0..ports).map(|_| self.port()).collect(),
            chargers: (0..chargers).map(|_| self.charger()).collect(),
        }
    }

    pub fn reason(&mut self) -> Option<DisconnectReason> {
        self.pick(&record::REASONS)
    }

    pub fn config(&mut self) -> Config {
        let mut config = Config::default();
        if self.chance(1, 2) {
            let any = self.next_u64() as u32;
            config.limited_power_threshold_mw =
                self.pick(&[0, 7499, 7500, 15000, 15001, 60000, u32::MAX, any]);
            config.provider_unlimited = self.power();
            config.provider_limited = self.power();
        }
        if self.chance(1, 2) {
            let any = self.next_u64() as u32;
            let minimum = self.pick(&[0, 1, 7499, 7500, 15000, 60000, 60001, u32::MAX, any]);
            config.min_consumer_threshold_mw = Some(minimum);
        }
        config
    }

    /// An event of any kind that names a registered device, mostly a request if `requests`. `None` if
    /// nothing is registered.
    pub fn event(&mut self, ports: usize, chargers: usize, requests: bool) -> Option<Event> {
        if chargers > 0 && (ports == 0 || self.chance(1, 12)) {
            return Some(Event::Charger {
                charger: self.below(chargers) as u8,
                psu_state: self.psu_state(),
            });
        }
        if ports == 0 {
            return None;
        }
        let port = self.below(ports) as u8;
        Some(match self.below(if requests { 24 } else { 9 }) {
            0 => Event::Attached { port },
            1 | 2 => Event::UpdatedConsumerCapability { port },
            3 | 4 => Event::Disconnected {
                port,
                reason: self.reason(),
            },
            5 => Event::Detached { port },
            _ => Event::RequestedProviderCapability { port },
        })
    }

    /// An answer to the order, failing `part` times in `whole` where it can fail.
    pub fn answer(&mut self, order: &Order, part: usize, whole: usize) -> u8 {
        if order.kind == OrderKind::Wait || !self.chance(part, whole) {
            0
        } else if order.kind.is_charger() {
            CHARGER_ERROR
        } else {
            1 + self.below(10) as u8
        }
    }
}

/// How the records of a run change.
#[derive(Clone, Copy, PartialEq, Eq)]
enum Change {
    /// Devices obey; now and then a record changes by itself.
    Obedient,
    /// Devices obey; ports come into other states and mostly keep capability and request.
    Restless,
    /// Any record at any reply.
    Wild,
}

/// Endless random runs.
pub struct Runs {
    rng: Rng,
}

impl Runs {
    pub fn new(seed: u64) -> Self {
        Self {
            rng: Rng::new(seed),
        }
    }

    fn run(&mut self) -> Run {
        let rng = &mut self.rng;
        let config = rng.config();
        let ports = rng.below(MAX_PORTS + 1);
        let chargers = rng.below(MAX_CHARGERS + 1);
        let change = rng.pick(&[Change::Obedient, Change::Restless, Change::Wild]);
        let requests = rng.chance(1, 3);
        let failures = rng.pick(&[0, 1, 4]);
        let mut session = Session::start(config, ports, chargers);
        let mut records = match change {
            Change::Obedient => Records::default_of(ports, chargers),
            Change::Restless | Change::Wild => rng.records(ports, chargers),
        };
        for _ in 0..1 + rng.below(24) {
            let Some(event) = rng.event(ports, chargers, requests) else {
                break;
            };
            alter(rng, &mut records, change);
            let opening = records.clone();
            session.event(event, &opening, |order| {
                let answer = rng.answer(order, failures, 16);
                if answer == 0 && (change != Change::Wild || rng.chance(1, 2)) {
                    obey(&mut records, order);
                }
                if change == Change::Wild || rng.chance(1, 16) {
                    alter(rng, &mut records, Change::Wild);
                }
                (answer, records.clone())
            });
        }
        session.finish()
    }
}

impl Iterator for Runs {
    type Item = Run;

    fn next(&mut self) -> Option<Run> {
        Some(self.run())
    }
}

/// Changes some records or none.
fn alter(rng: &mut Rng, records: &mut Records, change: Change) {
    match (change, rng.below(8)) {
        (Change::Wild, 0) => *records = rng.records(records.ports.len(), records.chargers.len()),
        (Change::Wild, 1) => {}
        (Change::Wild, _) => {
            if !records.ports.is_empty() {
                let port = rng.below(records.ports.len());
                records.ports[port] = rng.port();
            }
            if !records.chargers.is_empty() {
                let charger = rng.below(records.chargers.len());
                records.chargers[charger] = rng.charger();
            }
        }
        (Change::Restless, what) => {
            for record in &mut records.ports {
                if rng.chance(1, 4) {
                    record.psu_state = rng.port().psu_state;
                }
                if what == 0 && rng.chance(1, 4) {
                    *record = rng.port();
                }
            }
        }
        (Change::Obedient, what) => {
            for record in &mut records.ports {
                if rng.chance(2, 3) {
                    continue;
                }
                // What a transition refuses it changes all the same, or leaves as it was.
                let _ = match what {
                    0 => {
                        record.detach();
                        Ok(())
                    }
                    1 => record.disconnect(rng.chance(1, 2)),
                    2..=4 => {
                        record.update_consumer_power_capability(rng.option(3, 4, Rng::consumer))
                    }
                    _ => record.update_requested_provider_power_capability(rng.option(
                        3,
                        4,
                        Rng::provider,
                    )),
                };
                if record.psu_state == psu::PsuState::Detached && rng.chance(3, 4) {
                    record.attach().expect("a Detached port");
                }
            }
            if !records.chargers.is_empty() && rng.chance(1, 4) {
                let charger = rng.below(records.chargers.len());
                records.chargers[charger] = rng.charger();
            }
        }
    }
}
