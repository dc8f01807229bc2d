//! The console's devices. They obey, but for those that the day has fail.

use power_policy::*;

pub const PORTS: u8 = 4;
pub const CHARGERS: u8 = 2;

pub struct Console {
    pub psus: [Psu; PORTS as usize],
    pub chargers: [Charger; CHARGERS as usize],
    /// A charger that does not answer.
    pub deaf: Option<u8>,
    /// A port that does not connect in time.
    pub slow: Option<u8>,
    /// The orders since they were last taken, as the table has them.
    pub orders: Vec<String>,
}

impl Console {
    /// Nothing is plugged in; charger 0 is powered, charger 1 is not.
    pub fn new() -> Self {
        let mut chargers = [Charger::default(); CHARGERS as usize];
        chargers[0].state = ChargerState::PsuDetached;
        Self {
            psus: [Psu::default(); PORTS as usize],
            chargers,
            deaf: None,
            slow: None,
            orders: Vec::new(),
        }
    }

    pub fn psu(&mut self, port: u8) -> &mut Psu {
        &mut self.psus[usize::from(port)]
    }

    /// Notes an order to a port, and whether it is carried out.
    fn connect(&mut self, order: String, port: u8) -> Result<(), PsuError> {
        if self.slow == Some(port) {
            self.orders.push(order + "!");
            Err(PsuError::Timeout)
        } else {
            self.orders.push(order);
            Ok(())
        }
    }

    /// Notes an order to a charger, and gives the charger if it answers.
    fn charger(&mut self, order: char, charger: u8) -> Result<&mut Charger, ChargerError> {
        if self.deaf == Some(charger) {
            self.orders.push(format!("{order}{charger}!"));
            Err(ChargerError)
        } else {
            self.orders.push(format!("{order}{charger}"));
            Ok(&mut self.chargers[usize::from(charger)])
        }
    }
}

impl Devices for Console {
    async fn disconnect(&mut self, port: u8) -> Result<(), PsuError> {
        self.orders.push(format!("X{port}"));
        self.psu(port).psu_state = PsuState::Idle;
        Ok(())
    }

    async fn connect_consumer(
        &mut self,
        port: u8,
        capability: ConsumerPowerCapability,
    ) -> Result<(), PsuError> {
        self.connect(format!("C{port}"), port)?;
        self.psu(port).psu_state = PsuState::ConnectedConsumer(capability);
        Ok(())
    }

    async fn connect_provider(
        &mut self,
        port: u8,
        capability: ProviderPowerCapability,
    ) -> Result<(), PsuError> {
        let granted = capability.capability.max_power_mw();
        self.connect(format!("P{port}:{granted}"), port)?;
        self.psu(port).psu_state = PsuState::ConnectedProvider(capability);
        Ok(())
    }

    async fn is_ready(&mut self, charger: u8) -> Result<(), ChargerError> {
        self.charger('r', charger)?.state = ChargerState::Init;
        Ok(())
    }

    async fn init_charger(&mut self, charger: u8) -> Result<(), ChargerError> {
        self.charger('i', charger)?.state = ChargerState::PsuAttached;
        Ok(())
    }

    async fn attach_handler(
        &mut self,
        charger: u8,
        capability: ConsumerPowerCapability,
    ) -> Result<(), ChargerError> {
        *self.charger('a', charger)? = Charger {
            state: ChargerState::PsuAttached,
            capability: Some(capability),
        };
        Ok(())
    }

    async fn detach_handler(&mut self, charger: u8) -> Result<(), ChargerError> {
        *self.charger('d', charger)? = Charger {
            state: ChargerState::PsuDetached,
            capability: None,
        };
        Ok(())
    }

    async fn wait(&mut self, _millis: u64) {
        self.orders.push("w".to_string());
    }

    async fn records(&mut self, records: &mut Records) {
        for (port, psu) in (0..).zip(&self.psus) {
            records.set_psu(port, psu);
        }
        for (number, charger) in (0..).zip(&self.chargers) {
            records.set_charger(number, charger);
        }
    }
}
