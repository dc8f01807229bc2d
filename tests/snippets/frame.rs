//! What README.md's snippet in Rust is put into, where the line README stands: two ports and a charger that obey, and a desk that has taken the
//! picture of a start.

use std::{
    future::Future,
    pin::pin,
    task::{Context, Poll, Waker},
};

use power_policy::*;

#[derive(Default)]
struct Obeying {
    psus: [Psu; 2],
    charger: Charger,
}

impl Devices for Obeying {
    async fn disconnect(&mut self, port: u8) -> Result<(), PsuError> {
        self.psus[usize::from(port)].psu_state = PsuState::Idle;
        Ok(())
    }

    async fn connect_consumer(
        &mut self,
        port: u8,
        capability: ConsumerPowerCapability,
    ) -> Result<(), PsuError> {
        self.psus[usize::from(port)].psu_state = PsuState::ConnectedConsumer(capability);
        Ok(())
    }

    async fn connect_provider(
        &mut self,
        port: u8,
        capability: ProviderPowerCapability,
    ) -> Result<(), PsuError> {
        self.psus[usize::from(port)].psu_state = PsuState::ConnectedProvider(capability);
        Ok(())
    }

    async fn is_ready(&mut self, _charger: u8) -> Result<(), ChargerError> {
        Ok(())
    }

    async fn init_charger(&mut self, _charger: u8) -> Result<(), ChargerError> {
        Ok(())
    }

    async fn attach_handler(
        &mut self,
        _charger: u8,
        _capability: ConsumerPowerCapability,
    ) -> Result<(), ChargerError> {
        Ok(())
    }

    async fn detach_handler(&mut self, _charger: u8) -> Result<(), ChargerError> {
        Ok(())
    }

    async fn wait(&mut self, _millis: u64) {}

    async fn records(&mut self, records: &mut Records) {
        records.set_psu(0, &self.psus[0]);
        records.set_psu(1, &self.psus[1]);
        records.set_charger(0, &self.charger);
    }
}

async fn snippet(mut devices: Obeying, desk: &mut Follower) -> Result<(), Error> {
README
    Ok(())
}

fn main() -> Result<(), Error> {
    let mut devices = Obeying::default();
    devices.psus[0] = Psu {
        psu_state: PsuState::Idle,
        consumer_capability: Some(ConsumerPowerCapability {
            capability: PowerCapability {
                voltage_mv: 5000,
                current_ma: 3000,
            },
            flags: ConsumerFlags::default(),
        }),
        ..Psu::default()
    };
    let mut desk = Follower::start()?;
    desk.take(&[2, 0, 0, 0, 0, 0])?;
    let polled = pin!(snippet(devices, &mut desk)).poll(&mut Context::from_waker(Waker::noop()));
    assert_eq!(polled, Poll::Ready(Ok(())));
    let consumer = desk.consumer()?.expect("a consumer at the desk");
    println!("the desk shows port {}", consumer.port);
    Ok(())
}
