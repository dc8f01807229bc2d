//! A console of three ports and two chargers, and a desk that follows it: a supply is attached and chosen, a device is provided,
//! and the supply is detached while a charger does not answer. Last comes the desk's page. Prints what examples/event.c prints.

use std::{
    future::Future,
    pin::pin,
    process::ExitCode,
    task::{Context, Poll, Waker},
};

use power_policy::*;

/// Devices that obey, and print what they are told.
#[derive(Default)]
struct Console {
    psus: [Psu; 3],
    chargers: [Charger; 2],
    /// Whether chargers no longer answer.
    deaf: bool,
}

fn print_capability(power: PowerCapability, flags: u8) {
    println!(
        ", {} mV, {} mA, flags {flags}",
        power.voltage_mv, power.current_ma
    );
}

impl Console {
    fn charger_answer(&self) -> Result<(), ChargerError> {
        if self.deaf { Err(ChargerError) } else { Ok(()) }
    }
}

impl Devices for Console {
    async fn disconnect(&mut self, port: u8) -> Result<(), PsuError> {
        println!("  order: disconnect port {port}");
        self.psus[usize::from(port)].psu_state = PsuState::Idle;
        Ok(())
    }

    async fn connect_consumer(
        &mut self,
        port: u8,
        capability: ConsumerPowerCapability,
    ) -> Result<(), PsuError> {
        print!("  order: connect consumer, port {port}");
        print_capability(capability.capability, capability.encode()[4]);
        self.psus[usize::from(port)].psu_state = PsuState::ConnectedConsumer(capability);
        Ok(())
    }

    async fn connect_provider(
        &mut self,
        port: u8,
        capability: ProviderPowerCapability,
    ) -> Result<(), PsuError> {
        print!("  order: connect provider, port {port}");
        print_capability(capability.capability, capability.encode()[4]);
        self.psus[usize::from(port)].psu_state = PsuState::ConnectedProvider(capability);
        Ok(())
    }

    async fn is_ready(&mut self, charger: u8) -> Result<(), ChargerError> {
        println!("  order: is_ready, charger {charger}");
        self.chargers[usize::from(charger)].state = ChargerState::Init;
        self.charger_answer()
    }

    async fn init_charger(&mut self, charger: u8) -> Result<(), ChargerError> {
        println!("  order: init_charger, charger {charger}");
        self.chargers[usize::from(charger)].state = ChargerState::PsuAttached;
        self.charger_answer()
    }

    async fn attach_handler(
        &mut self,
        charger: u8,
        capability: ConsumerPowerCapability,
    ) -> Result<(), ChargerError> {
        print!("  order: attach, charger {charger}");
        print_capability(capability.capability, capability.encode()[4]);
        self.chargers[usize::from(charger)].capability = Some(capability);
        self.charger_answer()
    }

    async fn detach_handler(&mut self, charger: u8) -> Result<(), ChargerError> {
        println!("  order: detach, charger {charger}");
        self.charger_answer()
    }

    async fn wait(&mut self, millis: u64) {
        println!("  order: wait {millis} ms");
    }

    async fn records(&mut self, records: &mut Records) {
        for (port, psu) in (0..).zip(&self.psus) {
            records.set_psu(port, psu);
        }
        for (number, charger) in (0..).zip(&self.chargers) {
            records.set_charger(number, charger);
        }
    }
}

/// The output of a future that does not wait. Firmware has an executor.
fn now<F: Future>(future: F) -> F::Output {
    let mut future = pin!(future);
    loop {
        if let Poll::Ready(output) = future
            .as_mut()
            .poll(&mut Context::from_waker(Waker::noop()))
        {
            return output;
        }
    }
}

/// Hands the bytes to the follower and prints them and what it shows.
fn take(follower: &mut Follower, what: &str, packet: &[u8]) -> Result<(), Error> {
    print!("  {what}:");
    for byte in packet {
        print!(" {byte:02x}");
    }
    println!();
    follower.take(packet)?;
    match follower.shown()? {
        Shown::Lost => println!("  desk: lost"),
        Shown::Level(shown) | Shown::Waiting(shown) => {
            print!("  desk: event {}", shown.number);
            match follower.consumer()? {
                None => print!(", no consumer"),
                Some(consumer) => print!(
                    ", consumer {} with {} mW",
                    consumer.port,
                    consumer.capability.capability.max_power_mw()
                ),
            }
            print!(
                ", unconstrained {} of {}",
                u8::from(shown.unconstrained),
                shown.available
            );
            println!(", tracked {:#06x}", follower.tracked()?.0);
        }
    }
    Ok(())
}

/// A console, its policy and the desk.
struct World {
    console: Console,
    service: Service,
    follower: Follower,
}

impl World {
    /// An event from its opening to its close, and the desk's take of its packet.
    fn event(&mut self, what: &str, event: Event) -> Result<(), Error> {
        println!("{what}");
        let outcome = now(run_event(&mut self.service, &mut self.console, event))?;
        match outcome.end {
            End::Done => print!("  closed: done"),
            End::Failed(error) => print!("  closed: error {}", error as u8),
            End::WrongState { expected, actual } => {
                print!(
                    "  closed: expected {:#x}, actual {}",
                    expected.0, actual as u8
                );
            }
        }
        println!(", orders {}", outcome.orders);
        let mut buffer = [0; BUFFER];
        let length = self.service.write_packet(&mut buffer)?;
        take(&mut self.follower, "packet", &buffer[..length])
    }

    fn picture(&mut self) -> Result<(), Error> {
        let mut buffer = [0; BUFFER];
        let length = self.service.write_picture(&mut buffer)?;
        take(&mut self.follower, "picture", &buffer[..length])
    }

    fn page(&self) -> Result<(), Error> {
        let mut page = [0; PAGE];
        self.follower.write_page(&mut page)?;
        print!("{}", String::from_utf8_lossy(&page));
        Ok(())
    }
}

fn run() -> Result<(), Error> {
    let mut world = World {
        console: Console::default(),
        service: Service::start(3, 2, &Config::default())?,
        follower: Follower::start()?,
    };
    world.console.chargers[0].state = ChargerState::PsuDetached;

    println!("start");
    world.picture()?;

    world.console.psus[1].psu_state = PsuState::Idle;
    world.event("port 1 attached", Event::Attached { port: 1 })?;

    world.console.psus[1].consumer_capability = Some(ConsumerPowerCapability {
        capability: PowerCapability {
            voltage_mv: 20000,
            current_ma: 3000,
        },
        flags: ConsumerFlags {
            unconstrained_power: true,
            psu_type: Some(PsuType::TypeC),
        },
    });
    world.event(
        "port 1 offers 60 W",
        Event::UpdatedConsumerCapability { port: 1 },
    )?;

    world.console.psus[2].psu_state = PsuState::Idle;
    world.console.psus[2].requested_provider_capability = Some(ProviderPowerCapability {
        capability: PowerCapability {
            voltage_mv: 5000,
            current_ma: 900,
        },
        flags: ProviderFlags {
            psu_type: Some(PsuType::TypeC),
        },
    });
    world.event(
        "port 2 asks for 4.5 W",
        Event::RequestedProviderCapability { port: 2 },
    )?;

    world.console.psus[1] = Psu::default();
    world.console.deaf = true;
    world.event(
        "port 1 detached, chargers deaf",
        Event::Detached { port: 1 },
    )?;
    world.picture()?;
    world.page()
}

fn main() -> ExitCode {
    match run() {
        Ok(()) => ExitCode::SUCCESS,
        Err(error) => {
            println!("{error}");
            ExitCode::FAILURE
        }
    }
}
