//! A project of somebody else: one port offers 60 W, and the policy connects it.

use std::process::ExitCode;

use power_policy::*;

/// A port that obeys.
fn obey(order: Order, psu: &mut Psu) -> Answer {
    match order {
        Order::ConnectConsumer { port, capability } => {
            psu.psu_state = PsuState::ConnectedConsumer(capability);
            let mw = capability.capability.max_power_mw();
            println!("connect port {port}, {mw} mW");
            Answer::Done
        }
        Order::Wait { millis } => {
            println!("wait {millis} ms");
            Answer::Done
        }
        // No other order comes to one port and no charger.
        _ => Answer::Failed(PsuError::Failed),
    }
}

fn run() -> Result<(), Error> {
    let mut config = Config::rust_default();
    config.min_consumer_threshold_mw = Some(7500);
    let mut service = Service::start(1, 0, &config)?;
    let mut psu = Psu {
        psu_state: PsuState::Idle,
        consumer_capability: Some(ConsumerPowerCapability {
            capability: PowerCapability {
                voltage_mv: 20000,
                current_ma: 3000,
            },
            flags: ConsumerFlags::default(),
        }),
        ..Psu::default()
    };
    let mut records = Records::new(1, 0);
    records.set_psu(0, &psu);
    let mut reply = service.open(Event::UpdatedConsumerCapability { port: 0 }, &records)?;
    loop {
        let order = match reply {
            Reply::Order(order) => order,
            Reply::Closed(outcome) => {
                println!("closed after {} orders", outcome.orders);
                return Ok(());
            }
        };
        let answer = obey(order, &mut psu);
        records.set_psu(0, &psu);
        reply = service.answer(answer, &records)?;
    }
}

fn main() -> ExitCode {
    match run() {
        Ok(()) => ExitCode::SUCCESS,
        Err(error) => {
            println!("{error}");
            ExitCode::FAILURE
        }
    }
}
