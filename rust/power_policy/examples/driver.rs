//! A console whose devices stand behind a mutex, as the original's do. The driver of port 0 holds the lock while it talks to its supply, and the
//! policy waits for the lock before it reads the records and before it carries out an order. The executor is a few lines; firmware brings its own.

// The lock is held over an await: that is what a task waits for.
#![allow(clippy::await_holding_refcell_ref)]

use std::{
    cell::{Cell, RefCell, RefMut},
    future::{Future, poll_fn},
    pin::pin,
    process::ExitCode,
    task::{Context, Poll, Waker},
};

use power_policy::*;

/// Runs two tasks in turn until both are done: the whole executor.
fn run<A>(first: impl Future<Output = A>, second: impl Future<Output = ()>) -> A {
    let (mut first, mut second) = (pin!(first), pin!(second));
    let mut context = Context::from_waker(Waker::noop());
    let (mut output, mut ended) = (Poll::Pending, false);
    loop {
        if output.is_pending() {
            output = first.as_mut().poll(&mut context);
        }
        ended = ended || second.as_mut().poll(&mut context).is_ready();
        match (output, ended) {
            (Poll::Ready(output), true) => return output,
            (rest, _) => output = rest,
        }
    }
}

/// Lets the other task have so many turns.
async fn turns(count: u32) {
    let mut left = count;
    poll_fn(|_| {
        if left == 0 {
            return Poll::Ready(());
        }
        left -= 1;
        Poll::Pending
    })
    .await;
}

/// A mutex for the tasks of one thread.
struct Mutex<T>(RefCell<T>);

impl<T> Mutex<T> {
    /// The value, once no other task has it.
    async fn lock(&self, who: &str) -> RefMut<'_, T> {
        let mut said = false;
        poll_fn(|_| match self.0.try_borrow_mut() {
            Ok(value) => Poll::Ready(value),
            Err(_) => {
                if !said {
                    println!("{who} waits for the lock");
                    said = true;
                }
                Poll::Pending
            }
        })
        .await
    }
}

/// The records of a port and a charger.
#[derive(Default)]
struct Console {
    psu: Psu,
    charger: Charger,
}

/// The devices as the policy has them.
struct Locked<'a>(&'a Mutex<Console>);

impl Locked<'_> {
    async fn lock(&self) -> RefMut<'_, Console> {
        self.0.lock("policy").await
    }
}

impl Devices for Locked<'_> {
    async fn disconnect(&mut self, port: u8) -> Result<(), PsuError> {
        let mut console = self.lock().await;
        println!("policy: disconnect port {port}");
        console.psu.psu_state = PsuState::Idle;
        Ok(())
    }

    async fn connect_consumer(
        &mut self,
        port: u8,
        capability: ConsumerPowerCapability,
    ) -> Result<(), PsuError> {
        let mut console = self.lock().await;
        let mw = capability.capability.max_power_mw();
        println!("policy: connect port {port}, {mw} mW");
        console.psu.psu_state = PsuState::ConnectedConsumer(capability);
        Ok(())
    }

    async fn connect_provider(
        &mut self,
        port: u8,
        capability: ProviderPowerCapability,
    ) -> Result<(), PsuError> {
        let mut console = self.lock().await;
        println!("policy: provide port {port}");
        console.psu.psu_state = PsuState::ConnectedProvider(capability);
        Ok(())
    }

    async fn is_ready(&mut self, charger: u8) -> Result<(), ChargerError> {
        let mut console = self.lock().await;
        println!("policy: is charger {charger} ready");
        console.charger.state = ChargerState::Init;
        Ok(())
    }

    async fn init_charger(&mut self, charger: u8) -> Result<(), ChargerError> {
        let mut console = self.lock().await;
        println!("policy: initialize charger {charger}");
        console.charger.state = ChargerState::PsuAttached;
        Ok(())
    }

    async fn attach_handler(
        &mut self,
        charger: u8,
        capability: ConsumerPowerCapability,
    ) -> Result<(), ChargerError> {
        let mut console = self.lock().await;
        println!("policy: attach charger {charger}");
        console.charger = Charger {
            state: ChargerState::PsuAttached,
            capability: Some(capability),
        };
        Ok(())
    }

    async fn detach_handler(&mut self, charger: u8) -> Result<(), ChargerError> {
        let mut console = self.lock().await;
        println!("policy: detach charger {charger}");
        console.charger = Charger {
            state: ChargerState::PsuDetached,
            capability: None,
        };
        Ok(())
    }

    async fn wait(&mut self, millis: u64) {
        println!("policy: wait {millis} ms");
        turns(2).await;
    }

    async fn records(&mut self, records: &mut Records) {
        let console = self.lock().await;
        records.set_psu(0, &console.psu);
        records.set_charger(0, &console.charger);
    }
}

fn offer(current_ma: u16) -> Option<ConsumerPowerCapability> {
    Some(ConsumerPowerCapability {
        capability: PowerCapability {
            voltage_mv: 20000,
            current_ma,
        },
        flags: ConsumerFlags::default(),
    })
}

/// The driver of port 0: it finds a supply, and while the policy is at work on it, finds that it offers less.
async fn driver(console: &Mutex<Console>, event: &Cell<Option<Event>>) {
    for current_ma in [3000, 2000] {
        let mut locked = console.lock("driver").await;
        println!("driver: asks the supply");
        event.set(Some(Event::UpdatedConsumerCapability { port: 0 }));
        turns(2).await;
        if locked.psu.psu_state == PsuState::Detached {
            locked.psu.psu_state = PsuState::Idle;
        }
        locked.psu.consumer_capability = offer(current_ma);
        println!("driver: the supply offers {current_ma} mA");
        drop(locked);
        turns(1).await;
    }
}

/// The policy: runs the events as they come, until two are closed.
async fn policy(console: &Mutex<Console>, event: &Cell<Option<Event>>) -> Result<(), Error> {
    let mut service = Service::start(1, 1, &Config::default())?;
    for _ in 0..2 {
        let next = poll_fn(|_| event.take().map_or(Poll::Pending, Poll::Ready)).await;
        let outcome = run_event(&mut service, &mut Locked(console), next).await?;
        println!("policy: {:?} after {} orders", outcome.end, outcome.orders);
    }
    Ok(())
}

fn main() -> ExitCode {
    let console = Mutex(RefCell::new(Console::default()));
    let event = Cell::new(None);
    match run(policy(&console, &event), driver(&console, &event)) {
        Ok(()) => ExitCode::SUCCESS,
        Err(error) => {
            println!("{error}");
            ExitCode::FAILURE
        }
    }
}
