//! Events run over devices that fail, wait and change by themselves.

use std::{
    future::{Future, poll_fn},
    pin::pin,
    task::{Context, Poll, Waker},
};

use power_policy::*;

fn now<F: Future>(future: F) -> F::Output {
    let mut future = pin!(future);
    loop {
        if let Poll::Ready(output) = future
            .as_mut()
            .poll(&mut Context::from_waker(Waker::noop()))
        {
            return output;
        }
    }
}

/// Devices that note their orders, and answer each after one turn.
#[derive(Default)]
struct Bench {
    psus: Vec<Psu>,
    chargers: Vec<Charger>,
    orders: Vec<String>,
    /// The order, counted from 1, that fails.
    fails: usize,
}

impl Bench {
    async fn order(&mut self, what: String) -> bool {
        self.orders.push(what);
        let mut turned = false;
        poll_fn(|context| {
            if turned {
                return Poll::Ready(());
            }
            turned = true;
            context.waker().wake_by_ref();
            Poll::Pending
        })
        .await;
        self.orders.len() != self.fails
    }

    async fn psu(&mut self, what: String) -> Result<(), PsuError> {
        if self.order(what).await {
            Ok(())
        } else {
            Err(PsuError::Timeout)
        }
    }

    async fn charger(&mut self, what: String) -> Result<(), ChargerError> {
        if self.order(what).await {
            Ok(())
        } else {
            Err(ChargerError)
        }
    }
}

impl Devices for Bench {
    async fn disconnect(&mut self, port: u8) -> Result<(), PsuError> {
        self.psu(format!("disconnect {port}")).await
    }

    async fn connect_consumer(
        &mut self,
        port: u8,
        capability: ConsumerPowerCapability,
    ) -> Result<(), PsuError> {
        self.psus[usize::from(port)].psu_state = PsuState::ConnectedConsumer(capability);
        self.psu(format!("consumer {port} {:?}", capability.encode()))
            .await
    }

    async fn connect_provider(
        &mut self,
        port: u8,
        capability: ProviderPowerCapability,
    ) -> Result<(), PsuError> {
        self.psu(format!("provider {port} {:?}", capability.encode()))
            .await
    }

    async fn is_ready(&mut self, charger: u8) -> Result<(), ChargerError> {
        self.charger(format!("is_ready {charger}")).await
    }

    async fn init_charger(&mut self, charger: u8) -> Result<(), ChargerError> {
        self.charger(format!("init {charger}")).await
    }

    async fn attach_handler(
        &mut self,
        charger: u8,
        capability: ConsumerPowerCapability,
    ) -> Result<(), ChargerError> {
        self.charger(format!("attach {charger} {:?}", capability.encode()))
            .await
    }

    async fn detach_handler(&mut self, charger: u8) -> Result<(), ChargerError> {
        self.charger(format!("detach {charger}")).await
    }

    async fn wait(&mut self, millis: u64) {
        self.order(format!("wait {millis}")).await;
    }

    async fn records(&mut self, records: &mut Records) {
        for (port, psu) in (0..).zip(&self.psus) {
            records.set_psu(port, psu);
        }
        for (number, charger) in (0..).zip(&self.chargers) {
            records.set_charger(number, charger);
        }
    }
}

fn consumer(voltage_mv: u16, current_ma: u16) -> ConsumerPowerCapability {
    ConsumerPowerCapability {
        capability: PowerCapability {
            voltage_mv,
            current_ma,
        },
        flags: ConsumerFlags {
            unconstrained_power: false,
            psu_type: Some(PsuType::Custom3),
        },
    }
}

fn bench() -> (Service, Bench) {
    let mut bench = Bench::default();
    let offering = Psu {
        psu_state: PsuState::Idle,
        consumer_capability: Some(consumer(5000, 3000)),
        requested_provider_capability: None,
    };
    let requesting = Psu {
        psu_state: PsuState::Idle,
        requested_provider_capability: Some(ProviderPowerCapability {
            capability: PowerCapability {
                voltage_mv: 15000,
                current_ma: 1000,
            },
            flags: ProviderFlags::default(),
        }),
        ..Psu::default()
    };
    bench.psus = vec![offering, requesting, Psu::default()];
    bench.chargers = vec![Charger::default()];
    (Service::start(3, 1, &Config::default()).unwrap(), bench)
}

const UPDATED: Event = Event::UpdatedConsumerCapability { port: 0 };

fn closed(end: End, orders: u8) -> Outcome {
    Outcome { end, orders }
}

#[test]
fn an_update() {
    let (mut service, mut bench) = bench();
    assert_eq!(
        now(run_event(&mut service, &mut bench, UPDATED)),
        Ok(closed(End::Done, 5))
    );
    let orders = [
        "consumer 0 [136, 19, 184, 11, 12]",
        "wait 800",
        "is_ready 0",
        "init 0",
        "attach 0 [136, 19, 184, 11, 12]",
    ];
    assert_eq!(bench.orders, orders);
}

#[test]
fn each_order_fails() {
    for (fails, error) in [
        (1, PsuError::Timeout),
        (3, PsuError::Charger),
        (4, PsuError::Charger),
        (5, PsuError::Charger),
    ] {
        let (mut service, mut bench) = bench();
        bench.fails = fails;
        let outcome = now(run_event(&mut service, &mut bench, UPDATED));
        let failed = closed(End::Failed(error), fails as u8);
        assert_eq!(outcome, Ok(failed));
        assert_eq!(bench.orders.len(), fails);
        // A charger's event closes without orders, and the close before it still stands.
        let event = Event::Charger {
            charger: 0,
            psu_state: ChargerPsuState::Attached,
        };
        let outcome = now(run_event(&mut service, &mut bench, event));
        assert_eq!(outcome, Ok(closed(End::Done, 0)));
        assert_eq!(service.order(), Ok(Reply::Closed(failed)));
    }
}

#[test]
fn a_wait() {
    let (mut service, mut bench) = bench();
    assert_eq!(service.order(), Ok(Reply::Closed(closed(End::Done, 0))));
    let mut records = Records::new(3, 1);
    now(bench.records(&mut records));
    service.open(UPDATED, &records).unwrap();
    let Ok(Reply::Order(Order::Wait { millis })) = service.answer(Answer::Done, &records) else {
        panic!("no wait");
    };
    assert_eq!(u64::from(millis), WAIT_MILLIS);
}

#[test]
fn a_request_and_a_wrong_state() {
    let (mut service, mut bench) = bench();
    let request = Event::RequestedProviderCapability { port: 1 };
    assert_eq!(
        now(run_event(&mut service, &mut bench, request)),
        Ok(closed(End::Done, 1))
    );
    assert_eq!(bench.orders, ["provider 1 [136, 19, 184, 11, 0]"]);
    bench.psus[1].psu_state = PsuState::Detached;
    let wrong = End::WrongState {
        expected: StateSet(6),
        actual: StateKind::Detached,
    };
    assert_eq!(
        now(run_event(&mut service, &mut bench, request)),
        Ok(closed(wrong, 0))
    );
}

#[test]
fn refused() {
    assert_eq!(
        Service::start(17, 0, &Config::default()),
        Err(Error::Refused(Refusal::Configuration))
    );
    let (mut service, mut bench) = bench();
    let outcome = now(run_event(
        &mut service,
        &mut bench,
        Event::Attached { port: 3 },
    ));
    assert_eq!(outcome, Err(Error::Refused(Refusal::Device)));
    assert!(bench.orders.is_empty());
    let mut buffer = [0; BUFFER];
    assert_eq!(
        service.write_packet(&mut buffer),
        Err(Error::Refused(Refusal::NoEvent))
    );

    // Dropped at its first order, the event stays open there.
    {
        let mut event = pin!(run_event(&mut service, &mut bench, UPDATED));
        let polled = event.as_mut().poll(&mut Context::from_waker(Waker::noop()));
        assert!(polled.is_pending());
    }
    let order = Order::ConnectConsumer {
        port: 0,
        capability: consumer(5000, 3000),
    };
    assert_eq!(service.order(), Ok(Reply::Order(order)));
    let outcome = now(run_event(&mut service, &mut bench, UPDATED));
    assert_eq!(outcome, Err(Error::Refused(Refusal::Open)));
    assert_eq!(
        service.write_picture(&mut buffer),
        Err(Error::Refused(Refusal::Open))
    );

    let mut follower = Follower::start().unwrap();
    assert_eq!(follower.take(&[]), Err(Error::Refused(Refusal::CutShort)));
    assert_eq!(follower.shown(), Ok(Shown::Lost));
}

/// A service and a follower go on from their images; no other bytes are one.
#[test]
fn kept() {
    let (mut service, mut bench) = bench();
    let mut records = Records::new(3, 1);
    now(bench.records(&mut records));
    let order = service.open(UPDATED, &records).unwrap();
    let mut again = Service::from_image(service.image()).unwrap();
    assert_eq!((again.ports(), again.chargers()), (3, 1));
    assert_eq!(again.order(), Ok(order));
    let answered = service.answer(Answer::Done, &records);
    assert_eq!(again.answer(Answer::Done, &records), answered);
    assert_eq!(again, service);

    let mut follower = Follower::start().unwrap();
    follower.take(&[2, 7, 0, 0, 0, 0]).unwrap();
    assert_eq!(Follower::from_image(follower.image()), Ok(follower));

    let none = Err(Error::Refused(Refusal::Image));
    assert_eq!(Service::from_image(follower.image()), none);
    assert_eq!(Service::from_image(&[0; SERVICE_IMAGE]), none);
    let long = [service.image().as_slice(), &[0]].concat();
    for length in (0..SERVICE_IMAGE).chain([SERVICE_IMAGE + 1]) {
        assert_eq!(Service::from_image(&long[..length]), none);
    }
    let none = Err(Error::Refused(Refusal::Image));
    assert_eq!(Follower::from_image(service.image()), none);
    assert_eq!(Follower::from_image(&[0; FOLLOWER_IMAGE]), none);
    let long = [follower.image().as_slice(), &[0]].concat();
    for length in (0..FOLLOWER_IMAGE).chain([FOLLOWER_IMAGE + 1]) {
        assert_eq!(Follower::from_image(&long[..length]), none);
    }

    // Each byte changed: accepted exactly if the C function does.
    let mut accepted = 0;
    for place in 0..SERVICE_IMAGE {
        let mut image = *service.image();
        image[place] ^= 1;
        let read = Service::from_image(&image);
        assert_eq!(read.is_ok(), ffi::order(&image) as u8 != 0);
        accepted += usize::from(read.is_ok());
    }
    assert!(0 < accepted && accepted < SERVICE_IMAGE);
}

/// Records that are read only after a while are those of the call.
#[test]
fn records_wait() {
    struct Late(Bench);

    impl Devices for Late {
        async fn disconnect(&mut self, port: u8) -> Result<(), PsuError> {
            self.0.disconnect(port).await
        }

        async fn connect_consumer(
            &mut self,
            port: u8,
            capability: ConsumerPowerCapability,
        ) -> Result<(), PsuError> {
            self.0.connect_consumer(port, capability).await
        }

        async fn connect_provider(
            &mut self,
            port: u8,
            capability: ProviderPowerCapability,
        ) -> Result<(), PsuError> {
            self.0.connect_provider(port, capability).await
        }

        async fn is_ready(&mut self, charger: u8) -> Result<(), ChargerError> {
            self.0.is_ready(charger).await
        }

        async fn init_charger(&mut self, charger: u8) -> Result<(), ChargerError> {
            self.0.init_charger(charger).await
        }

        async fn attach_handler(
            &mut self,
            charger: u8,
            capability: ConsumerPowerCapability,
        ) -> Result<(), ChargerError> {
            self.0.attach_handler(charger, capability).await
        }

        async fn detach_handler(&mut self, charger: u8) -> Result<(), ChargerError> {
            self.0.detach_handler(charger).await
        }

        async fn wait(&mut self, millis: u64) {
            self.0.wait(millis).await;
        }

        async fn records(&mut self, records: &mut Records) {
            self.0.order("records".to_string()).await;
            self.0.records(records).await;
        }
    }

    let (mut service, bench) = bench();
    let mut late = Late(bench);
    {
        let mut event = pin!(run_event(&mut service, &mut late, UPDATED));
        let polled = event.as_mut().poll(&mut Context::from_waker(Waker::noop()));
        assert!(polled.is_pending());
    }
    // Dropped before its records were there, the event was not opened.
    assert_eq!(service.order(), Ok(Reply::Closed(closed(End::Done, 0))));
    late.0.orders.clear();
    assert_eq!(
        now(run_event(&mut service, &mut late, UPDATED)),
        Ok(closed(End::Done, 5))
    );
    let read = |order: &&String| order.as_str() == "records";
    assert_eq!(late.0.orders.iter().filter(read).count(), 6);
}

/// The figures of a page, without names and blanks.
fn figures(follower: &Follower) -> Vec<String> {
    let mut page = [0; PAGE];
    assert_eq!(follower.write_page(&mut page), Ok(()));
    let lines = page.split_inclusive(|byte| *byte == b'\n');
    let figure = |line: &[u8]| {
        assert_eq!(line.len(), 41);
        let figure = String::from_utf8(line[20..40].to_vec()).unwrap();
        figure.trim_start().to_string()
    };
    lines.map(figure).collect()
}

#[test]
fn pages() {
    let mut follower = Follower::start().unwrap();
    assert_eq!(figures(&follower), ["-", "lost", "-", "-", "-", "-"]);
    follower.take(&[2, 0, 0, 0, 0, 0]).unwrap();
    assert_eq!(figures(&follower), ["0", "level", "-", "-", "-", "-"]);
    follower.take(&[1, 2, 0, 0, 1, 3, 15]).unwrap();
    assert_eq!(figures(&follower), ["0", "waiting", "-", "-", "-", "-"]);
    let connected = [
        1, 1, 0, 2, 3, 2, 0, 0, 0x80, 1, 0, 4, 10, 1, 1, 0, 4, 15, 1, 1, 0,
    ];
    follower.take(&connected).unwrap();
    assert_eq!(figures(&follower), ["2", "level", "0", "0", "128", "10"]);

    // The C function takes a longer buffer too, and refuses a shorter one.
    let mut buffer = [0xEE; PAGE + 1];
    let written = ffi::follower_write_page(follower.image(), &mut buffer);
    assert_eq!(written, 3 | (PAGE as u64) << 8);
    assert_eq!(buffer[PAGE - 1..], [b'\n', 0xEE]);
    let mut short = [0xEE; PAGE - 1];
    let refused = ffi::follower_write_page(follower.image(), &mut short);
    assert_eq!(refused, u64::from(Refusal::Page.number()) << 8);
    assert_eq!(short, [0xEE; PAGE - 1]);
}

#[test]
fn configurations() {
    let granted = |current_ma| PowerCapability {
        voltage_mv: 5000,
        current_ma,
    };
    let original = Config::new(15000, granted(3000), granted(1500), None);
    assert_eq!(Config::rust_default(), original);
    // A minimum of 15,001 mW leaves no consumer of 15,000.
    let (_, mut bench) = bench();
    let mut config = Config::default();
    config.min_consumer_threshold_mw = Some(15001);
    let mut service = Service::start(3, 1, &config).unwrap();
    assert_eq!(
        now(run_event(&mut service, &mut bench, UPDATED)),
        Ok(closed(End::Done, 0))
    );
}

#[test]
fn words() {
    let error: &dyn std::error::Error = &Error::Refused(Refusal::Device);
    assert_eq!(
        error.to_string(),
        "refused with 23: a port or charger that is not registered"
    );
    for refusal in Refusal::ALL {
        assert_eq!(refusal.to_string(), refusal.text());
        let same = |other: &&Refusal| other.text() == refusal.text();
        assert_eq!(Refusal::ALL.iter().filter(same).count(), 1);
    }
    assert!(Error::Unknown(8).to_string().starts_with("unknown result"));
    assert_eq!(ChargerError.to_string(), PsuError::Charger.to_string());
}

#[test]
fn records() {
    let mut records = Records::new(255, 255);
    assert_eq!(
        (records.psus().len(), records.chargers().len()),
        (16 * 18, 8 * 7)
    );
    records = Records::new(2, 0);
    let psu = Psu {
        psu_state: PsuState::ConnectedProvider(ProviderPowerCapability {
            capability: PowerCapability {
                voltage_mv: 1,
                current_ma: 2,
            },
            flags: ProviderFlags {
                psu_type: Some(PsuType::DcJack),
            },
        }),
        consumer_capability: Some(consumer(3, 4)),
        requested_provider_capability: None,
    };
    records.set_psu(1, &psu);
    records.set_psu(2, &psu);
    records.set_charger(0, &Charger::default());
    assert_eq!(records.psus()[..18], [0; 18]);
    let bytes = [2, 1, 0, 2, 0, 4, 1, 3, 0, 4, 0, 12, 0, 0, 0, 0, 0, 0];
    assert_eq!(records.psus()[18..], bytes);
    assert!(records.chargers().is_empty());
}
