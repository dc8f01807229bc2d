//! The day: what changes at the devices, and what the policy is told.

use power_policy::*;

use crate::console::Console;

pub struct Step {
    pub what: &'static str,
    pub change: fn(&mut Console),
    pub then: Then,
}

pub enum Then {
    Event(Event),
    /// A full picture is written.
    Picture,
    Nothing,
}

const fn event(what: &'static str, change: fn(&mut Console), event: Event) -> Step {
    Step {
        what,
        change,
        then: Then::Event(event),
    }
}

pub const PICTURE: Step = Step {
    what: "a full picture is sent",
    change: |_| {},
    then: Then::Picture,
};

pub const QUIET: Step = Step {
    what: "nothing happens",
    change: |_| {},
    then: Then::Nothing,
};

fn plug(console: &mut Console, port: u8) {
    console.psu(port).psu_state = PsuState::Idle;
}

fn unplug(console: &mut Console, port: u8) {
    *console.psu(port) = Psu::default();
}

fn offer(console: &mut Console, port: u8, [voltage_mv, current_ma]: [u16; 2], unconstrained: bool) {
    let psu_type = if port == 0 {
        PsuType::DcJack
    } else {
        PsuType::TypeC
    };
    console.psu(port).consumer_capability = Some(ConsumerPowerCapability {
        capability: PowerCapability {
            voltage_mv,
            current_ma,
        },
        flags: ConsumerFlags {
            unconstrained_power: unconstrained,
            psu_type: Some(psu_type),
        },
    });
}

fn ask(console: &mut Console, port: u8, [voltage_mv, current_ma]: [u16; 2]) {
    console.psu(port).requested_provider_capability = Some(ProviderPowerCapability {
        capability: PowerCapability {
            voltage_mv,
            current_ma,
        },
        flags: ProviderFlags {
            psu_type: Some(PsuType::TypeC),
        },
    });
}

/// Port 0 is a DC jack, ports 1 to 3 are Type-C.
pub const DAY: [Step; 30] = [
    PICTURE,
    event(
        "adapter plugged into port 1",
        |console| plug(console, 1),
        Event::Attached { port: 1 },
    ),
    event(
        "port 1 offers 45 W",
        |console| offer(console, 1, [15000, 3000], false),
        Event::UpdatedConsumerCapability { port: 1 },
    ),
    event(
        "phone plugged into port 2",
        |console| plug(console, 2),
        Event::Attached { port: 2 },
    ),
    event(
        "phone asks for 4.5 W",
        |console| ask(console, 2, [5000, 900]),
        Event::RequestedProviderCapability { port: 2 },
    ),
    event(
        "mains plugged into port 0",
        |console| plug(console, 0),
        Event::Attached { port: 0 },
    ),
    event(
        "port 0 offers 90 W, unconstrained",
        |console| offer(console, 0, [20000, 4500], true),
        Event::UpdatedConsumerCapability { port: 0 },
    ),
    event(
        "charger 1 reports a supply",
        |_| {},
        Event::Charger {
            charger: 1,
            psu_state: ChargerPsuState::Attached,
        },
    ),
    PICTURE,
    event(
        "tablet plugged into port 3",
        |console| plug(console, 3),
        Event::Attached { port: 3 },
    ),
    event(
        "tablet asks for 15 W, over limit",
        |console| ask(console, 3, [5000, 3000]),
        Event::RequestedProviderCapability { port: 3 },
    ),
    event(
        "port 1 offers 60 W, unconstrained",
        |console| offer(console, 1, [20000, 3000], true),
        Event::UpdatedConsumerCapability { port: 1 },
    ),
    event(
        "mains pulled, charger 1 is deaf",
        |console| {
            unplug(console, 0);
            console.deaf = Some(1);
        },
        Event::Detached { port: 0 },
    ),
    event(
        "charger 1 is well, port 1 offers",
        |console| console.deaf = None,
        Event::UpdatedConsumerCapability { port: 1 },
    ),
    PICTURE,
    event(
        "phone unplugged",
        |console| unplug(console, 2),
        Event::Detached { port: 2 },
    ),
    event(
        "tablet asks for 15 W again",
        |_| {},
        Event::RequestedProviderCapability { port: 3 },
    ),
    event(
        "port 1 falls to 27 W, constrained",
        |console| offer(console, 1, [9000, 3000], false),
        Event::UpdatedConsumerCapability { port: 1 },
    ),
    event(
        "mains plugged into port 0",
        |console| plug(console, 0),
        Event::Attached { port: 0 },
    ),
    event(
        "port 0 offers 90 W but is slow",
        |console| {
            offer(console, 0, [20000, 4500], true);
            console.slow = Some(0);
        },
        Event::UpdatedConsumerCapability { port: 0 },
    ),
    event(
        "port 0 is well, offers again",
        |console| console.slow = None,
        Event::UpdatedConsumerCapability { port: 0 },
    ),
    PICTURE,
    event(
        "port 1 was reset, offers 45 W",
        |console| offer(console, 1, [15000, 3000], false),
        Event::Disconnected {
            port: 1,
            reason: Some(DisconnectReason::Reset),
        },
    ),
    event(
        "phone asks before it is attached",
        |console| ask(console, 2, [5000, 1000]),
        Event::RequestedProviderCapability { port: 2 },
    ),
    event(
        "phone plugged into port 2",
        |console| plug(console, 2),
        Event::Attached { port: 2 },
    ),
    PICTURE,
    event(
        "phone asks for 5 W, over limit",
        |_| {},
        Event::RequestedProviderCapability { port: 2 },
    ),
    event(
        "tablet unplugged",
        |console| unplug(console, 3),
        Event::Detached { port: 3 },
    ),
    event(
        "mains pulled",
        |console| unplug(console, 0),
        Event::Detached { port: 0 },
    ),
    event(
        "adapter unplugged",
        |console| unplug(console, 1),
        Event::Detached { port: 1 },
    ),
];
