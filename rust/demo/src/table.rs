//! The day step by step, as a table.

use std::{
    fmt::Write,
    future::Future,
    pin::pin,
    task::{Context, Poll, Waker},
};

use power_policy::*;

use crate::{
    console::{CHARGERS, Console, PORTS},
    day::{DAY, PICTURE, QUIET, Step, Then},
    link::{Arrival, Fate, Kind, Letter, Link},
    watch::{Desk, Display, History, Mark, Why},
};

const HEAD: &str = "\
A console of 4 ports and 2 chargers goes through a day. Where its ports would provide over 15 W together, a request gets 7.5 W, whatever it asks.
Orders: C connect consumer, P connect provider (port:mW granted), X disconnect, each with its port; r is_ready, i init,
a attach, d detach, each with its charger; w wait; ! the device failed. Closed: done, or the error that ended the event.
The console holds: number of the last event, consumer (port, mW), unconstrained (consumer/ports that offer it), tracked providers.
Link: e the packet of an event, p a full picture; a line of its own for each that comes late or again.
The desk shows: = what the console holds, < what it held at that number, # anything else (then this program ends with 1).
";

const COLUMNS: &str = "
   at the console                    orders              closed    | the console holds       | link        | the desk shows
                                                                   | no consumer uncon track |             |         no consumer
";

/// At most so many steps follow the day, until the desk is level and nothing is under way.
const NIGHT: usize = 20;

/// When the desk was lost, and how it came back.
struct Loss {
    step: usize,
    why: Why,
    back: Option<(usize, u32)>,
}

#[derive(Default)]
struct Counts {
    events: usize,
    orders: usize,
    packets: usize,
    pictures: usize,
    lost: usize,
    repeated: usize,
    late: usize,
    /// Lines in which the desk shows a number.
    shown: usize,
}

pub struct Table {
    pub text: String,
    /// What the desk took, each packet or picture after its length.
    pub packets: Vec<u8>,
    /// How often the desk showed what the console did not hold.
    pub differing: usize,
}

struct World {
    console: Console,
    service: Service,
    link: Link,
    follower: Follower,
    history: History,
    desk: Desk,
    losses: Vec<Loss>,
    counts: Counts,
    table: Table,
}

/// The output of a future that does not wait.
fn now<F: Future>(future: F) -> F::Output {
    let mut future = pin!(future);
    loop {
        if let Poll::Ready(output) = future
            .as_mut()
            .poll(&mut Context::from_waker(Waker::noop()))
        {
            return output;
        }
    }
}

fn consumer(display: &Display) -> String {
    match display.consumer() {
        None => "-".to_string(),
        Some((port, mw)) => format!("{port} {mw:>5}"),
    }
}

fn ports(tracked: u16) -> String {
    let ports: Vec<String> = Tracked(tracked)
        .ports()
        .map(|port| port.to_string())
        .collect();
    if ports.is_empty() {
        "-".to_string()
    } else {
        ports.join(",")
    }
}

fn name(letter: &Letter) -> String {
    match letter.kind {
        Kind::Event => format!("e{}", letter.number),
        Kind::Picture => format!("p{}", letter.number),
    }
}

/// The columns of the console: the step, what happens, the orders, how it closed, and what is held.
fn console_columns(parts: [&str; 4], held: [&str; 4]) -> String {
    let [step, what, orders, closed] = parts;
    let [number, consumer, unconstrained, tracked] = held;
    format!(
        "{step:>2} {what:<33} {orders:<19} {closed:<9} | {number:>2} {consumer:<8} {unconstrained:<5} {tracked:<5}"
    )
}

/// A whole line: the columns of the console, of the link, and of the desk.
fn line(console: &str, link: &str, desk: [&str; 5]) -> String {
    let [state, number, consumer, mark, note] = desk;
    let line =
        format!("{console} | {link:<11} | {state:<7} {number:>2} {consumer:<8} {mark:<1} {note}");
    line.trim_end().to_string() + "\n"
}

impl World {
    fn new(seed: u64) -> Result<Self, Error> {
        let service = Service::start(PORTS, CHARGERS, &Config::default())?;
        let follower = Follower::start()?;
        Ok(Self {
            console: Console::new(),
            link: Link::new(seed),
            history: History::new(Display::held(&service).1),
            desk: Desk::of(&follower)?,
            losses: Vec::new(),
            counts: Counts::default(),
            table: Table {
                text: String::new(),
                packets: Vec::new(),
                differing: 0,
            },
            service,
            follower,
        })
    }

    /// Runs the event to its close: how it closed, and its packet if it has a number.
    fn event(&mut self, event: Event) -> Result<(String, Option<Letter>), Error> {
        let outcome = now(run_event(&mut self.service, &mut self.console, event))?;
        let closed = match outcome.end {
            End::Done => "done".to_string(),
            End::Failed(error) => format!("{error:?}"),
            End::WrongState { .. } => "bad state".to_string(),
        };
        self.counts.events += 1;
        if matches!(event, Event::Charger { .. }) {
            return Ok((closed, None));
        }
        let (number, held) = Display::held(&self.service);
        self.history.close(held, outcome.end != End::Done);
        self.counts.packets += 1;
        let mut buffer = [0; BUFFER];
        let length = self.service.write_packet(&mut buffer)?;
        let letter = Letter {
            kind: Kind::Event,
            number,
            bytes: buffer[..length].to_vec(),
        };
        Ok((closed, Some(letter)))
    }

    fn picture(&mut self) -> Result<Letter, Error> {
        self.counts.pictures += 1;
        let mut buffer = [0; BUFFER];
        let length = self.service.write_picture(&mut buffer)?;
        Ok(Letter {
            kind: Kind::Picture,
            number: Display::held(&self.service).0,
            bytes: buffer[..length].to_vec(),
        })
    }

    /// The desk takes a letter. Gives a note on what it made of it.
    fn take(&mut self, step: usize, letter: &Letter) -> Result<String, Error> {
        // One byte: a packet has 64 bytes at most.
        self.table.packets.push(letter.bytes.len() as u8);
        self.table.packets.extend_from_slice(&letter.bytes);
        let (before, held) = (self.desk, self.follower);
        self.follower.take(&letter.bytes)?;
        self.desk = Desk::of(&self.follower)?;
        let note = match (before, self.desk) {
            (Desk::Lost, Desk::Lost) => match letter.kind {
                Kind::Event => String::new(),
                Kind::Picture => "too old for it".to_string(),
            },
            (Desk::Lost, Desk::Level(number, _) | Desk::Waiting(number, _)) => {
                match self.losses.last_mut() {
                    None => format!("starts by {}", name(letter)),
                    Some(loss) => {
                        loss.back = Some((step, number));
                        format!("BACK by {}", name(letter))
                    }
                }
            }
            (Desk::Level(number, _) | Desk::Waiting(number, _), Desk::Lost) => {
                let why = self.history.why_lost(number, letter);
                self.losses.push(Loss {
                    step,
                    why,
                    back: None,
                });
                format!("LOST: {}", why.short())
            }
            _ if self.follower == held => "dropped".to_string(),
            (_, Desk::Waiting(number, _)) => format!("waits for {}", number + 1),
            (Desk::Waiting(..), Desk::Level(..)) => format!("level by {}", name(letter)),
            (Desk::Level(..), Desk::Level(..)) => String::new(),
        };
        Ok(note)
    }

    /// A line with the desk as it is now, checked against what the console held.
    fn line(&mut self, console: &str, link: &str, note: &str) {
        let mark = match self.history.mark(&self.desk) {
            Mark::Lost => " ",
            Mark::Same => "=",
            Mark::Behind => "<",
            Mark::Other => {
                self.table.differing += 1;
                "#"
            }
        };
        self.counts.shown += usize::from(self.desk != Desk::Lost);
        let state = match self.desk {
            Desk::Lost => "lost",
            Desk::Level(..) => "level",
            Desk::Waiting(..) => "waiting",
        };
        let (number, consumer) = match self.desk.showing() {
            None => ("-".to_string(), "-".to_string()),
            Some((number, display)) => (number.to_string(), consumer(&display)),
        };
        self.table.text += &line(console, link, [state, &number, &consumer, mark, note]);
        if mark == "#" {
            self.table.text += "   OTHER: the console did not hold this at that number\n";
        }
    }

    fn step(&mut self, step: usize, now: &Step) -> Result<(), Error> {
        (now.change)(&mut self.console);
        let (closed, letter) = match now.then {
            Then::Event(event) => self.event(event)?,
            Then::Picture => (String::new(), Some(self.picture()?)),
            Then::Nothing => (String::new(), None),
        };
        let orders = std::mem::take(&mut self.console.orders);
        self.counts.orders += orders.len();
        let (number, held) = Display::held(&self.service);
        let unconstrained = if held.unconstrained { "yes" } else { "no" };
        let console = console_columns(
            [&step.to_string(), now.what, &orders.join(" "), &closed],
            [
                &number.to_string(),
                &consumer(&held),
                &format!("{unconstrained}/{}", held.available),
                &ports(held.tracked),
            ],
        );
        match letter {
            None => self.line(&console, "-", ""),
            Some(letter) => match self.link.send(step, &letter) {
                Fate::Delivered => {
                    let note = self.take(step, &letter)?;
                    self.line(&console, &name(&letter), &note);
                }
                Fate::Lost => {
                    self.counts.lost += 1;
                    self.line(&console, &format!("{} lost", name(&letter)), "");
                }
                Fate::Delayed => self.line(&console, &format!("{} delayed", name(&letter)), ""),
            },
        }
        let blank = console_columns([""; 4], [""; 4]);
        while let Some((arrival, letter)) = self.link.arrival(step) {
            let how = match arrival {
                Arrival::Late => {
                    self.counts.late += 1;
                    "late"
                }
                Arrival::Again => {
                    self.counts.repeated += 1;
                    "again"
                }
            };
            let note = self.take(step, &letter)?;
            self.line(&blank, &format!("{} {how}", name(&letter)), &note);
        }
        Ok(())
    }

    fn summary(&mut self) {
        let counts = &self.counts;
        let mut text = String::new();
        let _ = writeln!(
            text,
            "\n{} events, {} of them failed; {} orders.",
            counts.events,
            self.history.failed(),
            counts.orders
        );
        let _ = writeln!(
            text,
            "{} packets and {} pictures sent: {} lost, {} late, {} repeated.",
            counts.packets, counts.pictures, counts.lost, counts.late, counts.repeated
        );
        let _ = writeln!(
            text,
            "The desk started lost; lost after that: {}.",
            self.losses.len()
        );
        for loss in &self.losses {
            let back = match loss.back {
                None => "not back".to_string(),
                Some((step, number)) => {
                    format!("back at step {step} by the picture of event {number}")
                }
            };
            let _ = writeln!(
                text,
                "- lost at step {}: {}; {back}",
                loss.step,
                loss.why.long()
            );
        }
        let ending = match self.history.mark(&self.desk) {
            Mark::Lost => "At the end the desk is lost.",
            Mark::Same => "At the end the desk shows what the console holds.",
            Mark::Behind => "At the end the desk shows an earlier event.",
            Mark::Other => "At the end the desk shows what the console did not hold.",
        };
        let _ = writeln!(text, "{ending}");
        let _ = match self.table.differing {
            0 => writeln!(
                text,
                "In each of the {} lines where it shows a number, it shows what the console held at that number.",
                self.counts.shown
            ),
            differing => writeln!(
                text,
                "WRONG: in {differing} of {} lines it shows what the console did not hold at that number.",
                self.counts.shown
            ),
        };
        self.table.text += &text;
    }
}

/// The whole day over a link of this seed.
pub fn day(seed: u64) -> Result<Table, Error> {
    let mut world = World::new(seed)?;
    world.table.text += &format!("{HEAD}Seed of the link: {seed}.\n{COLUMNS}");
    for (step, now) in DAY.iter().enumerate() {
        world.step(step, now)?;
    }
    for step in DAY.len()..DAY.len() + NIGHT {
        match world.history.mark(&world.desk) {
            Mark::Same if world.link.is_empty() => break,
            Mark::Same => world.step(step, &QUIET)?,
            _ => world.step(step, &PICTURE)?,
        }
    }
    world.summary();
    Ok(world.table)
}
