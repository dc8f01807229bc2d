//! Generators of framed streams. The same seed always gives the same stream.

use std::collections::BTreeMap;

use crate::packet::{
    self, Capability, Consumer, Display, Event, LAST_ANSWER, LAST_PORT, LAST_REASON,
    MOST_AVAILABLE, MOST_NOTICES, MOST_ORDERS, MOST_TRACKED, Notice, Packet, Picture,
};
use crate::program::{MOST_LENGTH, frame};

/// A xorshift generator.
pub struct Rng {
    state: u64,
}

impl Rng {
    pub fn new(seed: u64) -> Rng {
        // Spreads small seeds; a state of 0 would stay 0.
        let mixed = seed.wrapping_add(1).wrapping_mul(0x9E37_79B9_7F4A_7C15);
        let mut rng = Rng { state: mixed | 1 };
        for _ in 0..8 {
            rng.draw();
        }
        rng
    }

    pub fn draw(&mut self) -> u32 {
        self.state ^= self.state >> 12;
        self.state ^= self.state << 25;
        self.state ^= self.state >> 27;
        (self.state.wrapping_mul(0x2545_F491_4F6C_DD1D) >> 32) as u32
    }

    /// A number from 0 to `end` - 1.
    pub fn below(&mut self, end: u32) -> u32 {
        self.draw() % end
    }

    /// True once in `times` on average; never if `times` is 0.
    pub fn one_in(&mut self, times: u32) -> bool {
        times != 0 && self.below(times) == 0
    }

    pub fn pick<T: Copy>(&mut self, list: &[T]) -> T {
        list[self.below(list.len() as u32) as usize]
    }

    /// A byte from 0 to `most`.
    fn byte_to(&mut self, most: u8) -> u8 {
        self.below(u32::from(most) + 1) as u8
    }
}

const NUMBER_EDGES: [u32; 17] = [
    0,
    1,
    2,
    127,
    128,
    129,
    16_383,
    16_384,
    16_385,
    2_097_151,
    2_097_152,
    2_097_153,
    268_435_455,
    268_435_456,
    268_435_457,
    4_294_967_294,
    4_294_967_295,
];

const MILLI_EDGES: [u16; 7] = [0, 1, 127, 128, 16_383, 16_384, 65_535];

// Single values, mostly at their edges.

fn milli(rng: &mut Rng) -> u16 {
    match rng.below(8) {
        0 => rng.draw() as u16,
        1 => rng.pick(&[3_000, 5_000, 20_000]),
        _ => rng.pick(&MILLI_EDGES),
    }
}

fn port(rng: &mut Rng) -> u8 {
    if rng.one_in(4) {
        rng.pick(&[0, LAST_PORT])
    } else {
        rng.byte_to(LAST_PORT)
    }
}

fn available(rng: &mut Rng) -> u8 {
    if rng.one_in(2) {
        rng.pick(&[0, 1, MOST_AVAILABLE - 1, MOST_AVAILABLE])
    } else {
        rng.byte_to(MOST_AVAILABLE)
    }
}

fn orders(rng: &mut Rng) -> u8 {
    if rng.one_in(2) {
        rng.pick(&[0, 1, MOST_ORDERS as u8 - 1, MOST_ORDERS as u8])
    } else {
        rng.byte_to(MOST_ORDERS as u8)
    }
}

fn capability(rng: &mut Rng, provider: bool) -> Capability {
    let type_code = rng.byte_to(6);
    let unconstrained = if provider { 0 } else { rng.byte_to(1) };
    let flags = packet::flags_of(2 * type_code + unconstrained, provider);
    Capability {
        mv: milli(rng),
        ma: milli(rng),
        flags: flags.expect("a flag byte within its range"),
    }
}

fn notice(rng: &mut Rng) -> Notice {
    match rng.below(5) {
        0 => Notice::ConsumerDisconnected {
            port: port(rng),
            reason: rng.byte_to(LAST_REASON),
        },
        1 => Notice::ConsumerConnected {
            port: port(rng),
            capability: capability(rng, false),
        },
        2 => Notice::ProviderDisconnected { port: port(rng) },
        3 => Notice::ProviderConnected {
            port: port(rng),
            capability: capability(rng, true),
        },
        _ => Notice::Unconstrained {
            unconstrained: rng.one_in(2),
            available: available(rng),
        },
    }
}

fn event(rng: &mut Rng, number: u32) -> Event {
    let answer = if rng.one_in(4) {
        rng.byte_to(LAST_ANSWER)
    } else {
        0
    };
    let orders = orders(rng);
    let count = rng.byte_to(MOST_NOTICES);
    let mut notices = Vec::new();
    for _ in 0..count {
        notices.push(notice(rng));
    }
    Event {
        number,
        answer,
        orders,
        notices,
    }
}

fn display(rng: &mut Rng) -> Display {
    let consumer = if rng.one_in(2) {
        Some(Consumer {
            port: port(rng),
            capability: capability(rng, false),
        })
    } else {
        None
    };
    let unconstrained = rng.one_in(2);
    let available = available(rng);
    let count = usize::from(rng.byte_to(MOST_TRACKED));
    let mut tracked = Vec::new();
    while tracked.len() < count {
        let another = port(rng);
        if !tracked.contains(&another) {
            tracked.push(another);
        }
    }
    tracked.sort();
    Display {
        consumer,
        unconstrained,
        available,
        tracked,
    }
}

// Valid packets.

/// `count` valid packets and pictures.
///
/// Their numbers climb along the edges of the number form to the greatest one at the
/// end, with small and former ones in between. So one follower that takes them all
/// still shows, holds and loses along the way.
pub fn packets(seed: u64, count: usize) -> Vec<Packet> {
    const CLIMB: [u32; 6] = [4, 127, 16_383, 2_097_151, 268_435_455, u32::MAX];
    let mut rng = Rng::new(seed);
    let mut out = Vec::new();
    let stage = count / CLIMB.len() + 1;
    let mut present: u32 = 0;
    for index in 0..count {
        let edge = CLIMB[index / stage];
        let start = edge.saturating_sub((stage / 4) as u32);
        let climbed = start.saturating_add((index % stage / 2) as u32);
        present = present.max(climbed);
        let number = match rng.below(8) {
            0..=3 => present.saturating_add(rng.below(10)),
            4..=5 => rng.below(10),
            _ => {
                let edge = rng.pick(&NUMBER_EDGES);
                if edge <= present { edge } else { present }
            }
        };
        if rng.one_in(3) {
            let display = display(&mut rng);
            out.push(Packet::Picture(Picture { number, display }));
        } else {
            out.push(Packet::Event(event(&mut rng, number.max(1))));
        }
    }
    out
}

/// The packets of `packets`, framed.
pub fn packet_stream(seed: u64, count: usize) -> Vec<u8> {
    let mut out = Vec::new();
    for packet in packets(seed, count) {
        frame(&mut out, &packet::write(&packet));
    }
    out
}

/// Picture 0 and then `count` events without an error, in order and framed: each is
/// applied at once.
pub fn event_stream(seed: u64, count: usize) -> Vec<u8> {
    let mut rng = Rng::new(seed);
    let mut out = Vec::new();
    let picture = Picture {
        number: 0,
        display: Display::empty(),
    };
    frame(&mut out, &packet::write(&Packet::Picture(picture)));
    for number in 1..=count as u32 {
        let mut event = event(&mut rng, number);
        event.answer = 0;
        frame(&mut out, &packet::write(&Packet::Event(event)));
    }
    out
}

// Damaged packets.

/// The bytes and what single damages make of them: cut at every byte, from 1 byte to
/// the whole; longer by one byte; one byte replaced.
pub fn damages(whole: &[u8]) -> Vec<Vec<u8>> {
    let mut out = Vec::new();
    for length in 1..=whole.len() {
        out.push(whole[..length].to_vec());
    }
    for extra in [0, 1, 127, 128, 255] {
        let mut longer = whole.to_vec();
        longer.push(extra);
        out.push(longer);
    }
    for place in 0..whole.len() {
        let old = whole[place];
        let mut tried = vec![old];
        let neighbours = [old.wrapping_sub(1), old.wrapping_add(1)];
        for new in [0, 1, 127, 128, 255].into_iter().chain(neighbours) {
            if tried.contains(&new) {
                continue;
            }
            tried.push(new);
            let mut replaced = whole.to_vec();
            replaced[place] = new;
            out.push(replaced);
        }
    }
    out.retain(|bytes| bytes.len() <= MOST_LENGTH as usize);
    out
}

/// The damages of each packet of `packets`, framed.
pub fn damaged_stream(seed: u64, count: usize) -> Vec<u8> {
    let mut out = Vec::new();
    for packet in packets(seed, count) {
        for bytes in damages(&packet::write(&packet)) {
            frame(&mut out, &bytes);
        }
    }
    out
}

// Short byte strings.

/// All strings of 1 and 2 bytes, and of 3 bytes: those that begin with 1 or 2, or all.
pub fn short_stream(all: bool) -> Vec<u8> {
    let mut out = Vec::new();
    for a in 0..=255 {
        frame(&mut out, &[a]);
    }
    for a in 0..=255 {
        for b in 0..=255 {
            frame(&mut out, &[a, b]);
        }
    }
    for a in 0..=255 {
        if !all && a != 1 && a != 2 {
            continue;
        }
        for b in 0..=255 {
            for c in 0..=255 {
                frame(&mut out, &[a, b, c]);
            }
        }
    }
    out
}

// A run and its link.

/// An imitation of a service: what it holds at its number. It changes its display
/// itself, by rules of its own, and says in notices what it did.
struct Run {
    number: u32,
    display: Display,
}

impl Run {
    /// The next event, or none after the greatest number.
    fn event(&mut self, rng: &mut Rng) -> Option<Event> {
        self.number = self.number.checked_add(1)?;
        let mut event = Event {
            number: self.number,
            answer: 0,
            orders: orders(rng),
            notices: Vec::new(),
        };
        match rng.below(8) {
            0 => {}
            1..=2 => self.connect_provider(rng, &mut event),
            3..=4 => {
                self.disconnect_provider(rng, &mut event);
                self.update(rng, &mut event);
            }
            _ => self.update(rng, &mut event),
        }
        Some(event)
    }

    fn connect_provider(&mut self, rng: &mut Rng, event: &mut Event) {
        if rng.one_in(10) {
            event.answer = 1 + rng.byte_to(LAST_ANSWER - 1);
            return;
        }
        let port = port(rng);
        let tracked = &mut self.display.tracked;
        if tracked.len() < 4
            && let Err(place) = tracked.binary_search(&port)
        {
            tracked.insert(place, port);
        }
        event.notices.push(Notice::ProviderConnected {
            port,
            capability: capability(rng, true),
        });
    }

    fn disconnect_provider(&mut self, rng: &mut Rng, event: &mut Event) {
        let tracked = &mut self.display.tracked;
        if tracked.is_empty() {
            return;
        }
        let place = rng.below(tracked.len() as u32) as usize;
        let port = tracked.remove(place);
        event.notices.push(Notice::ProviderDisconnected { port });
    }

    fn update(&mut self, rng: &mut Rng, event: &mut Event) {
        let fails = rng.one_in(5);
        let answer = 1 + rng.byte_to(LAST_ANSWER - 1);
        let wanted = match rng.below(4) {
            0 => None,
            1 => self.display.consumer,
            _ => Some(Consumer {
                port: port(rng),
                capability: capability(rng, false),
            }),
        };
        if wanted != self.display.consumer {
            if let Some(old) = self.display.consumer.take() {
                // An error here leaves no consumer and no notice.
                if fails && rng.one_in(2) {
                    event.answer = answer;
                    return;
                }
                event.notices.push(Notice::ConsumerDisconnected {
                    port: old.port,
                    reason: rng.byte_to(LAST_REASON),
                });
            }
            if let Some(new) = wanted {
                if fails && rng.one_in(2) {
                    event.answer = answer;
                    return;
                }
                self.display.consumer = wanted;
                // An error here leaves the consumer without its notice.
                if fails {
                    event.answer = answer;
                    return;
                }
                event.notices.push(Notice::ConsumerConnected {
                    port: new.port,
                    capability: new.capability,
                });
            }
        }
        let unconstrained = match &self.display.consumer {
            None => false,
            Some(consumer) => consumer.capability.flags.unconstrained_power,
        };
        let available = if rng.one_in(3) {
            available(rng)
        } else {
            self.display.available
        };
        if unconstrained != self.display.unconstrained || available != self.display.available {
            self.display.unconstrained = unconstrained;
            self.display.available = available;
            event.notices.push(Notice::Unconstrained {
                unconstrained,
                available,
            });
        }
    }
}

/// What comes out of a link, and what the run held at each of its numbers.
pub struct Takes {
    pub packets: Vec<Vec<u8>>,
    pub held: BTreeMap<u32, Display>,
}

/// How the link behaves for a while.
struct Weather {
    /// The next packet is chosen among this many.
    width: u32,
    /// One packet in so many is lost, repeated, followed by a damaged one, by an old one.
    lose: u32,
    repeat: u32,
    damage: u32,
    old: u32,
    /// One event in so many is followed by a picture, or begins a longer gap.
    picture: u32,
    gap: u32,
}

impl Weather {
    fn new(rng: &mut Rng) -> Weather {
        Weather {
            width: rng.pick(&[1, 2, 3, 5, 8, 12]),
            lose: rng.pick(&[0, 0, 60, 25, 10]),
            repeat: rng.pick(&[0, 10, 4]),
            damage: rng.pick(&[0, 20, 8]),
            old: rng.pick(&[0, 30, 10]),
            picture: rng.pick(&[3, 6, 12, 25]),
            gap: rng.pick(&[0, 0, 80, 30]),
        }
    }
}

/// At most so many packets are under way.
const WINDOW: usize = 12;

struct Link {
    run: Run,
    under_way: Vec<Vec<u8>>,
    /// Everything that was ever sent off.
    sent_off: Vec<Vec<u8>>,
    held: BTreeMap<u32, Display>,
    gap_left: u32,
}

impl Link {
    fn send_off(&mut self, packet: &Packet) {
        let bytes = packet::write(packet);
        self.sent_off.push(bytes.clone());
        self.under_way.push(bytes);
    }

    fn send_picture(&mut self) {
        self.send_off(&Packet::Picture(Picture {
            number: self.run.number,
            display: self.run.display.clone(),
        }));
    }

    /// Lets the run go on until the window is full.
    fn fill(&mut self, rng: &mut Rng, weather: &Weather) {
        while self.under_way.len() < WINDOW {
            let Some(event) = self.run.event(rng) else {
                // No events are left: former packets and pictures come again.
                if rng.one_in(4) {
                    self.send_picture();
                } else {
                    let again = self.former(rng, 40);
                    self.under_way.push(again);
                }
                continue;
            };
            self.held.insert(event.number, self.run.display.clone());
            let failed = event.answer != 0;
            if rng.one_in(weather.gap) {
                self.gap_left = 5 + rng.below(10);
            }
            if self.gap_left > 0 {
                self.gap_left -= 1;
            } else {
                self.send_off(&Packet::Event(event));
            }
            if rng.one_in(weather.picture) || failed && rng.one_in(2) {
                self.send_picture();
            }
        }
    }

    /// Takes a packet under way out of the link. In place of an event, a picture held
    /// up since about then may come.
    fn lose(&mut self, rng: &mut Rng, place: usize) {
        let bytes = self.under_way.remove(place);
        if let Ok(Packet::Event(event)) = packet::read(&bytes)
            && rng.one_in(2)
        {
            let number = event.number.saturating_add(rng.below(4));
            if let Some(display) = self.held.get(&number) {
                let picture = Packet::Picture(Picture {
                    number,
                    display: display.clone(),
                });
                let place = rng.below(self.under_way.len() as u32 + 1) as usize;
                self.under_way.insert(place, packet::write(&picture));
            }
        }
    }

    /// One of the last `reach` packets sent off.
    fn former(&self, rng: &mut Rng, reach: usize) -> Vec<u8> {
        let reach = reach.min(self.sent_off.len());
        let back = 1 + rng.below(reach as u32) as usize;
        self.sent_off[self.sent_off.len() - back].clone()
    }

    /// The run's number goes on from another one, and a picture says so.
    fn jump(&mut self, number: u32) {
        if number > self.run.number {
            self.run.number = number;
            self.held.insert(number, self.run.display.clone());
            self.send_picture();
        }
    }
}

fn damage(rng: &mut Rng, bytes: &[u8]) -> Vec<u8> {
    let mut out = bytes.to_vec();
    let place = rng.below(out.len() as u32) as usize;
    match rng.below(5) {
        0 => out.truncate(place.max(1)),
        1 => out.push(rng.draw() as u8),
        2 => out[place] = rng.draw() as u8,
        3 => out[place] = rng.pick(&[0, 1, 127, 128, 255]),
        _ => out[place] ^= 1 << rng.below(8),
    }
    out
}

/// `count` packets as they come out of a link that loses, repeats, reorders and
/// damages. With `forged`, damaged bytes that still read as a packet with a number near
/// the run's come too; without, all that reads as a packet was written by the run.
pub fn takes(seed: u64, count: usize, forged: bool) -> Takes {
    let mut rng = Rng::new(seed);
    let mut link = Link {
        run: Run {
            number: 0,
            display: Display::empty(),
        },
        under_way: Vec::new(),
        sent_off: Vec::new(),
        held: BTreeMap::new(),
        gap_left: 0,
    };
    link.held.insert(0, Display::empty());
    if rng.one_in(2) {
        link.send_picture();
    }
    let mut weather = Weather::new(&mut rng);
    let mut packets: Vec<Vec<u8>> = Vec::new();
    let mut jumps = 0;
    while packets.len() < count {
        if rng.one_in(100) {
            weather = Weather::new(&mut rng);
        }
        // Jumps to just below where numbers grow longer, the last one to near the end.
        let eighths = packets.len() * 8 / count;
        if jumps < eighths {
            jumps = eighths;
            let near = rng.below(12);
            match jumps {
                1 => link.jump(127 - near),
                2 => link.jump(16_383 - near),
                3 => link.jump(2_097_151 - near),
                4 => link.jump(268_435_455 - near),
                7 => {
                    let room = 4 + rng.below(1 + count as u32 / 16);
                    link.jump(u32::MAX - room);
                }
                _ => {}
            }
        }
        link.fill(&mut rng, &weather);
        let width = weather.width.min(link.under_way.len() as u32);
        let place = rng.below(width) as usize;
        if rng.one_in(weather.lose) {
            link.lose(&mut rng, place);
            continue;
        }
        let bytes = link.under_way[place].clone();
        if !rng.one_in(weather.repeat) {
            link.under_way.remove(place);
        }
        if rng.one_in(weather.damage) {
            let damaged = damage(&mut rng, &bytes);
            let fit = match packet::read(&damaged) {
                Err(_) => true,
                Ok(packet) => forged && packet.number() <= link.run.number.saturating_add(12),
            };
            if fit {
                packets.push(damaged);
            }
        }
        packets.push(bytes);
        if rng.one_in(weather.old) {
            let reach = rng.pick(&[20, 100, link.sent_off.len()]);
            packets.push(link.former(&mut rng, reach));
        }
    }
    packets.truncate(count);
    Takes {
        packets,
        held: link.held,
    }
}

/// The packets of `takes`, with forged ones, framed.
pub fn take_stream(seed: u64, count: usize) -> Vec<u8> {
    let mut out = Vec::new();
    for bytes in takes(seed, count, true).packets {
        frame(&mut out, &bytes);
    }
    out
}
