//! Runs of a service and of a follower, and the lists of calls taken from them. They are made with the plain implementation.

use crate::functions::{BUFFER, FOLLOWER_IMAGE, Function, Lent, PLAIN, SERVICE_IMAGE};

/// A run has so many sets of records, which its calls take by chance; so they stay near, and what is timed is not memory.
const RECORDS: usize = 32;

/// One answer in so many fails,
const FAILING: u64 = 64;

/// with the one error that ports and chargers both have.
const FAILED: u32 = 9;

/// The order that cannot fail.
const WAIT: u8 = 7;

struct Rng(u64);

impl Rng {
    fn below(&mut self, end: u64) -> u64 {
        self.0 = self
            .0
            .wrapping_mul(6364136223846793005)
            .wrapping_add(1442695040888963407);
        (self.0 >> 33) % end
    }

    fn capability(&mut self, flags: u8) -> [u8; 5] {
        let mv = 5000 + 1000 * self.below(16) as u16;
        let ma = 500 + 250 * self.below(11) as u16;
        let ([v0, v1], [a0, a1]) = (mv.to_le_bytes(), ma.to_le_bytes());
        [v0, v1, a0, a1, flags]
    }

    /// Idle or connected, with a capability two times in three and a request.
    fn psus(&mut self, ports: u32) -> Vec<u8> {
        let mut rows = Vec::new();
        for _ in 0..ports {
            let state = self.below(3) as u8 + 1;
            let contract = if state == 1 {
                [0; 5]
            } else {
                self.capability(2)
            };
            rows.push(state);
            rows.extend(contract);
            if self.below(3) == 0 {
                rows.extend([0; 6]);
            } else {
                rows.push(1);
                rows.extend(self.capability(3));
            }
            rows.push(1);
            rows.extend(self.capability(2));
        }
        rows
    }

    fn chargers(&mut self, chargers: u32) -> Vec<u8> {
        (0..chargers)
            .flat_map(|_| [self.below(4) as u8, 0, 0, 0, 0, 0, 0])
            .collect()
    }
}

/// A call of a run, the image before it, and its result.
pub struct Call {
    pub image: Vec<u8>,
    /// Kind, port and detail of an event, or the answer.
    pub numbers: [u32; 3],
    /// Which set of records.
    pub records: usize,
    pub result: u64,
}

/// Events of a service: the first call of each opens it, the others answer, and the last closes it.
pub struct Run {
    pub ports: u32,
    pub chargers: u32,
    /// Of all ports, and of all chargers.
    pub records: Vec<[Vec<u8>; 2]>,
    pub start: Vec<u8>,
    pub events: Vec<Vec<Call>>,
    /// The images after each event.
    pub closed: Vec<Vec<u8>>,
}

impl Run {
    /// Random events. Where `all_done`, one that closes with an error is left out and the service goes on as if it had not been.
    pub fn new(ports: u32, chargers: u32, events: usize, all_done: bool) -> Self {
        let mut rng = Rng(1);
        let mut image = vec![0; SERVICE_IMAGE];
        PLAIN.start(&mut image, ports, chargers);
        let records = (0..RECORDS).map(|_| [rng.psus(ports), rng.chargers(chargers)]);
        let mut run = Self {
            ports,
            chargers,
            records: records.collect(),
            start: image.clone(),
            events: Vec::new(),
            closed: Vec::new(),
        };
        while run.events.len() < events {
            let mut after = image.clone();
            let event = run.event(&mut rng, &mut after);
            let answer = event.last().map_or(0, |call| (call.result >> 8) as u8);
            if answer == 0 || !all_done {
                image = after;
                run.events.push(event);
                run.closed.push(image.clone());
            }
        }
        run
    }

    fn event(&self, rng: &mut Rng, image: &mut [u8]) -> Vec<Call> {
        let mut calls = Vec::new();
        let mut function = Function::Open;
        let kind = [1, 1, 2, 3, 4][rng.below(5) as usize];
        let reason = if kind == 3 { rng.below(7) as u32 } else { 0 };
        let mut numbers = [kind, rng.below(self.ports.into()) as u32, reason];
        loop {
            let mut call = Call {
                image: image.to_vec(),
                numbers,
                records: rng.below(RECORDS as u64) as usize,
                result: 0,
            };
            let result = PLAIN.call(function, image, &self.lent(&call), &mut []);
            call.result = result;
            calls.push(call);
            if result as u8 != 1 {
                return calls;
            }
            let fails = (result >> 8) as u8 != WAIT && rng.below(FAILING) == 0;
            numbers = [if fails { FAILED } else { 0 }, 0, 0];
            function = Function::Answer;
        }
    }

    /// What a call is lent.
    pub fn lent(&self, call: &Call) -> Lent<'_> {
        let [psus, chargers] = &self.records[call.records];
        Lent {
            numbers: call.numbers,
            psus,
            chargers,
            packet: &[],
        }
    }

    /// What the calls of all events are lent, in turn.
    pub fn all_lent(&self) -> Vec<Lent<'_>> {
        let calls = self.events.iter().flatten();
        calls.map(|call| self.lent(call)).collect()
    }

    /// "4 ports, no charger"
    pub fn size(&self) -> String {
        let plural = |count, name| match count {
            0 => format!("no {name}"),
            1 => format!("1 {name}"),
            _ => format!("{count} {name}s"),
        };
        let ports = plural(self.ports, "port");
        format!("{ports}, {}", plural(self.chargers, "charger"))
    }

    pub fn name(&self) -> String {
        let orders: usize = self.events.iter().map(|event| event.len() - 1).sum();
        let each = orders as f64 / self.events.len() as f64;
        format!("whole event, {}, {each:.1} orders", self.size())
    }
}

/// Calls of one function that are timed together, each with its image.
pub struct List<'a> {
    pub name: String,
    pub function: Function,
    /// Whether a call goes on with the image that the call before left; then the first image alone counts.
    pub goes_on: bool,
    /// Whether the archive is held to a ratio to plain Rust here (`--hold`).
    pub held: bool,
    pub calls: Vec<(Vec<u8>, Lent<'a>)>,
}

impl<'a> List<'a> {
    fn new(
        name: impl Into<String>,
        function: Function,
        calls: impl IntoIterator<Item = (Vec<u8>, Lent<'a>)>,
    ) -> Self {
        Self {
            name: name.into(),
            function,
            goes_on: false,
            held: false,
            calls: calls.into_iter().collect(),
        }
    }
}

/// The openings of a run.
pub fn open_calls(run: &Run) -> List<'_> {
    let calls = run.events.iter().map(|event| &event[0]);
    let calls = calls.map(|call| (call.image.clone(), run.lent(call)));
    List::new(format!("open, {}", run.size()), Function::Open, calls)
}

/// The answers of a run; every second and so on if there are more than `most`.
pub fn answer_calls(run: &Run, most: usize) -> List<'_> {
    let calls = run.events.iter().flat_map(|event| &event[1..]);
    let every = calls.clone().count().div_ceil(most).max(1);
    let calls = calls.step_by(every);
    let calls = calls.map(|call| (call.image.clone(), run.lent(call)));
    List::new(format!("answer, {}", run.size()), Function::Answer, calls)
}

/// The calls of a service beside its events, so many of each.
pub fn service_calls(run: &Run, count: usize) -> Vec<List<'_>> {
    let nothing = |image: &Vec<u8>| (image.clone(), Lent::default());
    let open = run.events.iter().flat_map(|event| &event[1..]);
    let open = open.take(count).map(|call| nothing(&call.image));
    let closed = run.closed.iter().take(count);
    let start = closed.clone().map(|image| {
        let mut lent = Lent::default();
        lent.numbers[..2].copy_from_slice(&[run.ports, run.chargers]);
        (image.clone(), lent)
    });
    let closed = closed.map(nothing);
    vec![
        List::new("start", Function::Start, start),
        List::new("order, an event is open", Function::Order, open),
        List::new("order, closed", Function::Order, closed.clone()),
        List::new("write_packet", Function::WritePacket, closed.clone()),
        List::new("write_picture", Function::WritePicture, closed),
    ]
}

/// What a follower gets of a run whose events are all done, and what it is at each of them.
pub struct Stream {
    /// Of event 1 and so on.
    packets: Vec<Vec<u8>>,
    /// Of the start and of each event.
    pictures: Vec<Vec<u8>>,
    /// A follower that shows the start, and each event.
    level: Vec<Vec<u8>>,
    /// The same with the seven packets after the next held, as far as there are.
    waiting: Vec<Vec<u8>>,
    /// The same after a packet that is nine ahead.
    lost: Vec<Vec<u8>>,
}

/// The follower after a packet or picture.
fn taken(image: &[u8], packet: &[u8]) -> Vec<u8> {
    let mut image = image.to_vec();
    PLAIN.follower_take(&mut image, packet);
    image
}

/// A follower that shows the greatest consumer and the four last ports.
fn full(image: &[u8]) -> Vec<u8> {
    let mut image = image.to_vec();
    image[6..17].copy_from_slice(&[1, 15, 255, 255, 255, 255, 13, 1, 16, 0, 0xF0]);
    image
}

impl Stream {
    pub fn new(run: &Run) -> Self {
        let mut buffer = [0; BUFFER];
        let packet = |image: &Vec<u8>| {
            let result = PLAIN.write_packet(image, &mut buffer);
            buffer[..(result >> 8) as usize].to_vec()
        };
        let packets: Vec<_> = run.closed.iter().map(packet).collect();
        let picture = |image: &Vec<u8>| {
            let result = PLAIN.write_picture(image, &mut buffer);
            buffer[..(result >> 8) as usize].to_vec()
        };
        let images = [&run.start].into_iter().chain(&run.closed);
        let pictures: Vec<_> = images.map(picture).collect();
        let mut fresh = vec![0; FOLLOWER_IMAGE];
        PLAIN.follower_start(&mut fresh);
        let mut level = vec![taken(&fresh, &pictures[0])];
        for packet in &packets {
            level.push(taken(&level[level.len() - 1], packet));
        }
        // Packet n is of event n + 1, the next of a follower that shows event n.
        let held = packets.windows(8).map(|packets| &packets[1..]);
        let waiting = level.iter().zip(held).map(|(level, packets)| {
            let packets = packets.iter();
            packets.fold(level.clone(), |image, packet| taken(&image, packet))
        });
        let lost = level.iter().zip(&packets[8..]);
        let lost = lost.map(|(level, packet)| taken(level, packet));
        Self {
            waiting: waiting.collect(),
            lost: lost.collect(),
            packets,
            pictures,
            level,
        }
    }

    /// The calls of a follower: all packets in turn, and so many of each other kind. Held to a ratio are all but those that apply notices.
    pub fn calls(&self, count: usize) -> Vec<List<'_>> {
        let mut lists = self.all_calls(count);
        for list in &mut lists {
            list.held = !list.name.contains("applied");
        }
        lists
    }

    fn all_calls(&self, count: usize) -> Vec<List<'_>> {
        let (packets, pictures) = (&self.packets, &self.pictures);
        let (level, waiting, lost) = (&self.level, &self.waiting, &self.lost);
        let read = |name, function, images: &[Vec<u8>]| {
            let images = images[1..=count].iter();
            let calls = images.map(|image| (image.clone(), Lent::default()));
            List::new(name, function, calls)
        };
        let at_once = List {
            goes_on: true,
            ..takes("each applied at once", packets.len(), |n| {
                (&level[0], &packets[n - 1])
            })
        };
        vec![
            read("follower_start", Function::FollowerStart, level),
            at_once,
            takes("seven held are applied", count, |n| {
                (&waiting[n], &packets[n])
            }),
            takes("is held", count, |n| (&level[n], &packets[n + 1 + n % 7])),
            takes("old, dropped while level", count, |n| {
                (&level[n], &packets[(n - 1).saturating_sub(n % 7)])
            }),
            takes("too far ahead, becomes lost", count, |n| {
                (&level[n], &packets[n + 8])
            }),
            takes("a packet while lost", count, |n| {
                (&lost[n], &packets[n + 9])
            }),
            takes("a picture while lost", count, |n| {
                (&lost[n], &pictures[n + 9])
            }),
            read("follower_shown, level", Function::Shown, level),
            read("follower_shown, seven held", Function::Shown, waiting),
            read("follower_consumer, level", Function::Consumer, level),
            read("follower_consumer, seven held", Function::Consumer, waiting),
            read("follower_tracked, level", Function::Tracked, level),
            read("follower_tracked, seven held", Function::Tracked, waiting),
            read("follower_write_page, lost", Function::WritePage, lost),
            read("follower_write_page, level", Function::WritePage, level),
            read(
                "follower_write_page, level, a consumer and four ports",
                Function::WritePage,
                &level.iter().map(|image| full(image)).collect::<Vec<_>>(),
            ),
            read(
                "follower_write_page, seven held",
                Function::WritePage,
                waiting,
            ),
        ]
    }
}

/// Takes at event 1 to `count`, each by its follower and packet.
fn takes<'a>(
    name: &str,
    count: usize,
    of: impl Fn(usize) -> (&'a Vec<u8>, &'a Vec<u8>),
) -> List<'a> {
    let calls = (1..=count).map(|n| {
        let (image, packet) = of(n);
        let lent = Lent {
            packet,
            ..Lent::default()
        };
        (image.clone(), lent)
    });
    List::new(format!("follower_take, {name}"), Function::Take, calls)
}

#[cfg(test)]
mod tests {
    use super::*;

    /// Lost, level or waiting, and the number shown.
    fn shown(image: &[u8]) -> (u8, u32) {
        let mut image = image.to_vec();
        let result = PLAIN.call(Function::Shown, &mut image, &Lent::default(), &mut []);
        ((result >> 8) as u8, (result >> 32) as u32)
    }

    /// Each list of takes does what its name says.
    #[test]
    fn takes() {
        let run = Run::new(4, 8, 300, true);
        let stream = Stream::new(&run);
        assert_eq!(shown(&stream.level[300]), (1, 300));
        let lists = stream.calls(200);
        let changes: Vec<_> = lists[1..8]
            .iter()
            .map(|list| {
                let changes = list.calls.iter().map(|(image, lent)| {
                    let after = taken(image, lent.packet);
                    let ((from, old), (to, new)) = (shown(image), shown(&after));
                    ([from, to], new.wrapping_sub(old), *image == after)
                });
                let mut changes: Vec<_> = changes.collect();
                changes.dedup();
                (list.calls.len(), changes)
            })
            .collect();
        assert_eq!(changes[1], (200, vec![([2, 1], 8, false)]));
        assert_eq!(changes[2], (200, vec![([1, 2], 0, false)]));
        assert_eq!(changes[3], (200, vec![([1, 1], 0, true)]));
        assert!(changes[4].1.iter().all(|change| change.0 == [1, 0]));
        assert_eq!(changes[5], (200, vec![([0, 0], 0, false)]));
        assert!(changes[6].1.iter().all(|change| change.0 == [0, 1]));
    }

    /// Each list of pages is of followers in the state that its name says, and is held.
    #[test]
    fn pages() {
        let stream = Stream::new(&Run::new(4, 8, 300, true));
        let lists = stream.calls(200);
        let pages = lists
            .iter()
            .filter(|list| list.function == Function::WritePage);
        let states = pages.map(|list| {
            let images = list.calls.iter().map(|(image, _)| image);
            let mut states: Vec<_> = images.map(|image| shown(image).0).collect();
            states.dedup();
            (states, list.held)
        });
        let states: Vec<_> = states.collect();
        assert_eq!(states, [0, 1, 1, 2].map(|state| (vec![state], true)));
    }

    /// Runs come to every order and to closes with and without an error.
    #[test]
    fn orders() {
        let run = Run::new(16, 8, 200, false);
        let results = run.events.iter().flatten().map(|call| call.result);
        let mut kinds: Vec<_> = results.clone().map(|result| result as u16).collect();
        kinds.sort();
        kinds.dedup();
        let orders = (0..8).map(|kind| kind << 8 | 1);
        assert!(
            orders
                .chain([2, 4 << 8 | 2, 9 << 8 | 2])
                .all(|kind| kinds.contains(&kind))
        );
        assert!(results.clone().all(|result| result as u8 != 0));
    }
}
