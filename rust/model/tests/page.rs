//! The page of a follower and its reader.

use std::collections::BTreeMap;

use link_model::follower::Follower;
use link_model::generate;
use link_model::packet::{Capability, Consumer, Display, Event, Flags};
use link_model::page::{Entry, Figure, NAMES, PAGE, State, entries, page, read, write};
use link_model::program::{Frames, sheet};

/// The five packets of the example (PRG-7), each after its length.
const EXAMPLE: [&[u8]; 5] = [
    &[6, 2, 0, 0, 0, 0, 0],
    &[5, 1, 2, 0, 0, 0],
    &[13, 1, 1, 0, 2, 1, 2, 1, 0xA0, 0x9C, 1, 0xB8, 0x17, 2],
    &[13, 1, 1, 0, 2, 1, 2, 1, 0xA0, 0x9C, 1, 0xB8, 0x17, 2],
    &[5, 1, 3, 7, 1, 0],
];

// Line by line: a name, blanks and a figure that ends in column 40.
const LOST: &str = "\
number                                 -
state                               lost
port                                   -
millivolts                             -
milliamps                              -
tracked ports                          -
";
const START: &str = "\
number                                 0
state                              level
port                                   -
millivolts                             -
milliamps                              -
tracked ports                          -
";
const HELD: &str = "\
number                                 0
state                            waiting
port                                   -
millivolts                             -
milliamps                              -
tracked ports                          -
";
const CONNECTED: &str = "\
number                                 2
state                              level
port                                   1
millivolts                         20000
milliamps                           3000
tracked ports                          -
";

fn consumer(port: u8, mv: u16, ma: u16) -> Option<Consumer> {
    let flags = Flags {
        unconstrained_power: true,
        psu_type: None,
    };
    Some(Consumer {
        port,
        capability: Capability { mv, ma, flags },
    })
}

fn showing(n: u32, consumer: Option<Consumer>, tracked: &[u8]) -> Follower {
    Follower::Showing {
        n,
        display: Display {
            consumer,
            unconstrained: true,
            available: 7,
            tracked: tracked.to_vec(),
        },
        held: BTreeMap::new(),
    }
}

/// The same with event n + 8 held.
fn waiting(follower: Follower) -> Follower {
    let Follower::Showing { n, display, .. } = follower else {
        panic!("lost");
    };
    let event = Event {
        number: n + 8,
        answer: 10,
        orders: 35,
        notices: Vec::new(),
    };
    Follower::Showing {
        n,
        display,
        held: BTreeMap::from([(n + 8, event)]),
    }
}

fn text(follower: &Follower) -> String {
    String::from_utf8(page(follower)).unwrap()
}

/// The figures of a page, without their names and blanks.
fn figures(follower: &Follower) -> Vec<String> {
    let page = text(follower);
    assert!(page.lines().all(|line| line.len() == 40));
    page.lines()
        .map(|line| line[20..].trim_start().to_string())
        .collect()
}

#[test]
fn the_example_after_each_take() {
    let mut stream = Vec::new();
    assert_eq!(sheet(&stream).page, LOST.as_bytes());
    for (packet, wanted) in EXAMPLE
        .iter()
        .zip([START, HELD, CONNECTED, CONNECTED, LOST])
    {
        stream.extend(*packet);
        let sheet = sheet(&stream);
        assert_eq!(String::from_utf8(sheet.page).unwrap(), wanted);
        assert!(sheet.refused.is_empty());
    }
}

#[test]
fn lost_shows_no_floor() {
    for floor in [0, 1, u32::MAX] {
        assert_eq!(text(&Follower::Lost { floor }), LOST);
    }
}

#[test]
fn waiting_shows_its_figures() {
    let level = showing(41, consumer(15, 9_000, 3), &[2]);
    let wanted = ["41", "level", "15", "9000", "3", "2"];
    assert_eq!(figures(&level), wanted);
    let mut wanted = wanted;
    wanted[1] = "waiting";
    assert_eq!(figures(&waiting(level)), wanted);
}

#[test]
fn zeros_are_figures() {
    let zeros = showing(0, consumer(0, 0, 0), &[0]);
    assert_eq!(figures(&zeros), ["0", "level", "0", "0", "0", "0"]);
    let none = showing(0, None, &[]);
    assert_eq!(figures(&none), ["0", "level", "-", "-", "-", "-"]);
}

#[test]
fn the_greatest_figures_fit() {
    let greatest = showing(
        u32::MAX,
        consumer(15, u16::MAX, u16::MAX),
        &[12, 13, 14, 15],
    );
    let wanted = "\
number                        4294967295
state                              level
port                                  15
millivolts                         65535
milliamps                          65535
tracked ports                12,13,14,15
";
    assert_eq!(text(&greatest), wanted);
    assert_eq!(wanted.len(), PAGE);
}

#[test]
fn each_figure_has_its_own_line() {
    let follower = showing(1, consumer(2, 3, 4), &[5, 6, 10]);
    assert_eq!(figures(&follower), ["1", "level", "2", "3", "4", "5,6,10"]);
    for (line, name) in text(&follower).lines().zip(NAMES) {
        assert_eq!(line[..20].trim_end(), name);
    }
}

// The reader.

fn entry(name: &str, figure: Figure) -> Entry {
    Entry {
        name: name.to_string(),
        figure,
    }
}

#[test]
fn what_is_read() {
    let wanted = [
        entry("number", Figure::Number(2)),
        entry("state", Figure::State(State::Level)),
        entry("port", Figure::Number(1)),
        entry("millivolts", Figure::Number(20_000)),
        entry("milliamps", Figure::Number(3_000)),
        entry("tracked ports", Figure::Absent),
    ];
    assert_eq!(read(CONNECTED.as_bytes()).unwrap(), wanted);
    let lost = read(LOST.as_bytes()).unwrap();
    assert_eq!(lost[1], entry("state", Figure::State(State::Lost)));
    let others = lost.iter().filter(|entry| entry.name != "state");
    assert!(others.clone().all(|entry| entry.figure == Figure::Absent));
    assert_eq!(others.count(), 5);
    // One port alone is still a port.
    let one = page(&showing(0, None, &[15]));
    assert_eq!(read(&one).unwrap()[5].figure, Figure::Ports(vec![15]));
}

#[test]
fn no_pages() {
    let whole = CONNECTED.as_bytes();
    for length in 0..PAGE {
        assert_eq!(read(&whole[..length]), None);
    }
    assert_eq!(read(&[whole, b"\n"].concat()), None);
    for (old, new) in [
        ("                   2\n", "                  02\n"),
        ("                   2\n", "                  +2\n"),
        ("                   2\n", "                  2 \n"),
        ("                   2\n", "          4294967296\n"),
        ("                   2\n", "                   -\n"),
        ("               level\n", "                lost\n"),
        ("               level\n", "                   -\n"),
        ("               level\n", "                   0\n"),
        ("                   1\n", "                  16\n"),
        ("                   1\n", "                   -\n"),
        ("                   1\n", "                 0,1\n"),
        ("               20000\n", "               65536\n"),
        ("               20000\n", "                   -\n"),
        ("                3000\n", "                    \n"),
        ("                   -\n", "                 1,1\n"),
        ("                   -\n", "                 2,1\n"),
        ("                   -\n", "                  1,\n"),
        ("                   -\n", "                  ,1\n"),
        ("                   -\n", "                1, 2\n"),
        ("                   -\n", "           0,1,2,3,4\n"),
        ("                   -\n", "                  16\n"),
        ("number    ", "Number    "),
        ("number    ", " number   "),
        ("port  ", "ports "),
        ("tracked ports", "tracked  port"),
    ] {
        assert_eq!(CONNECTED.matches(old).count(), 1, "{old:?}");
        let other = CONNECTED.replace(old, new);
        assert_eq!(other.len(), PAGE, "{new:?}");
        assert_eq!(read(other.as_bytes()), None, "{new:?}");
    }
    // Two lines exchanged.
    let mut lines: Vec<&str> = CONNECTED.split_inclusive('\n').collect();
    lines.swap(2, 3);
    assert_eq!(read(lines.concat().as_bytes()), None);
}

#[test]
fn every_changed_byte_is_refused_or_read_as_something_else() {
    let full = showing(1_000_000_000, consumer(10, 10_000, 9), &[0, 5, 10, 15]);
    let followers = [
        Follower::new(),
        showing(0, None, &[]),
        showing(7, consumer(0, 0, 0), &[3]),
        waiting(full.clone()),
        full,
    ];
    let (mut refused, mut others) = (0, 0);
    for follower in &followers {
        let whole = page(follower);
        let said = entries(follower);
        for place in 0..PAGE {
            for value in (0..=255).filter(|value| *value != whole[place]) {
                let mut changed = whole.clone();
                changed[place] = value;
                match read(&changed) {
                    None => refused += 1,
                    Some(other) => {
                        others += 1;
                        assert_ne!(other, said);
                        assert_eq!(write(&other), changed);
                    }
                }
            }
        }
    }
    assert!(refused > 300_000 && others > 100);
}

/// What is read back from a page are the follower's own figures.
fn read_back(follower: &Follower) -> State {
    let bytes = page(follower);
    assert_eq!(bytes.len(), PAGE);
    let said = read(&bytes).expect("a page");
    let names: Vec<&str> = said.iter().map(|entry| entry.name.as_str()).collect();
    assert_eq!(names, NAMES);
    let figures: Vec<Figure> = said.into_iter().map(|entry| entry.figure).collect();
    let number = |figure: Option<u32>| figure.map_or(Figure::Absent, Figure::Number);
    match follower {
        Follower::Lost { .. } => {
            assert_eq!(figures[1], Figure::State(State::Lost));
            let absent = |figure: &&Figure| **figure == Figure::Absent;
            assert_eq!(figures.iter().filter(absent).count(), 5);
            State::Lost
        }
        Follower::Showing { n, display, held } => {
            let state = match held.len() {
                0 => State::Level,
                _ => State::Waiting,
            };
            let consumer = display.consumer.as_ref();
            let tracked = match display.tracked.as_slice() {
                [] => Figure::Absent,
                ports => Figure::Ports(ports.to_vec()),
            };
            let wanted = [
                Figure::Number(*n),
                Figure::State(state),
                number(consumer.map(|one| one.port.into())),
                number(consumer.map(|one| one.capability.mv.into())),
                number(consumer.map(|one| one.capability.ma.into())),
                tracked,
            ];
            assert_eq!(figures, wanted);
            state
        }
    }
}

#[test]
fn random_followers_are_read_back() {
    let mut states = Vec::new();
    for seed in 0..20 {
        for stream in [
            generate::packet_stream(seed, 2_000),
            generate::take_stream(seed, 2_000),
        ] {
            let mut follower = Follower::new();
            let mut frames = Frames::new(&stream);
            while let Ok(Some(packet)) = frames.next_packet() {
                if follower.take(packet).is_ok() {
                    states.push(read_back(&follower));
                }
            }
        }
    }
    for state in State::ALL {
        let count = states.iter().filter(|other| **other == state).count();
        assert!(count > 1_000, "{state:?} {count}");
    }
}
