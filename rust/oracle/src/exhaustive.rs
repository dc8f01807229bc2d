//! Small worlds gone through in full.
//!
//! A world has two ports, one charger or none, and a few events and records. Every order is answered
//! in every way: done, with the records as they are or turned into others once in an event, or
//! failed. The errors of PSUs come in turn, 1 to 10, since none is treated apart.
//!
//! [`runs`] has two parts: every sequence of a few events on a fresh service, and every event on
//! everything that the service can come to hold.

use std::{collections::VecDeque, iter};

use power_policy_interface::{
    capability::DisconnectReason,
    charger,
    psu::{self, PsuState},
};

use crate::{
    driver::{CHARGER_ERROR, Config, Event, Held, Machine, Order, OrderKind, Records},
    run::{EventRun, Run, Session, run_event},
    values::*,
};

/// The ports of every world.
const PORTS: usize = 2;

/// The number of a choice and of how many it is one.
type Choice = (u8, u8);

/// A way through a tree of choices.
#[derive(Debug, Clone, Default)]
struct Way {
    choices: Vec<Choice>,
    at: usize,
}

impl Way {
    /// The next choice of the way, and the first one beyond its end.
    fn choose(&mut self, of: usize) -> usize {
        let of = of as u8;
        if self.at == self.choices.len() {
            self.choices.push((0, of));
        }
        let (choice, was_of) = self.choices[self.at];
        assert_eq!(was_of, of, "another tree");
        self.at += 1;
        usize::from(choice)
    }

    /// Turns into the way after this one. False after the last.
    fn advance(&mut self) -> bool {
        self.at = 0;
        while let Some((choice, of)) = self.choices.pop() {
            if choice + 1 < of {
                self.choices.push((choice + 1, of));
                return true;
            }
        }
        false
    }

    fn from_choices(choices: &[Choice]) -> Self {
        Self {
            choices: choices.to_vec(),
            at: 0,
        }
    }
}

/// The errors of PSUs in turn.
#[derive(Default)]
struct Errors(u8);

impl Errors {
    fn next(&mut self, order: &Order) -> u8 {
        if order.kind.is_charger() {
            return CHARGER_ERROR;
        }
        self.0 = self.0 % 10 + 1;
        self.0
    }
}

/// What there is to choose from.
struct World {
    config: Config,
    chargers: usize,
    events: Vec<Event>,
    /// The records at an opening.
    openings: Vec<Records>,
    /// What the records can turn into during an event.
    turns: Vec<Records>,
}

impl World {
    fn event(&self, machine: &mut Machine, way: &mut Way, errors: &mut Errors) -> EventRun {
        let event = self.events[way.choose(self.events.len())];
        let openings = match event {
            // These read no record.
            Event::Attached { .. } | Event::Charger { .. } => 1,
            _ => self.openings.len(),
        };
        let opening = &self.openings[way.choose(openings)];
        let mut records = opening;
        let mut turned = false;
        run_event(machine, event, opening, |order| {
            if order.kind != OrderKind::Wait && way.choose(2) == 1 {
                return (errors.next(order), records.clone());
            }
            if !turned {
                let turn = way.choose(1 + self.turns.len());
                if turn > 0 {
                    turned = true;
                    records = &self.turns[turn - 1];
                }
            }
            (0, records.clone())
        })
    }

    /// Every sequence of so many events on a fresh service.
    fn sequences(self, length: usize) -> impl Iterator<Item = Run> {
        let mut way = Some(Way::default());
        let mut errors = Errors::default();
        iter::from_fn(move || {
            let mut this = way.take()?;
            let mut session = Session::start(self.config, PORTS, self.chargers);
            for _ in 0..length {
                session.add(|machine| self.event(machine, &mut this, &mut errors));
            }
            if this.advance() {
                way = Some(this);
            }
            Some(session.finish())
        })
    }

    /// Every event on everything that the service can come to hold.
    fn states(self) -> impl Iterator<Item = Run> {
        let graph = self.graph();
        // How many edges of each state were taken.
        let mut taken = vec![0; graph.states.len()];
        let mut errors = Errors::default();
        iter::from_fn(move || {
            let mut session = Session::start(self.config, PORTS, self.chargers);
            let mut at = 0;
            for _ in 0..WALK {
                // By known edges to the nearest state that has a new one.
                let is_open = |state: usize| taken[state] < graph.states[state].edges.len();
                let Some(mut path) = graph.path(at, is_open) else {
                    break;
                };
                at = path.last().map_or(at, |edge| edge.to);
                let new = &graph.states[at].edges[taken[at]];
                taken[at] += 1;
                at = new.to;
                path.push(new);
                for edge in path {
                    let mut way = Way::from_choices(&edge.choices);
                    session.add(|machine| self.event(machine, &mut way, &mut errors));
                }
                assert_eq!(session.held(), graph.states[at].held);
            }
            let run = session.finish();
            (!run.events.is_empty()).then_some(run)
        })
    }

    /// What the service can come to hold, nearest first.
    fn graph(&self) -> Graph {
        let fresh = Machine::start(self.config, PORTS, self.chargers).held();
        let mut states = vec![State::new(fresh)];
        let mut at = 0;
        while at < states.len() {
            let held = states[at].held.clone();
            let mut way = Way::default();
            loop {
                let mut machine = Machine::start_at(self.config, PORTS, self.chargers, &held);
                let event = self.event(&mut machine, &mut way, &mut Errors::default());
                let found = states.iter().position(|state| state.held == event.held);
                let to = found.unwrap_or_else(|| {
                    states.push(State::new(event.held));
                    states.len() - 1
                });
                states[at].add(Edge {
                    choices: way.choices.clone(),
                    to,
                });
                if !way.advance() {
                    break;
                }
            }
            at += 1;
        }
        Graph { states }
    }
}

/// How many new events a run has at most.
const WALK: usize = 40;

/// An event and the number of the state that it leads to.
struct Edge {
    choices: Vec<Choice>,
    to: usize,
}

/// What the service holds, and all events on it.
struct State {
    held: Held,
    edges: Vec<Edge>,
    /// The first edge to each other state.
    exits: Vec<usize>,
}

impl State {
    fn new(held: Held) -> Self {
        Self {
            held,
            edges: Vec::new(),
            exits: Vec::new(),
        }
    }

    fn add(&mut self, edge: Edge) {
        let known = self.edges.iter().any(|one| one.to == edge.to);
        if !known {
            self.exits.push(self.edges.len());
        }
        self.edges.push(edge);
    }
}

struct Graph {
    states: Vec<State>,
}

impl Graph {
    /// The edges of a shortest path to a state that is wanted, if there is one.
    fn path(&self, from: usize, wanted: impl Fn(usize) -> bool) -> Option<Vec<&Edge>> {
        let mut seen = vec![false; self.states.len()];
        seen[from] = true;
        let mut paths = VecDeque::from([(from, vec![])]);
        while let Some((state, path)) = paths.pop_front() {
            if wanted(state) {
                return Some(path);
            }
            let state = &self.states[state];
            for exit in &state.exits {
                let edge = &state.edges[*exit];
                if !seen[edge.to] {
                    seen[edge.to] = true;
                    let mut path = path.clone();
                    path.push(edge);
                    paths.push_back((edge.to, path));
                }
            }
        }
        None
    }
}

/// Records of a port. A minimum of 7,500 mW is just missed by `low`; `even` and `using` are 15,000 mW
/// each; `gone` and `giving` cannot be connected as a consumer, `gone` and `using` not as a provider.
struct Ports {
    gone: psu::State,
    none: psu::State,
    low: psu::State,
    even: psu::State,
    using: psu::State,
    giving: psu::State,
}

impl Ports {
    fn new() -> Self {
        let idle = port(PsuState::Idle);
        let tie = consumer(15000, 1000, 5);
        let contract = provider(5000, 3000, 2);
        Self {
            gone: requesting(
                offering(port(PsuState::Detached), consumer(5000, 3001, 0)),
                provider(5000, 1500, 2),
            ),
            none: requesting(idle, provider(5000, 3000, 4)),
            low: offering(idle, consumer(7499, 1000, 3)),
            even: offering(idle, consumer(5000, 3000, 2)),
            using: requesting(
                offering(port(PsuState::ConnectedConsumer(tie)), tie),
                provider(15000, 1000, 0),
            ),
            giving: requesting(
                offering(
                    port(PsuState::ConnectedProvider(contract)),
                    consumer(20000, 3000, 13),
                ),
                provider(5000, 500, 12),
            ),
        }
    }
}

/// Every pair of these ports, without a charger.
fn pairs(ports: &[psu::State]) -> Vec<Records> {
    let pairs = ports
        .iter()
        .flat_map(|first| ports.iter().map(|second| [*first, *second]));
    pairs.map(|pair| records(pair, &[])).collect()
}

fn records(ports: [psu::State; PORTS], chargers: &[charger::State]) -> Records {
    Records {
        ports: ports.to_vec(),
        chargers: chargers.to_vec(),
    }
}

const UPDATED: Event = Event::UpdatedConsumerCapability { port: 0 };

/// Every kind of event.
fn all_events(chargers: usize) -> Vec<Event> {
    let mut all = vec![Event::Attached { port: 1 }, UPDATED];
    let reasons = [None, Some(DisconnectReason::RoleSwap)];
    for (port, reason) in (0..).zip(reasons) {
        all.extend([
            Event::RequestedProviderCapability { port },
            Event::Disconnected { port, reason },
            Event::Detached { port },
        ]);
    }
    for charger in 0..chargers as u8 {
        for psu_state in [charger::PsuState::Attached, charger::PsuState::Detached] {
            all.push(Event::Charger { charger, psu_state });
        }
    }
    all
}

fn with_minimum(minimum: u32) -> Config {
    let mut config = Config::default();
    config.min_consumer_threshold_mw = Some(minimum);
    config
}

/// All runs, about 360,000 events.
pub fn runs() -> impl Iterator<Item = Run> {
    let Ports {
        gone,
        none,
        low,
        even,
        using,
        giving,
    } = Ports::new();
    let few_events = vec![
        UPDATED,
        Event::RequestedProviderCapability { port: 0 },
        Event::RequestedProviderCapability { port: 1 },
        Event::Disconnected {
            port: 0,
            reason: Some(DisconnectReason::Reset),
        },
        Event::Detached { port: 1 },
    ];
    let three = World {
        config: Config::default(),
        chargers: 0,
        events: few_events.clone(),
        openings: vec![
            records([even, none], &[]),
            records([using, even], &[]),
            records([none, giving], &[]),
            records([gone, even], &[]),
        ],
        turns: vec![],
    };
    let two = World {
        config: Config::default(),
        chargers: 1,
        events: few_events,
        openings: vec![
            records([even, none], &[powered()]),
            records([using, even], &[unpowered()]),
            records([none, none], &[powered()]),
        ],
        turns: vec![],
    };
    let without_charger = World {
        config: with_minimum(7500),
        chargers: 0,
        events: all_events(0),
        openings: pairs(&[gone, none, low, even, using, giving]),
        turns: vec![records([gone, low], &[]), records([giving, using], &[])],
    };
    let with_charger = World {
        config: with_minimum(15000),
        chargers: 1,
        events: all_events(1),
        openings: [[none, none], [even, none], [none, using], [using, even]]
            .into_iter()
            .flat_map(|ports| [unpowered(), powered()].map(|charger| records(ports, &[charger])))
            .collect(),
        turns: vec![
            records([giving, even], &[unpowered()]),
            records([even, gone], &[powered()]),
        ],
    };
    three
        .sequences(3)
        .chain(two.sequences(2))
        .chain(without_charger.states())
        .chain(with_charger.states())
}
