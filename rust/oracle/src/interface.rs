//! Vectors of the interface: one call of the original each, 49 bytes.
//!
//! Byte 0 is the call ([`Op`]); 1 to 18 the record before; 19 to 24 the argument; 25 to 30 the
//! result; 31 to 48 the record afterwards. Unused bytes are zero. The calls from 24 on are those of
//! [`crate::records`].

use std::{
    cmp::Ordering,
    collections::{BTreeMap, HashSet},
};

use power_policy_interface::{charger, psu};

use crate::{random::Rng, record::*};

pub const VECTOR: usize = 49;

pub type Vector = [u8; VECTOR];

/// A call's number.
pub type Op = u8;

pub const ATTACH: Op = 1;
pub const DETACH: Op = 2;
pub const DISCONNECT: Op = 3;
pub const UPDATE_CONSUMER: Op = 4;
pub const UPDATE_REQUEST: Op = 5;
pub const CAN_CONNECT_CONSUMER: Op = 6;
pub const CONNECT_CONSUMER: Op = 7;
pub const CAN_CONNECT_PROVIDER: Op = 8;
pub const CONNECT_PROVIDER: Op = 9;
pub const CONNECTED_PROVIDER: Op = 10;
pub const ON_INITIALIZED: Op = 11;
pub const ON_PSU_STATE_CHANGE: Op = 12;
pub const ON_TIMEOUT: Op = 13;
pub const ON_READY_SUCCESS: Op = 14;
pub const ON_READY_FAILURE: Op = 15;
pub const ON_POLICY_ATTACH: Op = 16;
pub const ON_POLICY_DETACH: Op = 17;
pub const IS_UNPOWERED: Op = 18;
pub const MAX_POWER: Op = 19;
pub const COMPARE: Op = 20;
pub const IS_RENEGOTIATION: Op = 21;
pub const PSU_DEFAULT: Op = 22;
pub const CHARGER_DEFAULT: Op = 23;

/// The last call's number.
pub const LAST: Op = CHARGER_DEFAULT;

/// Asks the original.
pub fn ask(op: Op, record: &[u8; 18], argument: &[u8; 6]) -> Vector {
    let (result, after) = match op {
        ATTACH..=CONNECTED_PROVIDER => ask_psu(op, record, argument),
        ON_INITIALIZED..=IS_UNPOWERED => ask_charger(op, record, argument),
        _ => ask_rest(op, record, argument),
    };
    vector(op, record, argument, &result, &after)
}

pub(crate) fn vector(
    op: Op,
    record: &[u8; 18],
    argument: &[u8; 6],
    result: &[u8; 6],
    after: &[u8; 18],
) -> Vector {
    let mut vector = [0; VECTOR];
    vector[0] = op;
    vector[1..19].copy_from_slice(record);
    vector[19..25].copy_from_slice(argument);
    vector[25..31].copy_from_slice(result);
    vector[31..49].copy_from_slice(after);
    vector
}

fn flag(byte: u8) -> bool {
    match byte {
        0 => false,
        1 => true,
        other => panic!("flag {other}"),
    }
}

pub(crate) fn wide<const N: usize, const M: usize>(bytes: [u8; N]) -> [u8; M] {
    let mut result = [0; M];
    result[..N].copy_from_slice(&bytes);
    result
}

fn ask_psu(op: Op, record: &[u8; 18], argument: &[u8; 6]) -> ([u8; 6], [u8; 18]) {
    let mut state = psu_from_bytes(record);
    let result = match op {
        ATTACH => wide(result_to_bytes(&state.attach())),
        DETACH => {
            state.detach();
            [0; 6]
        }
        DISCONNECT => wide(result_to_bytes(&state.disconnect(flag(argument[0])))),
        UPDATE_CONSUMER => {
            let capability = option_from_bytes(argument, consumer_from_bytes);
            wide(result_to_bytes(
                &state.update_consumer_power_capability(capability),
            ))
        }
        UPDATE_REQUEST => {
            let capability = option_from_bytes(argument, provider_from_bytes);
            wide(result_to_bytes(
                &state.update_requested_provider_power_capability(capability),
            ))
        }
        CAN_CONNECT_CONSUMER => wide(result_to_bytes(&state.can_connect_consumer())),
        CONNECT_CONSUMER => {
            let capability = consumer_from_bytes(argument);
            wide(result_to_bytes(&state.connect_consumer(capability)))
        }
        CAN_CONNECT_PROVIDER => wide(result_to_bytes(&state.can_connect_provider())),
        CONNECT_PROVIDER => {
            let capability = provider_from_bytes(argument);
            wide(result_to_bytes(&state.connect_provider(capability)))
        }
        CONNECTED_PROVIDER => {
            option_to_bytes(&state.connected_provider_capability(), provider_to_bytes)
        }
        other => panic!("op {other}"),
    };
    (result, psu_to_bytes(&state))
}

fn ask_charger(op: Op, record: &[u8; 18], argument: &[u8; 6]) -> ([u8; 6], [u8; 18]) {
    let (record, rest) = record.split_first_chunk::<CHARGER>().unwrap();
    assert!(rest.iter().all(|byte| *byte == 0));
    let mut state = charger_from_bytes(record);
    let mut result = [0; 6];
    match op {
        ON_INITIALIZED => {
            let psu_state = charger_psu_from_byte(argument[0]);
            result = wide(charger_result_to_bytes(&state.on_initialized(psu_state)));
        }
        ON_PSU_STATE_CHANGE => {
            let psu_state = charger_psu_from_byte(argument[0]);
            result = wide(charger_result_to_bytes(
                &state.on_psu_state_change(psu_state),
            ));
        }
        ON_TIMEOUT => state.on_timeout(),
        ON_READY_SUCCESS => state.on_ready_success(),
        ON_READY_FAILURE => state.on_ready_failure(),
        ON_POLICY_ATTACH => state.on_policy_attach(consumer_from_bytes(argument)),
        ON_POLICY_DETACH => state.on_policy_detach(),
        IS_UNPOWERED => result[0] = u8::from(state.is_unpowered()),
        other => panic!("op {other}"),
    }
    (result, wide(charger_to_bytes(&state)))
}

fn ask_rest(op: Op, record: &[u8; 18], argument: &[u8; 6]) -> ([u8; 6], [u8; 18]) {
    match op {
        MAX_POWER => {
            let power = power_from_bytes(record).max_power_mw();
            (wide(power.to_le_bytes()), [0; 18])
        }
        COMPARE => {
            let order = match power_from_bytes(record).cmp(&power_from_bytes(argument)) {
                Ordering::Less => 0,
                Ordering::Equal => 1,
                Ordering::Greater => 2,
            };
            (wide([order]), [0; 18])
        }
        IS_RENEGOTIATION => {
            let reason = REASONS[usize::from(record[0])].expect("a reason");
            (wide([u8::from(reason.is_renegotiation())]), [0; 18])
        }
        PSU_DEFAULT => ([0; 6], psu_to_bytes(&psu::State::default())),
        CHARGER_DEFAULT => ([0; 6], wide(charger_to_bytes(&charger::State::default()))),
        other => panic!("op {other}"),
    }
}

/// The seed of the random vectors.
const SEED: u64 = 1;

/// How many vectors of [`full`] the sample has of each call, if there are as many.
const EACH: usize = 125;

/// How many rounds of random vectors [`full`] has.
const RANDOM: usize = 10_000;

/// Figures of voltages and currents: ends, byte borders, milliwatt borders, USB figures.
const FIGURES: [u16; 10] = [0, 1, 255, 256, 999, 1000, 5000, 15000, 20000, 65535];

pub(crate) type Capability = [u8; CAPABILITY];

pub(crate) fn capability(voltage_mv: u16, current_ma: u16, flags: u8) -> Capability {
    let [v0, v1] = voltage_mv.to_le_bytes();
    let [c0, c1] = current_ma.to_le_bytes();
    [v0, v1, c0, c1, flags]
}

/// Every pair of figures with each of these flag bytes.
fn grid(flags: impl Iterator<Item = u8> + Clone) -> Vec<Capability> {
    let mut all = Vec::new();
    for voltage in FIGURES {
        for current in FIGURES {
            for flags in flags.clone() {
                all.push(capability(voltage, current, flags));
            }
        }
    }
    all
}

fn consumer_flags() -> impl Iterator<Item = u8> + Clone {
    0..14
}

fn provider_flags() -> impl Iterator<Item = u8> + Clone {
    (0..14).step_by(2)
}

/// One capability and those that differ from it in one field or one byte alone, and zeros.
fn near(provider: bool) -> Vec<Capability> {
    let mut all = vec![
        capability(5000, 3000, 2),
        capability(5001, 3000, 2),
        capability(5256, 3000, 2),
        capability(5000, 3001, 2),
        capability(5000, 3256, 2),
        capability(5000, 3000, 4),
        capability(5000, 3000, 0),
        capability(3000, 5000, 2),
        capability(0, 0, 0),
    ];
    if !provider {
        all.push(capability(5000, 3000, 3));
    }
    all
}

pub(crate) fn present(capability: &Capability) -> [u8; 6] {
    let mut bytes = [1; 6];
    bytes[1..].copy_from_slice(capability);
    bytes
}

fn options(capabilities: &[Capability]) -> Vec<[u8; 6]> {
    let absent = [[0; 6]];
    absent
        .into_iter()
        .chain(capabilities.iter().map(present))
        .collect()
}

pub(crate) fn psu_record(
    state: u8,
    contract: &Capability,
    consumer: &[u8; 6],
    request: &[u8; 6],
) -> [u8; 18] {
    let mut record = [0; 18];
    record[0] = state;
    record[1..6].copy_from_slice(contract);
    record[6..12].copy_from_slice(consumer);
    record[12..18].copy_from_slice(request);
    record
}

pub(crate) fn charger_record(state: u8, capability: &[u8; 6]) -> [u8; 18] {
    let mut record = [0; 18];
    record[0] = state;
    record[1..7].copy_from_slice(capability);
    record
}

/// The state byte and contract of every state kind, connected ones with each of these contracts.
fn states(provider: &[Capability], consumer: &[Capability]) -> Vec<(u8, Capability)> {
    let none = [0; CAPABILITY];
    let mut all = vec![(0, none), (1, none)];
    all.extend(provider.iter().map(|contract| (2, *contract)));
    all.extend(consumer.iter().map(|contract| (3, *contract)));
    all
}

/// Collects vectors, each once, in the order in which they come.
#[derive(Default)]
struct Collection {
    seen: HashSet<Vector>,
    vectors: Vec<Vector>,
}

impl Collection {
    fn ask(&mut self, op: Op, record: &[u8; 18], argument: &[u8; 6]) {
        let vector = ask(op, record, argument);
        if self.seen.insert(vector) {
            self.vectors.push(vector);
        }
    }

    /// Every PSU call on the record, with these arguments where a call has one.
    fn ask_psu(&mut self, record: &[u8; 18], consumer: &[Capability], provider: &[Capability]) {
        let none = [0; 6];
        for op in [
            ATTACH,
            DETACH,
            CAN_CONNECT_CONSUMER,
            CAN_CONNECT_PROVIDER,
            CONNECTED_PROVIDER,
        ] {
            self.ask(op, record, &none);
        }
        self.ask(DISCONNECT, record, &wide([0]));
        self.ask(DISCONNECT, record, &wide([1]));
        for argument in options(consumer) {
            self.ask(UPDATE_CONSUMER, record, &argument);
        }
        for argument in options(provider) {
            self.ask(UPDATE_REQUEST, record, &argument);
        }
        for argument in consumer {
            self.ask(CONNECT_CONSUMER, record, &wide(*argument));
        }
        for argument in provider {
            self.ask(CONNECT_PROVIDER, record, &wide(*argument));
        }
    }

    /// Every charger call on the record, with these arguments where a call has a capability.
    fn ask_charger(&mut self, record: &[u8; 18], arguments: &[Capability]) {
        for op in [ON_INITIALIZED, ON_PSU_STATE_CHANGE] {
            self.ask(op, record, &wide([0]));
            self.ask(op, record, &wide([1]));
        }
        for op in [
            ON_TIMEOUT,
            ON_READY_SUCCESS,
            ON_READY_FAILURE,
            ON_POLICY_DETACH,
            IS_UNPOWERED,
        ] {
            self.ask(op, record, &[0; 6]);
        }
        for argument in arguments {
            self.ask(ON_POLICY_ATTACH, record, &wide(*argument));
        }
    }

    fn ask_max_power(&mut self, voltage_mv: u16, current_ma: u16) {
        let record = wide(capability(voltage_mv, current_ma, 0));
        self.ask(MAX_POWER, &record, &[0; 6]);
    }

    fn ask_compare(&mut self, first: (u16, u16), second: (u16, u16)) {
        let record = wide(capability(first.0, first.1, 0));
        let argument = wide(capability(second.0, second.1, 0));
        self.ask(COMPARE, &record, &argument);
    }

    /// A power, two comparisons, a PSU call and a charger call, with random figures.
    fn ask_random(&mut self, rng: &mut Rng) {
        let [v1, c1, v2, c2] = std::array::from_fn(|_| rng.next_u64() as u16);
        self.ask_max_power(v1, c1);
        self.ask_compare((v1, c1), (v2, c2));
        // Nearly the same power at another voltage, if a current can give it.
        let product = u32::from(v1) * u32::from(c1);
        if let Some(near) = product.checked_div(u32::from(v2))
            && let Ok(near) = u16::try_from(near)
        {
            self.ask_compare((v1, c1), (v2, near));
            self.ask_compare((v1, c1), (v2, near.saturating_add(1)));
        }

        let mut figures = |flags: u8| {
            let [v, c] = std::array::from_fn(|_| rng.next_u64() as u16);
            capability(v, c, flags)
        };
        let [as_consumer, held, argument] = [3, 8, 13].map(&mut figures);
        let [as_provider, request, asked] = [0, 6, 12].map(&mut figures);
        let state = rng.below(4) as u8;
        let contract = match state {
            0 | 1 => [0; CAPABILITY],
            2 => as_provider,
            _ => as_consumer,
        };
        let held = rng.pick(&options(&[held]));
        let request = rng.pick(&options(&[request]));
        let record = psu_record(state, &contract, &held, &request);
        let op = ATTACH + rng.below(10) as Op;
        let psu_argument = match op {
            DISCONNECT => wide([rng.below(2) as u8]),
            UPDATE_CONSUMER => rng.pick(&[[0; 6], held, present(&argument)]),
            UPDATE_REQUEST => rng.pick(&[[0; 6], request, present(&asked)]),
            CONNECT_CONSUMER => wide(argument),
            CONNECT_PROVIDER => wide(asked),
            _ => [0; 6],
        };
        self.ask(op, &record, &psu_argument);

        let record = charger_record(rng.below(4) as u8, &held);
        let op = ON_INITIALIZED + rng.below(8) as Op;
        let charger_argument = match op {
            ON_INITIALIZED | ON_PSU_STATE_CHANGE => wide([rng.below(2) as u8]),
            ON_POLICY_ATTACH => wide(argument),
            _ => [0; 6],
        };
        self.ask(op, &record, &charger_argument);
    }

    fn ask_few(&mut self) {
        for reason in 1..=6 {
            self.ask(IS_RENEGOTIATION, &wide([reason]), &[0; 6]);
        }
        self.ask(PSU_DEFAULT, &[0; 18], &[0; 6]);
        self.ask(CHARGER_DEFAULT, &[0; 18], &[0; 6]);
    }
}

/// Every call on every state kind, with absent, present, equal and different capabilities and a
/// grid of their figures and flags.
pub fn full() -> Vec<Vector> {
    let mut all = Collection::default();
    all.ask_few();

    // Figures of power: products, and pairs whose milliwatts are equal, one apart and far apart.
    let edges: Vec<u16> = FIGURES
        .into_iter()
        .chain([2, 127, 128, 500, 1500, 3000, 7500, 9000, 12000])
        .chain([32767, 32768, 48000, 65534])
        .collect();
    for voltage in &edges {
        for current in &edges {
            all.ask_max_power(*voltage, *current);
        }
    }
    for v1 in FIGURES {
        for c1 in FIGURES {
            for v2 in FIGURES {
                for c2 in FIGURES {
                    all.ask_compare((v1, c1), (v2, c2));
                }
            }
        }
    }
    for current in 2990..3010 {
        all.ask_compare((5000, 3000), (5000, current));
        all.ask_compare((5000, current), (5000, 3000));
        all.ask_compare((5000, 3000), (current, 5000));
        all.ask_compare((999, 1), (current, 0));
    }

    // PSU: every combination of near capabilities in the contract, both slots and the argument.
    let near_consumer = near(false);
    let near_provider = near(true);
    for (state, contract) in states(&near_provider, &near_consumer) {
        for consumer in options(&near_consumer[..6]) {
            for request in options(&near_provider) {
                let record = psu_record(state, &contract, &consumer, &request);
                all.ask_psu(&record, &near_consumer, &near_provider);
            }
        }
    }

    // PSU: the grid in each place in turn.
    let grid_consumer = grid(consumer_flags());
    let grid_provider = grid(provider_flags());
    let one = near_consumer[0];
    let few = [one];
    for (state, contract) in states(&grid_provider, &grid_consumer) {
        all.ask_psu(
            &psu_record(state, &contract, &present(&one), &present(&one)),
            &few,
            &few,
        );
    }
    for (state, contract) in states(&few, &few) {
        for consumer in &grid_consumer {
            let record = psu_record(state, &contract, &present(consumer), &[0; 6]);
            all.ask_psu(&record, &[*consumer], &few);
        }
        for request in &grid_provider {
            let record = psu_record(state, &contract, &[0; 6], &present(request));
            all.ask_psu(&record, &few, &[*request]);
        }
        let record = psu_record(state, &contract, &present(&one), &present(&one));
        all.ask_psu(&record, &grid_consumer, &grid_provider);
    }

    // Charger: near capabilities in record and argument, then the grid in each.
    for state in 0..4 {
        for capability in options(&near_consumer) {
            all.ask_charger(&charger_record(state, &capability), &near_consumer);
        }
        for capability in options(&grid_consumer) {
            all.ask_charger(&charger_record(state, &capability), &few);
        }
        for capability in options(&few) {
            all.ask_charger(&charger_record(state, &capability), &grid_consumer);
        }
    }

    // Any figures.
    let mut rng = Rng::new(SEED);
    for _ in 0..RANDOM {
        all.ask_random(&mut rng);
    }
    all.vectors
}

/// A deterministic choice: the named edges, every call on every state kind with each combination of
/// presence and equality, and for each call some vectors of [`full`].
pub fn sample() -> Vec<Vector> {
    let mut all = Collection::default();
    all.ask_few();
    for (voltage, current) in [
        (5000, 3000),
        (999, 1),
        (65535, 65535),
        (1000, 1),
        (1, 1000),
        (0, 65535),
    ] {
        all.ask_max_power(voltage, current);
    }
    for (first, second) in [
        ((5000, 3000), (15000, 1000)),
        ((5000, 3000), (5000, 3001)),
        ((5000, 3001), (5000, 3000)),
        ((999, 1), (0, 0)),
        ((1000, 1), (999, 1)),
        ((65535, 65535), (65535, 65534)),
    ] {
        all.ask_compare(first, second);
    }
    // Attach in Idle; an equal request on a Detached record.
    let none = [0; CAPABILITY];
    let one = near(false)[0];
    all.ask(ATTACH, &psu_record(1, &none, &[0; 6], &[0; 6]), &[0; 6]);
    all.ask(
        UPDATE_REQUEST,
        &psu_record(0, &none, &[0; 6], &present(&one)),
        &present(&one),
    );

    // Arguments: equal, and different in one field.
    let consumer = [one, near(false)[5], near(false)[9]];
    let provider = [one, near(true)[1], near(true)[5]];
    for (state, contract) in states(&[one], &[one]) {
        for capability in options(&[one]) {
            for request in options(&[one]) {
                let record = psu_record(state, &contract, &capability, &request);
                all.ask_psu(&record, &consumer, &provider);
            }
        }
    }
    for state in 0..4 {
        for capability in options(&[one]) {
            all.ask_charger(&charger_record(state, &capability), &consumer);
        }
    }

    let mut by_op: BTreeMap<Op, Vec<Vector>> = BTreeMap::new();
    for vector in full() {
        by_op.entry(vector[0]).or_default().push(vector);
    }
    let mut rng = Rng::new(SEED);
    for vectors in by_op.values_mut() {
        for _ in 0..EACH.min(vectors.len()) {
            let vector = vectors.swap_remove(rng.below(vectors.len()));
            if all.seen.insert(vector) {
                all.vectors.push(vector);
            }
        }
    }
    all.vectors
}
