//! Every refusal, alone and with each later one that the function has.

use crate::{
    bytes::*,
    calls::{Call, Calls, Rows, perform},
    report::Report,
};

/// The numbers in the order in which their conditions are looked at (crates/abstract_policy/specs/Refusals.antt).
const ORDER: [u8; 15] = [20, 21, 22, 23, 24, 25, 26, 27, 28, 29, 30, 31, 32, 33, 34];

/// A number's place in it.
fn rank(number: u8) -> usize {
    ORDER
        .iter()
        .position(|other| *other == number)
        .expect("each number has a place")
}

const PORTS: u8 = 3;
const CHARGERS: u8 = 2;

/// A service where a call finds it.
struct Stand {
    image: Vec<u8>,
    /// The kind of the open order.
    order: Option<u8>,
}

impl Stand {
    fn number(&self) -> u32 {
        u32::from_le_bytes([
            self.image[20],
            self.image[21],
            self.image[22],
            self.image[23],
        ])
    }
}

/// Makes the call where these conditions apply, and asks for the first.
fn judge(
    report: &mut Report,
    calls: &dyn Calls,
    function: &str,
    image: &[u8],
    call: &Call,
    applying: &[u8],
) {
    let wanted = applying
        .iter()
        .copied()
        .min_by_key(|number| rank(*number))
        .unwrap_or(0);
    let result = perform(calls, image, call).and_then(|after| match after.refusal() {
        given if given == wanted => Ok(()),
        given => Err(format!("{given} is given, {wanted} wanted")),
    });
    let case = |what| {
        format!(
            "{what}: image {} call {call:?} applying {applying:?}",
            hex(image)
        )
    };
    report.check(function, result.map_err(case));
    if wanted == 0 {
        report.count(&format!("{function} accepted"));
    } else if applying.len() == 1 {
        report.count(&format!("{function} {wanted} alone"));
    }
    for later in applying.iter().filter(|number| **number != wanted) {
        report.count(&format!("{function} {wanted} with {later}"));
    }
}

/// The numbers of a function, all of which must have come up alone and in pairs, but for pairs that cannot be.
fn demand(report: &mut Report, function: &str, numbers: &[u8], never: &[(u8, u8)]) {
    let mut names = vec![format!("{function} accepted")];
    for (place, first) in numbers.iter().enumerate() {
        names.push(format!("{function} {first} alone"));
        for later in &numbers[place + 1..] {
            if !never.contains(&(*first, *later)) {
                names.push(format!("{function} {first} with {later}"));
            }
        }
    }
    let names: Vec<&str> = names.iter().map(String::as_str).collect();
    report.demand(&names);
}

const OFFER: Capability = [0x98, 0x3A, 0xE8, 0x03, 3];
const BETTER: Capability = [0x20, 0x4E, 0xB8, 0x0B, 5];
const REQUEST: Capability = [0x88, 0x13, 0xF4, 0x01, 2];

fn rows(psus: [[u8; PSU_RECORD]; 3], chargers: [[u8; CHARGER_RECORD]; 2]) -> Rows {
    Rows {
        psus: psus.as_flattened().to_vec(),
        chargers: chargers.as_flattened().to_vec(),
    }
}

/// Records: an offer on port 0, a request on port 2, charger 1 unpowered.
fn offered() -> Rows {
    let idle = psu(1, None, None, None);
    rows(
        [
            psu(1, None, Some(OFFER), None),
            idle,
            psu(1, None, None, Some(REQUEST)),
        ],
        [charger(1, None), charger(0, Some(OFFER))],
    )
}

/// Records: port 0 is connected, port 1 offers more, both chargers are powered.
fn better() -> Rows {
    rows(
        [
            psu(3, Some(OFFER), Some(OFFER), None),
            psu(1, None, Some(BETTER), None),
            psu(2, Some(REQUEST), None, Some(REQUEST)),
        ],
        [charger(2, Some(OFFER)), charger(3, None)],
    )
}

/// Records: nothing is offered, both chargers are powered.
fn nothing() -> Rows {
    rows([psu(0, None, None, None); 3], [charger(1, None); 2])
}

/// Records: port 0 offers and is Detached.
fn wrong() -> Rows {
    let detached = psu(0, None, None, None);
    rows(
        [
            psu(0, None, Some(BETTER), Some(REQUEST)),
            detached,
            detached,
        ],
        [charger(1, None); 2],
    )
}

/// Services closed and at every order.
fn stands(calls: &dyn Calls) -> Result<Vec<Stand>, String> {
    let mut stands = Vec::new();
    let mut image = vec![0; SERVICE_IMAGE];
    let mut step = |image: &mut Vec<u8>, call: Call| -> Result<(), String> {
        let after = perform(calls, image, &call)?;
        *image = after.image;
        let order = match after.result.to_le_bytes() {
            [1, kind, ..] => Some(kind),
            [2 | 4, ..] => None,
            _ => return Err(format!("{call:?} gives {:#x}", after.result)),
        };
        stands.push(Stand {
            image: image.clone(),
            order,
        });
        Ok(())
    };
    let open = |rows: Rows, kind, device| Call::Open {
        rows,
        kind,
        device,
        detail: 0,
    };
    let answer = |rows: Rows, answer| Call::Answer { rows, answer };
    step(&mut image, start())?;
    // Orders 1, 7, 5, 3, 4, 5 and the close.
    step(&mut image, open(offered(), 1, 0))?;
    for _ in 0..6 {
        step(&mut image, answer(offered(), 0))?;
    }
    let connected = image.clone();
    // Orders 0, 6, 6, 1 and an error.
    step(&mut image, open(better(), 3, 2))?;
    for _ in 0..3 {
        step(&mut image, answer(better(), 0))?;
    }
    step(&mut image, answer(better(), 10))?;
    // Orders 6, 6 and the close.
    image = connected;
    step(&mut image, open(nothing(), 4, 0))?;
    for _ in 0..2 {
        step(&mut image, answer(nothing(), 0))?;
    }
    // Order 2, the close, and the loss of the provider.
    step(&mut image, open(offered(), 2, 2))?;
    step(&mut image, answer(offered(), 0))?;
    step(&mut image, open(nothing(), 4, 2))?;
    // An event without orders, and two with a port in a wrong state.
    step(&mut image, open(nothing(), 0, 1))?;
    step(&mut image, open(wrong(), 1, 0))?;
    step(&mut image, open(wrong(), 2, 0))?;
    // The last number, closed.
    let mut last = image.clone();
    last[20..24].fill(0xFF);
    stands.push(Stand {
        image: last,
        order: None,
    });
    let kinds: Vec<Option<u8>> = stands.iter().map(|stand| stand.order).collect();
    for kind in 0..8 {
        if !kinds.contains(&Some(kind)) {
            return Err(format!("no service at order {kind}"));
        }
    }
    Ok(stands)
}

fn start() -> Call {
    Call::Start {
        ports: PORTS.into(),
        chargers: CHARGERS.into(),
        figures: [15000, 5000, 3000, 5000, 1500, 1, 7500],
    }
}

/// Bytes that are no service with three ports and two chargers, made from one; first the image itself.
fn damaged(image: &[u8]) -> Vec<(Vec<u8>, bool)> {
    let mut all = vec![(image.to_vec(), false)];
    for length in [0, 1, 63, 64, 66] {
        all.push((image[..length].to_vec(), true));
    }
    all.push(([image, &[0]].concat(), true));
    all.push(([image, image].concat(), true));
    let changes = [
        (0, 0),
        (0, 2),
        (0, 255),
        (1, 17),
        (2, 9),
        (15, 2),
        (24, 2),
        (31, 2),
        (32, 4),
        (33, 0x1F),
        (34, 1),
        (35, 2),
        (36, 255),
        (37, 5),
        (47, 3),
        (54, 2),
        (57, 2),
        (64, 2),
    ];
    for (place, value) in changes {
        let mut bytes = image.to_vec();
        bytes[place] = value;
        all.push((bytes, true));
    }
    all
}

/// Rows of three ports and two chargers, good and bad.
fn records() -> Vec<(Rows, bool)> {
    let mut all: Vec<(Rows, bool)> = [offered(), better(), nothing()]
        .map(|rows| (rows, false))
        .into();
    let good = offered();
    let mut bad = |change: &dyn Fn(&mut Rows)| {
        let mut rows = good.clone();
        change(&mut rows);
        all.push((rows, true));
    };
    bad(&|rows| rows.psus.clear());
    bad(&|rows| rows.psus.truncate(1));
    bad(&|rows| rows.psus.truncate(3 * PSU_RECORD - 1));
    bad(&|rows| rows.psus.push(0));
    bad(&|rows| rows.psus.truncate(2 * PSU_RECORD));
    bad(&|rows| rows.psus.extend([0; PSU_RECORD]));
    bad(&|rows| rows.chargers.clear());
    bad(&|rows| rows.chargers.truncate(2 * CHARGER_RECORD - 1));
    bad(&|rows| rows.chargers.push(0));
    bad(&|rows| rows.chargers.truncate(CHARGER_RECORD));
    bad(&|rows| rows.chargers.extend([0; CHARGER_RECORD]));
    // The last port: state, contract, presence, absent bytes, flags.
    let last = 2 * PSU_RECORD;
    for (place, value) in [
        (0, 4),
        (0, 255),
        (1, 1),
        (5, 2),
        (6, 2),
        (7, 1),
        (11, 2),
        (12, 2),
    ] {
        bad(&|rows| rows.psus[last + place] = value);
    }
    for flags in [1, 3, 14, 16, 128] {
        bad(&|rows| rows.psus[last + 17] = flags);
    }
    for flags in [14, 15, 16, 255] {
        bad(&|rows| rows.psus[11] = flags);
    }
    bad(&|rows| rows.psus[..6].copy_from_slice(&[2, 1, 1, 1, 1, 1]));
    bad(&|rows| rows.psus[..6].copy_from_slice(&[3, 1, 1, 1, 1, 14]));
    for (place, value) in [(0, 4), (1, 2), (1, 0), (6, 14), (6, 16)] {
        bad(&|rows| rows.chargers[CHARGER_RECORD + place] = value);
    }
    bad(&|rows| rows.chargers[6] = 1);
    all
}

/// Kind, device and detail, and which of 23 and 24 they meet.
fn events() -> Vec<([u32; 3], Vec<u8>)> {
    const MOST: u32 = u32::MAX;
    let mut all = Vec::new();
    let mut add = |numbers: [u32; 3], met: &[u8]| all.push((numbers, met.to_vec()));
    for kind in [0, 1, 2, 4] {
        add([kind, 0, 0], &[]);
        add([kind, 2, MOST], &[]);
        for device in [3, 15, 16, 256, 1 << 16, MOST] {
            add([kind, device, 7], &[23]);
        }
    }
    for reason in 0..7 {
        add([3, 1, reason], &[]);
    }
    for reason in [7, 255, 256, MOST] {
        add([3, 1, reason], &[24]);
        add([3, 3, reason], &[23, 24]);
    }
    add([3, 3, 6], &[23]);
    for charger in [0, 1] {
        add([5, charger, 0], &[]);
        add([5, charger, 1], &[]);
        for state in [2, 256, MOST] {
            add([5, charger, state], &[24]);
        }
    }
    // A port that is there and a charger that is not.
    for charger in [2, 8, 256, MOST] {
        add([5, charger, 1], &[23]);
        add([5, charger, 2], &[23, 24]);
    }
    for kind in [6, 7, 255, 256, 261, MOST] {
        add([kind, 2, 0], &[24]);
        for device in [3, 256, MOST] {
            add([kind, device, 0], &[23, 24]);
        }
    }
    all
}

fn opens(report: &mut Report, calls: &dyn Calls, stands: &[Stand]) {
    let (records, events) = (records(), events());
    for stand in stands {
        for (image, is_damaged) in damaged(&stand.image) {
            for (rows, are_bad) in &records {
                for ([kind, device, detail], met) in &events {
                    let mut applying = Vec::new();
                    applying.extend(is_damaged.then_some(21));
                    applying.extend(are_bad.then_some(22));
                    applying.extend(met);
                    applying.extend(stand.order.map(|_| 25));
                    applying.extend((stand.number() == u32::MAX && *kind != 5).then_some(28));
                    let call = Call::Open {
                        rows: rows.clone(),
                        kind: *kind,
                        device: *device,
                        detail: *detail,
                    };
                    judge(report, calls, "open", &image, &call, &applying);
                }
            }
        }
    }
    // While an event is open there is a number left, so 25 and 28 do not meet.
    demand(report, "open", &[21, 22, 23, 24, 25, 28], &[(25, 28)]);
}

fn answers(report: &mut Report, calls: &dyn Calls, stands: &[Stand]) {
    let records = records();
    let answers = (0..=12).chain([255, 256, 265, 1 << 16, u32::MAX]);
    for stand in stands {
        for (image, is_damaged) in damaged(&stand.image) {
            for (rows, are_bad) in &records {
                for answer in answers.clone() {
                    let unfit = match stand.order {
                        Some(7) => answer != 0,
                        Some(3..=6) => answer != 0 && answer != 9,
                        _ => answer > 10,
                    };
                    let mut applying = Vec::new();
                    applying.extend(is_damaged.then_some(21));
                    applying.extend(are_bad.then_some(22));
                    applying.extend(unfit.then_some(24));
                    applying.extend(stand.order.is_none().then_some(26));
                    let rows = rows.clone();
                    let call = Call::Answer { rows, answer };
                    judge(report, calls, "answer", &image, &call, &applying);
                }
            }
        }
    }
    demand(report, "answer", &[21, 22, 24, 26], &[]);
}

/// A buffer as it is before a write.
fn buffer(length: usize) -> Vec<u8> {
    (0..length).map(|place| place as u8 ^ 0xA5).collect()
}

fn writes(report: &mut Report, calls: &dyn Calls, stands: &[Stand]) {
    for stand in stands {
        for (image, is_damaged) in damaged(&stand.image) {
            judge(
                report,
                calls,
                "order",
                &image,
                &Call::Order,
                if is_damaged { &[21] } else { &[] },
            );
            for length in [0, 1, 33, 62, 63, 64, 65, 128] {
                let mut applying = Vec::new();
                applying.extend(is_damaged.then_some(21));
                applying.extend(stand.order.map(|_| 25));
                applying.extend((length < BUFFER).then_some(29));
                let buffer = buffer(length);
                let call = Call::WritePicture(buffer.clone());
                judge(report, calls, "write_picture", &image, &call, &applying);
                applying.extend((stand.number() == 0).then_some(27));
                let call = Call::WritePacket(buffer);
                judge(report, calls, "write_packet", &image, &call, &applying);
            }
        }
    }
    demand(report, "order", &[21], &[]);
    demand(report, "write_picture", &[21, 25, 29], &[]);
    demand(report, "write_packet", &[21, 25, 27, 29], &[]);
}

fn starts(report: &mut Report, calls: &dyn Calls) {
    let words = [0, u64::from(u32::MAX), 1 << 32, u64::MAX];
    let halves = [0, 65535, 65536, u64::MAX];
    for length in [0, 1, 66, 67, 68, 241] {
        let image: Vec<u8> = (0..length).map(|place| (place * 29 + 3) as u8).collect();
        let mut judge = |ports: u32, chargers: u32, figures: [u64; 7]| {
            let over = ports > 16
                || chargers > 8
                || figures[0] > words[1]
                || figures[1..5].iter().any(|figure| *figure > 65535)
                || figures[5] > 1
                || (figures[5] == 1 && figures[6] > words[1]);
            let mut applying = Vec::new();
            applying.extend(over.then_some(20));
            applying.extend((length != SERVICE_IMAGE).then_some(21));
            let call = Call::Start {
                ports,
                chargers,
                figures,
            };
            judge(report, calls, "start", &image, &call, &applying);
        };
        for ports in [0, 16, 17, 256, 272, u32::MAX] {
            for chargers in [0, 8, 9, 256, 264, u32::MAX] {
                judge(ports, chargers, [15000, 5000, 3000, 5000, 1500, 0, 0]);
            }
        }
        for threshold in words {
            for half in 1..5 {
                for figure in halves {
                    for present in [0, 1, 2, 256, u64::MAX] {
                        for minimum in words {
                            let mut figures = [threshold, 1, 2, 3, 4, present, minimum];
                            figures[half] = figure;
                            judge(16, 8, figures);
                        }
                    }
                }
            }
        }
    }
    demand(report, "start", &[20, 21], &[]);
}

/// A field of a packet.
#[derive(Clone)]
struct Field {
    good: Vec<u8>,
    /// Bytes in its place, and what they are refused with.
    faults: Vec<(Vec<u8>, u8)>,
}

fn byte(good: u8, bad: &[u8]) -> Field {
    Field {
        good: vec![good],
        faults: bad.iter().map(|bad| (vec![*bad], 32)).collect(),
    }
}

/// A number with this limit; the values `bad` are refused with 32.
fn numeral(good: u32, limit: u32, bad: &[u32]) -> Field {
    let mut longer = number(good);
    *longer.last_mut().unwrap() |= 0x80;
    longer.push(0);
    let mut faults = vec![
        (longer, 31),
        (vec![0x80, 0x80, 0x80, 0x80, 0], 31),
        (vec![0xFF, 0xFF, 0xFF, 0xFF, 0x10], 31),
        (vec![0x80, 0x80, 0x80, 0x80, 0x80], 31),
        (vec![0xFF; 5], 31),
    ];
    if limit < u32::MAX {
        faults.push((number(limit + 1), 31));
        faults.push((number(u32::MAX), 31));
    }
    faults.extend(bad.iter().map(|bad| (number(*bad), 32)));
    Field {
        good: number(good),
        faults,
    }
}

fn contract(flags: u8, bad: &[u8]) -> Vec<Field> {
    vec![
        byte(15, &[16, 255]),
        numeral(65535, 65535, &[]),
        numeral(0, 65535, &[]),
        byte(flags, bad),
    ]
}

/// Packets by their fields.
fn packets() -> Vec<Vec<Field>> {
    let head = |count| {
        vec![
            byte(1, &[0, 3, 129, 255]),
            numeral(2, u32::MAX, &[0]),
            byte(10, &[11, 255]),
            numeral(35, u32::MAX, &[36, 128, u32::MAX]),
            byte(count, &[5, 255]),
        ]
    };
    let kind = |kind| vec![byte(kind, &[0, 6, 255])];
    let port = || vec![byte(15, &[16, 255])];
    let left = [kind(1), port(), vec![byte(6, &[7, 255])]].concat();
    let joined = [kind(2), contract(13, &[14, 15, 16, 255])].concat();
    let lost = [kind(3), port()].concat();
    let given = [kind(4), contract(12, &[1, 13, 14, 16, 128])].concat();
    let figures = [kind(5), vec![byte(1, &[2, 255]), byte(16, &[17, 255])]].concat();
    let picture = |consumer: bool, ports: &[u8]| {
        let mut fields = vec![byte(2, &[0, 4, 130]), numeral(0, u32::MAX, &[])];
        fields.push(byte(consumer.into(), &[2, 255]));
        if consumer {
            fields.extend(contract(13, &[14, 15, 16, 255]));
        }
        fields.push(byte(1, &[2, 255]));
        fields.push(byte(16, &[17, 255]));
        fields.push(byte(ports.len() as u8, &[5, 255]));
        let mut before = None;
        for port in ports {
            let mut bad = vec![16, 255];
            bad.extend(before);
            if before.is_some() {
                bad.push(0);
            }
            fields.push(byte(*port, &bad));
            before = Some(*port);
        }
        fields
    };
    vec![
        head(0),
        [head(1), left.clone()].concat(),
        [head(1), given.clone()].concat(),
        [head(4), lost, left, joined.clone(), figures.clone()].concat(),
        [head(4), given, figures, joined.clone(), joined].concat(),
        picture(false, &[]),
        picture(true, &[0, 1, 14, 15]),
        picture(false, &[15]),
    ]
}

/// Bytes and what they are refused with: 0 is accepted. The name says what they are.
fn damaged_packets() -> Vec<(Vec<u8>, u8, String)> {
    let mut all = Vec::new();
    for fields in packets() {
        let whole: Vec<u8> = fields.iter().flat_map(|field| field.good.clone()).collect();
        for length in 0..whole.len() {
            all.push((whole[..length].to_vec(), 30, "30 alone".to_owned()));
        }
        for rest in [&[0][..], &[255], &whole] {
            all.push(([&whole, rest].concat(), 33, "33 alone".to_owned()));
        }
        all.push((whole, 0, "accepted".to_owned()));
        let place = |fields: &[Field]| fields.iter().map(|field| field.good.len()).sum::<usize>();
        for (at, field) in fields.iter().enumerate() {
            let before: Vec<u8> = fields[..at]
                .iter()
                .flat_map(|field| field.good.clone())
                .collect();
            for (fault, refusal) in &field.faults {
                let until = [&before[..], fault].concat();
                let after: Vec<u8> = fields[at + 1..]
                    .iter()
                    .flat_map(|field| field.good.clone())
                    .collect();
                let name = format!("{refusal} alone");
                all.push(([&until[..], &after].concat(), *refusal, name));
                // Cut within the faulty field: its end is not met.
                for length in before.len()..until.len() {
                    all.push((until[..length].to_vec(), 30, format!("30 before {refusal}")));
                }
                // Cut at its end and later, and bytes left over.
                all.push((until.clone(), *refusal, format!("{refusal} before 30")));
                if !after.is_empty() {
                    let cut = [&until[..], &after[..after.len() - 1]].concat();
                    all.push((cut, *refusal, format!("{refusal} before 30")));
                }
                let longer = [&until[..], &after, &[0]].concat();
                all.push((longer, *refusal, format!("{refusal} before 33")));
                for (later, field) in fields.iter().enumerate().skip(at + 1) {
                    for (second, number) in &field.faults {
                        let mut bytes = until.clone();
                        bytes.extend(
                            fields[at + 1..later]
                                .iter()
                                .flat_map(|one| one.good.clone()),
                        );
                        bytes.extend(second);
                        bytes.extend(&after[place(&fields[at + 1..=later])..]);
                        all.push((bytes, *refusal, format!("{refusal} before {number}")));
                    }
                }
            }
        }
    }
    all
}

/// Followers: fresh, showing, waiting.
fn followers(calls: &dyn Calls) -> Result<Vec<Vec<u8>>, String> {
    let mut image = vec![0xFF; FOLLOWER_IMAGE];
    let mut all = Vec::new();
    let packets: [&[u8]; 4] = [
        &[1, 7, 0, 0, 0],
        &[2, 7, 1, 15, 1, 1, 13, 1, 16, 4, 1, 2, 3, 4],
        &[1, 9, 0, 0, 1, 4, 15, 1, 1, 12],
        &[1, 15, 10, 35, 4, 1, 0, 0, 2, 1, 2, 3, 4, 3, 5, 5, 1, 16],
    ];
    let started = [Call::FollowerStart];
    let takes = packets.map(|packet| Call::FollowerTake(packet.to_vec()));
    for call in started.into_iter().chain(takes) {
        let after = perform(calls, &image, &call)?;
        if after.outcome() != 4 {
            return Err(format!("{call:?} gives {:#x}", after.result));
        }
        image = after.image;
        all.push(image.clone());
    }
    Ok(all)
}

fn follows(report: &mut Report, calls: &dyn Calls) -> Result<(), String> {
    for length in [0, 1, 64, 67, 240, 241, 242] {
        let applying: &[u8] = if length == FOLLOWER_IMAGE { &[] } else { &[21] };
        let image: Vec<u8> = (0..length).map(|place| (place * 7 + 1) as u8).collect();
        judge(
            report,
            calls,
            "follower_start",
            &image,
            &Call::FollowerStart,
            applying,
        );
    }
    let followers = followers(calls)?;
    let packets = damaged_packets();
    for image in &followers {
        let mut images = vec![(image.clone(), false)];
        for length in [0, 1, 67, 240] {
            images.push((image[..length].to_vec(), true));
        }
        images.push(([&image[..], &[0]].concat(), true));
        let mut changes = vec![
            (0, 0),
            (0, 1),
            (0, 3),
            (1, 2),
            (1, 255),
            (6, 2),
            (13, 2),
            (14, 17),
        ];
        changes.extend([(15, 0x1F), (17, 2), (17, 255), (240, 1)]);
        for (place, value) in changes {
            let mut bytes = image.clone();
            bytes[place] = value;
            images.push((bytes, true));
        }
        for (bytes, is_damaged) in &images {
            let applying: &[u8] = if *is_damaged { &[21] } else { &[] };
            for (function, call) in [
                ("follower_shown", Call::FollowerShown),
                ("follower_consumer", Call::FollowerConsumer),
                ("follower_tracked", Call::FollowerTracked),
            ] {
                judge(report, calls, function, bytes, &call, applying);
            }
            for length in [0, 1, 63, 64, 65, 245, 246, 247, 300] {
                let mut applying = applying.to_vec();
                applying.extend((length < PAGE).then_some(34));
                let call = Call::FollowerWritePage(buffer(length));
                let function = "follower_write_page";
                judge(report, calls, function, bytes, &call, &applying);
            }
        }
        for (packet, refusal, name) in &packets {
            for (bytes, is_damaged) in &images {
                let mut applying = Vec::new();
                applying.extend(is_damaged.then_some(21));
                applying.extend((*refusal != 0).then_some(*refusal));
                let call = Call::FollowerTake(packet.clone());
                judge(report, calls, "follower_take", bytes, &call, &applying);
            }
            report.count(&format!("packet: {name}"));
        }
    }
    demand(report, "follower_start", &[21], &[]);
    for function in ["follower_shown", "follower_consumer", "follower_tracked"] {
        demand(report, function, &[21], &[]);
    }
    demand(report, "follower_write_page", &[21, 34], &[]);
    // Of 30 to 33 one is met first: the pairs are counted by packets.
    let names = [
        "follower_take accepted",
        "follower_take 21 alone",
        "follower_take 21 with 30",
        "follower_take 21 with 31",
        "follower_take 21 with 32",
        "follower_take 21 with 33",
        "packet: 30 alone",
        "packet: 31 alone",
        "packet: 32 alone",
        "packet: 33 alone",
        "packet: 30 before 31",
        "packet: 30 before 32",
        "packet: 31 before 30",
        "packet: 31 before 32",
        "packet: 31 before 33",
        "packet: 32 before 30",
        "packet: 32 before 31",
        "packet: 32 before 33",
    ];
    report.demand(&names);
    Ok(())
}

pub fn run(report: &mut Report, calls: &dyn Calls) {
    let result = stands(calls).and_then(|stands| {
        starts(report, calls);
        opens(report, calls, &stands);
        answers(report, calls, &stands);
        writes(report, calls, &stands);
        follows(report, calls)
    });
    if let Err(case) = result {
        report.check("setting up", Err(case));
    }
}
