//! Runs of the original Rust, made again through the functions under test.
//!
//! The program `oracle` (rust/oracle) runs the original one device order at a time and writes what it does as a stream; the layout is in
//! its src/stream.rs. Each opening and answer is made here with the same records. Compared are each order, a wait with the milliseconds that
//! the driver demands of the original's timer; each close with its expected and actual states and the number of orders that the driver
//! was given, also where a charger's event has come after it; the packet, byte by byte, so the notices, their order and the number of
//! orders; the picture and the whole image at the close, so all that is held, the power state too; and what two followers show, one that
//! takes each packet at once and one that takes up to eight in the wrong order.

use std::{
    env,
    io::{BufReader, Read},
    path::PathBuf,
    process::{Command, Stdio},
};

use crate::{
    bytes::*,
    calls::{After, Call, Calls, Rows, perform},
    report::Report,
};

const OUTCOME: usize = 64;
/// A wait in the stream.
const WAIT: u8 = 8;

fn oracle() -> PathBuf {
    if let Some(path) = env::var_os("POWER_POLICY_ORACLE") {
        return path.into();
    }
    let own = env::current_exe().unwrap_or_default();
    own.with_file_name("oracle")
}

pub fn run(report: &mut Report, calls: &dyn Calls, arguments: &[&str]) {
    let path = oracle();
    let command = Command::new(&path)
        .arg("service")
        .args(arguments)
        .stdout(Stdio::piped())
        .spawn();
    let mut child = match command {
        Ok(child) => child,
        Err(error) => {
            return report.check("oracle", Err(format!("{}: {error}", path.display())));
        }
    };
    let output = child.stdout.take().expect("a pipe");
    let mut replay = Replay {
        stream: BufReader::with_capacity(1 << 16, output),
        calls,
        report,
        run: None,
    };
    let result = replay.all();
    // Closes the pipe: a program that still writes ends.
    drop(replay);
    let status = child.wait();
    match (result, status) {
        (Err(error), _) => report.check("stream", Err(error)),
        (Ok(()), Ok(status)) if status.success() => {}
        (Ok(()), status) => report.check("oracle", Err(format!("{status:?}"))),
    }
    let demanded = [
        "order",
        "wait",
        "close",
        "packet",
        "picture",
        "image",
        "follower",
        "late follower",
    ];
    report.demand(&demanded);
}

/// What is known of the present run.
struct Run {
    ports: u8,
    chargers: u8,
    /// The twenty bytes that a start fixes for good.
    head: [u8; 20],
    image: Vec<u8>,
    number: u32,
    /// The open event's kind.
    kind: u8,
    /// The close of the last numbered event, by the original; that of a fresh service before event 1.
    closed: u64,
    follower: Vec<u8>,
    late: Vec<u8>,
    /// Packets that the late follower has not been handed, and whether one has an error.
    kept: Vec<Vec<u8>>,
    error: bool,
}

struct Replay<'a, R> {
    stream: R,
    calls: &'a dyn Calls,
    report: &'a mut Report,
    run: Option<Run>,
}

/// An outcome that closes an event, as the original has it.
struct Close<'a> {
    answer: [u8; 3],
    orders: u8,
    notices: Vec<&'a [u8]>,
    held: &'a [u8],
}

impl<'a> Close<'a> {
    fn new(outcome: &'a [u8]) -> Self {
        Self {
            answer: [outcome[1], outcome[2], outcome[3]],
            orders: outcome[4],
            notices: outcome[6..]
                .chunks_exact(8)
                .take(outcome[5].into())
                .collect(),
            held: &outcome[38..53],
        }
    }

    fn result(&self) -> u64 {
        let [answer, expected, actual] = self.answer;
        u64::from_le_bytes([2, answer, expected, actual, self.orders, 0, 0, 0])
    }

    fn tracked(&self) -> &[u8] {
        &self.held[11..11 + usize::from(self.held[10])]
    }

    fn tracked_mask(&self) -> u16 {
        self.tracked()
            .iter()
            .fold(0, |ports, port| ports | 1 << port)
    }

    /// Port, mV, mA and flags as a packet has them.
    fn contract(bytes: &[u8]) -> Vec<u8> {
        let mut packet = vec![bytes[0]];
        packet.extend(number(u16::from_le_bytes([bytes[1], bytes[2]]).into()));
        packet.extend(number(u16::from_le_bytes([bytes[3], bytes[4]]).into()));
        packet.push(bytes[5]);
        packet
    }

    /// Its packet (PKT-8).
    fn packet(&self, event: u32) -> Vec<u8> {
        let mut packet = vec![1];
        packet.extend(number(event));
        packet.push(self.answer[0]);
        packet.extend(number(self.orders.into()));
        packet.push(self.notices.len() as u8);
        for notice in &self.notices {
            packet.push(notice[0]);
            match notice[0] {
                1 | 5 => packet.extend(&notice[1..3]),
                3 => packet.push(notice[1]),
                _ => packet.extend(Self::contract(&notice[1..])),
            }
        }
        packet
    }

    fn picture(&self, event: u32) -> Vec<u8> {
        let mut picture = vec![2];
        picture.extend(number(event));
        picture.push(self.held[0]);
        if self.held[0] == 1 {
            picture.extend(Self::contract(&self.held[1..]));
        }
        picture.extend([self.held[7], self.held[8], self.held[10]]);
        picture.extend(self.tracked());
        picture
    }

    /// The image that docs/STATE.md gives it.
    fn image(&self, head: &[u8; 20], event: u32) -> Vec<u8> {
        let mut image = vec![0; SERVICE_IMAGE];
        image[..20].copy_from_slice(head);
        image[20..24].copy_from_slice(&event.to_le_bytes());
        image[24..33].copy_from_slice(&self.held[..9]);
        image[33..35].copy_from_slice(&self.tracked_mask().to_le_bytes());
        image[35] = self.held[9];
        image[36] = self.orders;
        image[38..41].copy_from_slice(&self.answer);
        for notice in &self.notices {
            match notice[0] {
                1 => image[54..57].copy_from_slice(&[1, notice[1], notice[2]]),
                2 => {
                    image[57] = 1;
                    image[58..64].copy_from_slice(&notice[1..7]);
                }
                3 => image[47..49].copy_from_slice(&[1, notice[1]]),
                4 => {
                    image[47] = 2;
                    image[48..54].copy_from_slice(&notice[1..7]);
                }
                _ => image[64..67].copy_from_slice(&[1, notice[1], notice[2]]),
            }
        }
        image
    }

    /// What a follower gives that shows this: the three results of its readers.
    fn shown(&self, event: u32) -> [u64; 3] {
        let held = self.held;
        let shown =
            u64::from(u32::from_le_bytes([5, 1, held[7], held[8]])) | u64::from(event) << 32;
        let consumer = match held[0] {
            0 => 6,
            _ => u64::from_le_bytes([6, 1, held[1], held[6], held[2], held[3], held[4], held[5]]),
        };
        let [low, high] = self.tracked_mask().to_le_bytes();
        let tracked = u64::from(u32::from_le_bytes([7, held[10], low, high]));
        [shown, consumer, tracked]
    }
}

fn equal<T: PartialEq>(given: T, wanted: T, show: impl Fn(&T) -> String) -> Result<(), String> {
    if given == wanted {
        Ok(())
    } else {
        Err(format!("{}; the original {}", show(&given), show(&wanted)))
    }
}

fn show_number(number: &u64) -> String {
    format!("{number:#x}")
}

#[allow(clippy::ptr_arg)]
fn show_bytes(bytes: &Vec<u8>) -> String {
    hex(bytes)
}

impl<R: Read> Replay<'_, R> {
    fn bytes(&mut self, length: usize) -> Result<Vec<u8>, String> {
        let mut bytes = vec![0; length];
        self.stream
            .read_exact(&mut bytes)
            .map_err(|error| error.to_string())?;
        Ok(bytes)
    }

    /// The first byte of the next entry; none at the end.
    fn next(&mut self) -> Result<Option<u8>, String> {
        let mut byte = [0];
        match self
            .stream
            .read(&mut byte)
            .map_err(|error| error.to_string())?
        {
            0 => Ok(None),
            _ => Ok(Some(byte[0])),
        }
    }

    fn perform(&self, image: &[u8], call: &Call) -> Result<After, String> {
        perform(self.calls, image, call)
            .map_err(|what| format!("{what}; image {} call {call:?}", hex(image)))
    }

    fn all(&mut self) -> Result<(), String> {
        while let Some(entry) = self.next()? {
            match entry {
                b'S' => self.start()?,
                b'O' => {
                    let event = self.bytes(3)?;
                    let [kind, device, detail] = [event[0], event[1], event[2]];
                    let rows = self.rows()?;
                    self.present()?.kind = kind;
                    self.step(Call::Open {
                        rows,
                        kind: kind.into(),
                        device: device.into(),
                        detail: detail.into(),
                    })?;
                }
                b'A' => {
                    let answer = self.bytes(1)?[0].into();
                    let rows = self.rows()?;
                    self.step(Call::Answer { rows, answer })?;
                }
                other => return Err(format!("an entry of kind {other}")),
            }
        }
        Ok(())
    }

    fn present(&mut self) -> Result<&mut Run, String> {
        self.run
            .as_mut()
            .ok_or_else(|| "a call before a start".to_owned())
    }

    fn rows(&mut self) -> Result<Rows, String> {
        let run = self.present()?;
        let (ports, chargers) = (usize::from(run.ports), usize::from(run.chargers));
        Ok(Rows {
            psus: self.bytes(PSU_RECORD * ports)?,
            chargers: self.bytes(CHARGER_RECORD * chargers)?,
        })
    }

    fn start(&mut self) -> Result<(), String> {
        let start = self.bytes(21)?;
        let half = |at: usize| u64::from(u16::from_le_bytes([start[at], start[at + 1]]));
        let word = |at: usize| half(at) | half(at + 2) << 16;
        let (ports, chargers) = (start[17], start[18]);
        let figures = [
            word(0),
            half(4),
            half(6),
            half(8),
            half(10),
            u64::from(start[12]),
            word(13),
        ];
        let call = Call::Start {
            ports: ports.into(),
            chargers: chargers.into(),
            figures,
        };
        let started = self.perform(&[0xC3; SERVICE_IMAGE], &call)?;
        let mut head = [0; 20];
        head[..3].copy_from_slice(&[1, ports, chargers]);
        head[3..].copy_from_slice(&start[..17]);
        let mut fresh = vec![0; SERVICE_IMAGE];
        fresh[..20].copy_from_slice(&head);
        let result = equal(started.image.clone(), fresh, show_bytes);
        self.report.check("start", result);
        let follower = self
            .perform(&[0; FOLLOWER_IMAGE], &Call::FollowerStart)?
            .image;
        let picture = self.perform(&started.image, &Call::WritePicture(vec![0; BUFFER]))?;
        let take = Call::FollowerTake(picture.written().to_vec());
        let follower = self.perform(&follower, &take)?.image;
        self.run = Some(Run {
            ports,
            chargers,
            head,
            image: started.image,
            number: 0,
            kind: 0,
            closed: 2,
            late: follower.clone(),
            follower,
            kept: Vec::new(),
            error: false,
        });
        Ok(())
    }

    /// Makes the call and compares it with the outcome that follows.
    fn step(&mut self, call: Call) -> Result<(), String> {
        let outcome = self.bytes(OUTCOME)?;
        let before = self.present()?.image.clone();
        let after = self.perform(&before, &call)?;
        let case = |what: String| format!("{what}; image {} call {call:?}", hex(&before));
        let close = match outcome[0] {
            1 => {
                let o = &outcome;
                let [mut v0, mut v1] = [o[3], o[4]];
                if o[1] == WAIT {
                    [v0, v1] = WAIT_MILLIS.to_le_bytes();
                    self.report.count("wait");
                }
                let wanted = u64::from_le_bytes([1, o[1] - 1, o[2], o[7], v0, v1, o[5], o[6]]);
                let result = equal(after.result, wanted, show_number);
                self.report.check("order", result.map_err(case));
                None
            }
            2 => {
                let close = Close::new(&outcome);
                let result = equal(after.result, close.result(), show_number);
                self.report.check("close", result.map_err(case));
                Some(close)
            }
            other => return Err(format!("an outcome of kind {other}")),
        };
        let is_numbered = self.present()?.kind != 5;
        self.present()?.image = after.image.clone();
        match close {
            Some(_) if !is_numbered => {
                let result = equal(after.image.clone(), before.clone(), show_bytes);
                self.report.check("charger event", result.map_err(case));
                let closed = self.present()?.closed;
                self.stands(&after.image, closed)
            }
            Some(close) => {
                self.present()?.closed = close.result();
                self.stands(&after.image, after.result)?;
                self.closed(&close, &case)
            }
            None => self.stands(&after.image, after.result),
        }
    }

    /// The event stands where the last call said; while it is open nothing is written.
    fn stands(&mut self, image: &[u8], wanted: u64) -> Result<(), String> {
        let stands = self.perform(image, &Call::Order)?.result;
        let mut result = equal(stands, wanted, show_number);
        if wanted as u8 == 1 {
            for call in [
                Call::WritePacket(vec![0; BUFFER]),
                Call::WritePicture(vec![0; BUFFER]),
            ] {
                let refusal = self.perform(image, &call)?.refusal();
                result = result.and(equal(u64::from(refusal), 25, show_number));
            }
        }
        self.report.check(
            "where it stands",
            result.map_err(|what| format!("{what}; image {}", hex(image))),
        );
        Ok(())
    }

    fn closed(&mut self, close: &Close, case: &dyn Fn(String) -> String) -> Result<(), String> {
        let mut run = self.run.take().ok_or("no run")?;
        run.number += 1;
        let event = run.number;
        let image = run.image.clone();
        let result = equal(image.clone(), close.image(&run.head, event), show_bytes);
        self.report.check("image", result.map_err(case));
        let packet = self
            .perform(&image, &Call::WritePacket(vec![0xEE; BUFFER]))?
            .written()
            .to_vec();
        let result = equal(packet.clone(), close.packet(event), show_bytes);
        self.report.check("packet", result.map_err(case));
        let picture = self
            .perform(&image, &Call::WritePicture(vec![0xEE; BUFFER]))?
            .written()
            .to_vec();
        let result = equal(picture.clone(), close.picture(event), show_bytes);
        self.report.check("picture", result.map_err(case));

        run.follower = self
            .perform(&run.follower, &Call::FollowerTake(packet.clone()))?
            .image;
        if close.answer[0] != 0 {
            let lost = self.perform(&run.follower, &Call::FollowerShown)?.result;
            self.report.check(
                "follower is lost",
                equal(lost, 5, show_number).map_err(case),
            );
            run.follower = self
                .perform(&run.follower, &Call::FollowerTake(picture.clone()))?
                .image;
        }
        let result = self.shows(&run.follower, close, event)?;
        self.report.check("follower", result.map_err(case));

        run.kept.push(packet);
        run.error |= close.answer[0] != 0;
        if run.kept.len() == 8 || event % 11 == 0 {
            for packet in run.kept.drain(..).rev() {
                run.late = self.perform(&run.late, &Call::FollowerTake(packet))?.image;
            }
            if run.error {
                run.late = self.perform(&run.late, &Call::FollowerTake(picture))?.image;
            }
            run.error = false;
            let result = self.shows(&run.late, close, event)?;
            self.report.check("late follower", result.map_err(case));
        }
        self.run = Some(run);
        Ok(())
    }

    fn shows(&self, image: &[u8], close: &Close, event: u32) -> Result<Result<(), String>, String> {
        let mut shown = [0; 3];
        let readers = [
            Call::FollowerShown,
            Call::FollowerConsumer,
            Call::FollowerTracked,
        ];
        for (result, call) in shown.iter_mut().zip(&readers) {
            *result = self.perform(image, call)?.result;
        }
        Ok(equal(shown, close.shown(event), |shown| {
            format!("{shown:x?}")
        }))
    }
}
