//! The C functions of the archive and, declared alike, of the plain implementation.

#![allow(clippy::too_many_arguments)]

pub const SERVICE_IMAGE: usize = plain::SERVICE_IMAGE;
pub const FOLLOWER_IMAGE: usize = plain::FOLLOWER_IMAGE;
/// The length of the buffer that a write is lent: a page fits, the longest that is written.
pub const BUFFER: usize = plain::PAGE;

/// The configuration of every service: threshold, unlimited, limited, no minimum. It is the original's default.
pub const FIGURES: [u64; 7] = [15000, 5000, 3000, 5000, 1500, 0, 0];

#[derive(Clone, Copy, Debug, PartialEq, Eq)]
pub enum Function {
    Start,
    Open,
    Answer,
    Order,
    WritePacket,
    WritePicture,
    FollowerStart,
    Take,
    Shown,
    Consumer,
    Tracked,
    WritePage,
}

impl Function {
    pub const ALL: [(Self, &str); 12] = [
        (Self::Start, "start"),
        (Self::Open, "open"),
        (Self::Answer, "answer"),
        (Self::Order, "order"),
        (Self::WritePacket, "write_packet"),
        (Self::WritePicture, "write_picture"),
        (Self::FollowerStart, "follower_start"),
        (Self::Take, "follower_take"),
        (Self::Shown, "follower_shown"),
        (Self::Consumer, "follower_consumer"),
        (Self::Tracked, "follower_tracked"),
        (Self::WritePage, "follower_write_page"),
    ];
}

/// What a call is lent, but for its image; what its function does not take is empty or 0.
#[derive(Clone, Copy, Default)]
pub struct Lent<'a> {
    /// Kind, device and detail; the answer; or ports and chargers.
    pub numbers: [u32; 3],
    pub psus: &'a [u8],
    pub chargers: &'a [u8],
    pub packet: &'a [u8],
}

type Start =
    unsafe extern "C" fn(*mut u8, usize, u32, u32, u64, u64, u64, u64, u64, u64, u64) -> u64;
type Open =
    unsafe extern "C" fn(*mut u8, usize, *const u8, usize, *const u8, usize, u32, u32, u32) -> u64;
type Answer = unsafe extern "C" fn(*mut u8, usize, *const u8, usize, *const u8, usize, u32) -> u64;
type Write = unsafe extern "C" fn(*const u8, usize, *mut u8, usize) -> u64;
type FollowerStart = unsafe extern "C" fn(*mut u8, usize) -> u64;
type Take = unsafe extern "C" fn(*mut u8, usize, *const u8, usize) -> u64;
type Read = unsafe extern "C" fn(*const u8, usize) -> u64;

/// The twelve functions.
pub struct Functions {
    pub name: &'static str,
    start: Start,
    open: Open,
    answer: Answer,
    order: Read,
    write_packet: Write,
    write_picture: Write,
    follower_start: FollowerStart,
    follower_take: Take,
    follower_shown: Read,
    follower_consumer: Read,
    follower_tracked: Read,
    follower_write_page: Write,
}

#[cfg(feature = "archive")]
pub static ARCHIVE: Functions = {
    use power_policy::ffi::raw::*;
    Functions {
        name: "archive",
        start: power_policy_start,
        open: power_policy_open,
        answer: power_policy_answer,
        order: power_policy_order,
        write_packet: power_policy_write_packet,
        write_picture: power_policy_write_picture,
        follower_start: power_policy_follower_start,
        follower_take: power_policy_follower_take,
        follower_shown: power_policy_follower_shown,
        follower_consumer: power_policy_follower_consumer,
        follower_tracked: power_policy_follower_tracked,
        follower_write_page: power_policy_follower_write_page,
    }
};

pub static PLAIN: Functions = Functions {
    name: "plain",
    start: of_plain::start,
    open: of_plain::open,
    answer: of_plain::answer,
    order: of_plain::order,
    write_packet: of_plain::write_packet,
    write_picture: of_plain::write_picture,
    follower_start: of_plain::follower_start,
    follower_take: of_plain::follower_take,
    follower_shown: of_plain::follower_shown,
    follower_consumer: of_plain::follower_consumer,
    follower_tracked: of_plain::follower_tracked,
    follower_write_page: of_plain::follower_write_page,
};

/// All that is built, the archive first.
pub fn all() -> Vec<&'static Functions> {
    vec![
        #[cfg(feature = "archive")]
        &ARCHIVE,
        &PLAIN,
    ]
}

impl Functions {
    // Safety, for all below: each pointer and length are those of one slice, which lives through the call; a slice that is written is borrowed
    // mutably, so none overlaps another that is written; the functions keep no pointer.

    pub fn start(&self, image: &mut [u8], ports: u32, chargers: u32) -> u64 {
        let [a, b, c, d, e, f, g] = FIGURES;
        let (pointer, length) = (image.as_mut_ptr(), image.len());
        unsafe { (self.start)(pointer, length, ports, chargers, a, b, c, d, e, f, g) }
    }

    pub fn open(
        &self,
        image: &mut [u8],
        psus: &[u8],
        chargers: &[u8],
        kind: u32,
        device: u32,
        detail: u32,
    ) -> u64 {
        unsafe {
            (self.open)(
                image.as_mut_ptr(),
                image.len(),
                psus.as_ptr(),
                psus.len(),
                chargers.as_ptr(),
                chargers.len(),
                kind,
                device,
                detail,
            )
        }
    }

    pub fn answer(&self, image: &mut [u8], psus: &[u8], chargers: &[u8], answer: u32) -> u64 {
        unsafe {
            (self.answer)(
                image.as_mut_ptr(),
                image.len(),
                psus.as_ptr(),
                psus.len(),
                chargers.as_ptr(),
                chargers.len(),
                answer,
            )
        }
    }

    fn write(&self, function: Write, image: &[u8], buffer: &mut [u8]) -> u64 {
        unsafe {
            function(
                image.as_ptr(),
                image.len(),
                buffer.as_mut_ptr(),
                buffer.len(),
            )
        }
    }

    pub fn write_packet(&self, image: &[u8], buffer: &mut [u8]) -> u64 {
        self.write(self.write_packet, image, buffer)
    }

    pub fn write_picture(&self, image: &[u8], buffer: &mut [u8]) -> u64 {
        self.write(self.write_picture, image, buffer)
    }

    pub fn follower_start(&self, image: &mut [u8]) -> u64 {
        unsafe { (self.follower_start)(image.as_mut_ptr(), image.len()) }
    }

    pub fn follower_take(&self, image: &mut [u8], packet: &[u8]) -> u64 {
        let (pointer, length) = (packet.as_ptr(), packet.len());
        unsafe { (self.follower_take)(image.as_mut_ptr(), image.len(), pointer, length) }
    }

    fn read(&self, function: Read, image: &[u8]) -> u64 {
        unsafe { function(image.as_ptr(), image.len()) }
    }

    /// Makes a call.
    #[inline]
    pub fn call(
        &self,
        function: Function,
        image: &mut [u8],
        lent: &Lent,
        buffer: &mut [u8],
    ) -> u64 {
        let [a, b, c] = lent.numbers;
        match function {
            Function::Start => self.start(image, a, b),
            Function::Open => self.open(image, lent.psus, lent.chargers, a, b, c),
            Function::Answer => self.answer(image, lent.psus, lent.chargers, a),
            Function::Order => self.read(self.order, image),
            Function::WritePacket => self.write_packet(image, buffer),
            Function::WritePicture => self.write_picture(image, buffer),
            Function::FollowerStart => self.follower_start(image),
            Function::Take => self.follower_take(image, lent.packet),
            Function::Shown => self.read(self.follower_shown, image),
            Function::Consumer => self.read(self.follower_consumer, image),
            Function::Tracked => self.read(self.follower_tracked, image),
            Function::WritePage => self.write(self.follower_write_page, image, buffer),
        }
    }

    /// The same call as an address and the eleven words, at most, that it takes.
    pub fn words(
        &self,
        function: Function,
        image: &mut [u8],
        lent: &Lent,
        buffer: &mut [u8],
    ) -> (*const (), [u64; 11]) {
        let image = [image.as_mut_ptr() as u64, image.len() as u64];
        let buffer = [buffer.as_mut_ptr() as u64, buffer.len() as u64];
        let slice = |bytes: &[u8]| [bytes.as_ptr() as u64, bytes.len() as u64];
        let rows = [slice(lent.psus), slice(lent.chargers)].concat();
        let numbers = lent.numbers.map(u64::from);
        let (address, more) = match function {
            Function::Start => (self.start as *const (), [&numbers[..2], &FIGURES].concat()),
            Function::Open => (self.open as *const (), [&rows[..], &numbers].concat()),
            Function::Answer => (
                self.answer as *const (),
                [&rows[..], &numbers[..1]].concat(),
            ),
            Function::Order => (self.order as *const (), vec![]),
            Function::WritePacket => (self.write_packet as *const (), buffer.to_vec()),
            Function::WritePicture => (self.write_picture as *const (), buffer.to_vec()),
            Function::FollowerStart => (self.follower_start as *const (), vec![]),
            Function::Take => (self.follower_take as *const (), slice(lent.packet).to_vec()),
            Function::Shown => (self.follower_shown as *const (), vec![]),
            Function::Consumer => (self.follower_consumer as *const (), vec![]),
            Function::Tracked => (self.follower_tracked as *const (), vec![]),
            Function::WritePage => (self.follower_write_page as *const (), buffer.to_vec()),
        };
        let mut words = [0; 11];
        for (word, given) in words.iter_mut().zip(image.into_iter().chain(more)) {
            *word = given;
        }
        (address, words)
    }
}

/// The plain implementation behind the declarations of the C header.
mod of_plain {
    use std::slice::{from_raw_parts, from_raw_parts_mut};

    // Safety, for all below: the functions above call these, with slices.

    pub unsafe extern "C" fn start(
        image: *mut u8,
        image_len: usize,
        ports: u32,
        chargers: u32,
        threshold_mw: u64,
        unlimited_mv: u64,
        unlimited_ma: u64,
        limited_mv: u64,
        limited_ma: u64,
        minimum_present: u64,
        minimum_mw: u64,
    ) -> u64 {
        plain::start(
            unsafe { from_raw_parts_mut(image, image_len) },
            ports,
            chargers,
            threshold_mw,
            unlimited_mv,
            unlimited_ma,
            limited_mv,
            limited_ma,
            minimum_present,
            minimum_mw,
        )
    }

    pub unsafe extern "C" fn open(
        image: *mut u8,
        image_len: usize,
        psus: *const u8,
        psus_len: usize,
        chargers: *const u8,
        chargers_len: usize,
        kind: u32,
        device: u32,
        detail: u32,
    ) -> u64 {
        let image = unsafe { from_raw_parts_mut(image, image_len) };
        let psus = unsafe { from_raw_parts(psus, psus_len) };
        let chargers = unsafe { from_raw_parts(chargers, chargers_len) };
        plain::open(image, psus, chargers, kind, device, detail)
    }

    pub unsafe extern "C" fn answer(
        image: *mut u8,
        image_len: usize,
        psus: *const u8,
        psus_len: usize,
        chargers: *const u8,
        chargers_len: usize,
        answer: u32,
    ) -> u64 {
        let image = unsafe { from_raw_parts_mut(image, image_len) };
        let psus = unsafe { from_raw_parts(psus, psus_len) };
        let chargers = unsafe { from_raw_parts(chargers, chargers_len) };
        plain::answer(image, psus, chargers, answer)
    }

    pub unsafe extern "C" fn order(image: *const u8, image_len: usize) -> u64 {
        plain::order(unsafe { from_raw_parts(image, image_len) })
    }

    pub unsafe extern "C" fn write_packet(
        image: *const u8,
        image_len: usize,
        buffer: *mut u8,
        buffer_len: usize,
    ) -> u64 {
        let image = unsafe { from_raw_parts(image, image_len) };
        plain::write_packet(image, unsafe { from_raw_parts_mut(buffer, buffer_len) })
    }

    pub unsafe extern "C" fn write_picture(
        image: *const u8,
        image_len: usize,
        buffer: *mut u8,
        buffer_len: usize,
    ) -> u64 {
        let image = unsafe { from_raw_parts(image, image_len) };
        plain::write_picture(image, unsafe { from_raw_parts_mut(buffer, buffer_len) })
    }

    pub unsafe extern "C" fn follower_start(image: *mut u8, image_len: usize) -> u64 {
        plain::follower_start(unsafe { from_raw_parts_mut(image, image_len) })
    }

    pub unsafe extern "C" fn follower_take(
        image: *mut u8,
        image_len: usize,
        packet: *const u8,
        packet_len: usize,
    ) -> u64 {
        let image = unsafe { from_raw_parts_mut(image, image_len) };
        plain::follower_take(image, unsafe { from_raw_parts(packet, packet_len) })
    }

    pub unsafe extern "C" fn follower_shown(image: *const u8, image_len: usize) -> u64 {
        plain::follower_shown(unsafe { from_raw_parts(image, image_len) })
    }

    pub unsafe extern "C" fn follower_consumer(image: *const u8, image_len: usize) -> u64 {
        plain::follower_consumer(unsafe { from_raw_parts(image, image_len) })
    }

    pub unsafe extern "C" fn follower_tracked(image: *const u8, image_len: usize) -> u64 {
        plain::follower_tracked(unsafe { from_raw_parts(image, image_len) })
    }

    pub unsafe extern "C" fn follower_write_page(
        image: *const u8,
        image_len: usize,
        buffer: *mut u8,
        buffer_len: usize,
    ) -> u64 {
        let image = unsafe { from_raw_parts(image, image_len) };
        plain::follower_write_page(image, unsafe { from_raw_parts_mut(buffer, buffer_len) })
    }
}
