//! The C functions as they are declared in include/power_policy.h, and each as a safe function on slices. Hidden: it is public for
//! the programs that compare and time the functions themselves, and other crates use the types.

#![allow(unsafe_code)]

/// The C functions themselves.
pub mod raw {
    unsafe extern "C" {
        pub fn power_policy_start(
            image: *mut u8,
            image_len: usize,
            ports: u32,
            chargers: u32,
            threshold_mw: u64,
            unlimited_mv: u64,
            unlimited_ma: u64,
            limited_mv: u64,
            limited_ma: u64,
            minimum_present: u64,
            minimum_mw: u64,
        ) -> u64;
        pub fn power_policy_open(
            image: *mut u8,
            image_len: usize,
            psus: *const u8,
            psus_len: usize,
            chargers: *const u8,
            chargers_len: usize,
            kind: u32,
            device: u32,
            detail: u32,
        ) -> u64;
        pub fn power_policy_answer(
            image: *mut u8,
            image_len: usize,
            psus: *const u8,
            psus_len: usize,
            chargers: *const u8,
            chargers_len: usize,
            answer: u32,
        ) -> u64;
        pub fn power_policy_order(image: *const u8, image_len: usize) -> u64;
        pub fn power_policy_write_packet(
            image: *const u8,
            image_len: usize,
            buffer: *mut u8,
            buffer_len: usize,
        ) -> u64;
        pub fn power_policy_write_picture(
            image: *const u8,
            image_len: usize,
            buffer: *mut u8,
            buffer_len: usize,
        ) -> u64;
        pub fn power_policy_follower_start(image: *mut u8, image_len: usize) -> u64;
        pub fn power_policy_follower_take(
            image: *mut u8,
            image_len: usize,
            packet: *const u8,
            packet_len: usize,
        ) -> u64;
        pub fn power_policy_follower_shown(image: *const u8, image_len: usize) -> u64;
        pub fn power_policy_follower_consumer(image: *const u8, image_len: usize) -> u64;
        pub fn power_policy_follower_tracked(image: *const u8, image_len: usize) -> u64;
        pub fn power_policy_follower_write_page(
            image: *const u8,
            image_len: usize,
            buffer: *mut u8,
            buffer_len: usize,
        ) -> u64;
    }
}

// Safety, for all below: each pointer and length are those of one slice, which lives through the call; a slice that is written is
// borrowed mutably, so none overlaps another that is written; the C functions keep no pointer.

#[allow(clippy::too_many_arguments)]
pub fn start(
    image: &mut [u8],
    ports: u32,
    chargers: u32,
    threshold_mw: u64,
    unlimited_mv: u64,
    unlimited_ma: u64,
    limited_mv: u64,
    limited_ma: u64,
    minimum_present: u64,
    minimum_mw: u64,
) -> u64 {
    unsafe {
        raw::power_policy_start(
            image.as_mut_ptr(),
            image.len(),
            ports,
            chargers,
            threshold_mw,
            unlimited_mv,
            unlimited_ma,
            limited_mv,
            limited_ma,
            minimum_present,
            minimum_mw,
        )
    }
}

pub fn open(
    image: &mut [u8],
    psus: &[u8],
    chargers: &[u8],
    kind: u32,
    device: u32,
    detail: u32,
) -> u64 {
    unsafe {
        raw::power_policy_open(
            image.as_mut_ptr(),
            image.len(),
            psus.as_ptr(),
            psus.len(),
            chargers.as_ptr(),
            chargers.len(),
            kind,
            device,
            detail,
        )
    }
}

pub fn answer(image: &mut [u8], psus: &[u8], chargers: &[u8], answer: u32) -> u64 {
    unsafe {
        raw::power_policy_answer(
            image.as_mut_ptr(),
            image.len(),
            psus.as_ptr(),
            psus.len(),
            chargers.as_ptr(),
            chargers.len(),
            answer,
        )
    }
}

pub fn order(image: &[u8]) -> u64 {
    unsafe { raw::power_policy_order(image.as_ptr(), image.len()) }
}

pub fn write_packet(image: &[u8], buffer: &mut [u8]) -> u64 {
    unsafe {
        raw::power_policy_write_packet(
            image.as_ptr(),
            image.len(),
            buffer.as_mut_ptr(),
            buffer.len(),
        )
    }
}

pub fn write_picture(image: &[u8], buffer: &mut [u8]) -> u64 {
    unsafe {
        raw::power_policy_write_picture(
            image.as_ptr(),
            image.len(),
            buffer.as_mut_ptr(),
            buffer.len(),
        )
    }
}

pub fn follower_start(image: &mut [u8]) -> u64 {
    unsafe { raw::power_policy_follower_start(image.as_mut_ptr(), image.len()) }
}

pub fn follower_take(image: &mut [u8], packet: &[u8]) -> u64 {
    unsafe {
        raw::power_policy_follower_take(
            image.as_mut_ptr(),
            image.len(),
            packet.as_ptr(),
            packet.len(),
        )
    }
}

pub fn follower_shown(image: &[u8]) -> u64 {
    unsafe { raw::power_policy_follower_shown(image.as_ptr(), image.len()) }
}

pub fn follower_consumer(image: &[u8]) -> u64 {
    unsafe { raw::power_policy_follower_consumer(image.as_ptr(), image.len()) }
}

pub fn follower_tracked(image: &[u8]) -> u64 {
    unsafe { raw::power_policy_follower_tracked(image.as_ptr(), image.len()) }
}

pub fn follower_write_page(image: &[u8], buffer: &mut [u8]) -> u64 {
    unsafe {
        raw::power_policy_follower_write_page(
            image.as_ptr(),
            image.len(),
            buffer.as_mut_ptr(),
            buffer.len(),
        )
    }
}
