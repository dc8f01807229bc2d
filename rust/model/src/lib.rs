//! A plain model of the link: numbers, packets, pictures, the follower, its page and the
//! programs `follow` and `sheet`. It is written from the requirements alone and is used to judge
//! another implementation, so it prefers the plainest form over the fastest.

pub mod follower;
pub mod generate;
pub mod number;
pub mod packet;
pub mod page;
pub mod program;
pub mod record;

/// Cut short, or empty.
pub const CUT: u8 = 30;
/// A number that is not in its shortest form or is over its limit.
pub const NUMBER: u8 = 31;
/// A kind or field that is not as laid out.
pub const FIELD: u8 = 32;
/// Bytes left over.
pub const LEFT_OVER: u8 = 33;
