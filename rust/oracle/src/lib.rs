//! Answers of the original Rust.
//!
//! [`record`] turns the original's values into the bytes of a record and back. [`interface`] asks its
//! state transitions and writes vectors; those of [`records`] are of bytes that may be no record.
//! [`driver`] runs the service one device order at a time, [`run`] keeps what it did. [`random`],
//! [`scenario`] and [`exhaustive`] make runs, [`check`] looks them over, [`text`] prints them and
//! [`stream`] writes them as bytes.

pub mod check;
pub mod driver;
pub mod exhaustive;
pub mod interface;
pub mod random;
pub mod record;
pub mod records;
pub mod run;
pub mod scenario;
pub mod stream;
pub mod text;
mod values;
