//! Stand-in for the crate root: names the module of the original and nothing else.
#![no_std]
// The stand-in `debug!` adds an `impl` at the place where `provider.rs` logs its private field.
#![allow(non_local_definitions)]

pub mod service;
