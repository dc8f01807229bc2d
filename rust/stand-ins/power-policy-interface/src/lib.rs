//! Stand-in for the crate root: names the modules of the original and nothing else.
#![no_std]

pub mod capability;
pub mod charger;
pub mod psu;
pub mod service;
