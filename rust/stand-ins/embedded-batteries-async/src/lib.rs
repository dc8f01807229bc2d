//! Stand-in for `embedded_batteries_async`: the two traits that a charger of the power policy has
//! to have. The policy calls none of their methods, so they have none.
#![no_std]

pub mod charger {
    /// A charger's own error.
    pub trait Error: core::fmt::Debug {}

    /// A charger.
    pub trait Charger {}
}
