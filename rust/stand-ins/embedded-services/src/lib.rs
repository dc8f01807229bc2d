//! Stand-in for `embedded_services`: names, locks, event channels and log macros.
#![no_std]

pub mod named {
    /// A thing with a name for the log.
    pub trait Named {
        fn name(&self) -> &'static str;
    }
}

pub mod sync {
    use core::ops::DerefMut;

    /// A thing behind a lock.
    pub trait Lockable {
        type Inner;

        fn lock(&self) -> impl Future<Output = impl DerefMut<Target = Self::Inner>>;
    }
}

pub mod event {
    /// Sends, waiting for room.
    pub trait Sender<E> {
        fn send(&mut self, event: E) -> impl Future<Output = ()>;
    }

    /// Sends if there is room; `None` if not.
    pub trait NonBlockingSender<E> {
        fn try_send(&mut self, event: E) -> Option<()>;
    }

    /// Receives.
    pub trait Receiver<E> {
        fn try_next(&mut self) -> Option<E>;
        fn wait_next(&mut self) -> impl Future<Output = E>;
    }
}

/// Type-checks a log line and evaluates nothing of it.
#[macro_export]
macro_rules! log_nothing {
    ($($line:tt)*) => {
        if false {
            let _ = ::core::format_args!($($line)*);
        }
    };
}

#[macro_export]
macro_rules! trace {
    ($($line:tt)*) => { $crate::log_nothing!($($line)*) };
}

/// Logs nothing. Where `provider.rs` logs its power state, which is a private field of its `State`,
/// the line becomes a reader and a maker of that field; the names are those of `provider.rs`.
#[macro_export]
macro_rules! debug {
    ("New power state: {:?}", $state:expr) => {
        impl State {
            /// The private field.
            pub fn power_state(&self) -> PowerState {
                self.state
            }

            /// A state with this private field.
            pub fn with_power_state(state: PowerState) -> Self {
                Self { state }
            }
        }
    };
    ($($line:tt)*) => { $crate::log_nothing!($($line)*) };
}

#[macro_export]
macro_rules! info {
    ($($line:tt)*) => { $crate::log_nothing!($($line)*) };
}

#[macro_export]
macro_rules! error {
    ($($line:tt)*) => { $crate::log_nothing!($($line)*) };
}
