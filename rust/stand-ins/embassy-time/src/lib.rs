//! Stand-in for `embassy_time`: a timer that is over when whoever polls it says so.

use std::{
    cell::Cell,
    pin::Pin,
    task::{Context, Poll},
};

thread_local! {
    static STARTED: Cell<Option<u64>> = const { Cell::new(None) };
}

/// Pending when first polled, over when polled again.
#[must_use = "futures do nothing unless polled"]
pub struct Timer {
    millis: u64,
    started: bool,
}

impl Timer {
    /// A timer of this many milliseconds.
    pub fn after_millis(millis: u64) -> Self {
        Self {
            millis,
            started: false,
        }
    }
}

impl Future for Timer {
    type Output = ();

    fn poll(mut self: Pin<&mut Self>, _context: &mut Context<'_>) -> Poll<()> {
        if self.started {
            return Poll::Ready(());
        }
        self.started = true;
        assert_eq!(STARTED.replace(Some(self.millis)), None, "two timers run");
        Poll::Pending
    }
}

/// The milliseconds of the timer that this thread has started since the last call, if any.
/// The driver asks after each poll.
pub fn take_started() -> Option<u64> {
    STARTED.take()
}
