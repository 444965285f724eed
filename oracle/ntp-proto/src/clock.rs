//! Stands for clock.rs: the clock trait, and the monotonic clock that the driver sets.
use crate::time_types::NtpTimestamp;
use std::cell::Cell;
use std::ops::{AddAssign, Sub};
use std::time::Duration;

pub trait NtpClock: Clone + Send + 'static {
    type Error: std::error::Error + Send + Sync + 'static;
    fn now(&self) -> Result<NtpTimestamp, Self::Error>;
}

thread_local! {
    static NOW: Cell<u64> = const { Cell::new(0) };
    static WINDOW: Cell<u64> = const { Cell::new(5_000_000_000) };
}

/// Sets what `Instant::now()` answers, in nanoseconds.
pub fn set_now(ns: u64) {
    NOW.set(ns);
}

/// Sets what `+ POLL_WINDOW` adds: POLL_WINDOW is a constant of source.rs (5 s) and nothing else is added to an
/// instant there, so another window is exchanged for it here.
pub fn set_window(ns: u64) {
    WINDOW.set(ns);
}

/// Stands for `std::time::Instant` inside time_types.rs.
#[derive(Debug, Copy, Clone, Eq, PartialEq, PartialOrd, Ord)]
pub struct Instant(pub u64);

impl Instant {
    pub fn now() -> Self {
        Instant(NOW.get())
    }
    pub fn elapsed(&self) -> Duration {
        Self::now() - *self
    }
}

impl Sub for Instant {
    type Output = Duration;
    fn sub(self, rhs: Instant) -> Duration {
        Duration::from_nanos(self.0.saturating_sub(rhs.0))
    }
}

impl AddAssign<Duration> for Instant {
    /// The standard library panics where the sum does not fit; RULES, part 10, holds it at 2^64-1, and so does this.
    fn add_assign(&mut self, rhs: Duration) {
        assert_eq!(rhs, Duration::from_secs(5), "only POLL_WINDOW is ever added");
        self.0 = self.0.saturating_add(WINDOW.get());
    }
}
