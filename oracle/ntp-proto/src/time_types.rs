// The published time_types.rs, then readers and makers of its private fields. Its `use std::time::{Duration, Instant}`
// finds this module `std` first, so `Instant::now()` reads the clock that the driver sets.
mod std {
    pub use ::std::*;
    pub mod time {
        pub use crate::clock::Instant;
        pub use ::std::time::Duration;
    }
}
include!(concat!(env!("CARGO_MANIFEST_DIR"), "/../published/time_types.rs"));

impl NtpInstant {
    pub fn nanos(self) -> u64 {
        self.instant.0
    }
    pub fn from_nanos(ns: u64) -> Self {
        NtpInstant { instant: Instant(ns) }
    }
}

impl NtpDuration {
    pub fn raw(self) -> i64 {
        self.duration
    }
}

impl NtpTimestamp {
    pub fn raw(self) -> u64 {
        self.timestamp
    }
    pub fn of(timestamp: u64) -> Self {
        NtpTimestamp { timestamp }
    }
}
