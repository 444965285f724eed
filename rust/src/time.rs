//! Times in the crate `ntp-proto`'s units, under its names.
use core::time::Duration;

const NANOS: u128 = 1_000_000_000;

/// A reading of a wall clock, without the era: seconds since 1900 in the upper 32 bits, the fraction of a second in the lower.
///
/// ```
/// use reckonstile::NtpTimestamp;
/// let t = NtpTimestamp::from_seconds_nanos_since_ntp_era(3_000_000_000, 500_000_000);
/// assert_eq!(t.to_bits(), 3_000_000_000 << 32 | 1 << 31);
/// ```
#[derive(Clone, Copy, Debug, Default, PartialEq, Eq, Hash)]
pub struct NtpTimestamp(u64);

impl NtpTimestamp {
    /// From the 64 bits of the wire format.
    #[must_use]
    pub const fn from_bits(bits: u64) -> Self {
        NtpTimestamp(bits)
    }

    /// As the 64 bits of the wire format.
    #[must_use]
    pub const fn to_bits(self) -> u64 {
        self.0
    }

    /// From seconds and nanoseconds since the era's start. Nanoseconds of a second and more are carried over; the era wraps.
    #[must_use]
    pub const fn from_seconds_nanos_since_ntp_era(seconds: u32, nanos: u32) -> Self {
        let fraction = ((nanos as u64) << 32) / NANOS as u64;
        NtpTimestamp(((seconds as u64) << 32).wrapping_add(fraction))
    }

    /// The machine's wall clock, now. Take it right before a request is handed to the network, and right after a reply came.
    ///
    /// ```
    /// # use reckonstile::NtpTimestamp;
    /// let t1 = NtpTimestamp::now();
    /// let t4 = NtpTimestamp::now();
    /// assert!(t4.since(t1).to_seconds() < 60.0);
    /// ```
    #[cfg(feature = "std")]
    #[must_use]
    pub fn now() -> Self {
        std::time::SystemTime::now().into()
    }

    /// How much later this reading is than another one of the same clock, less than 68 years apart.
    ///
    /// ```
    /// # use reckonstile::NtpTimestamp;
    /// let before = NtpTimestamp::from_bits(u64::MAX);
    /// let after = NtpTimestamp::from_bits(1);
    /// assert_eq!(after.since(before).to_bits(), 2);
    /// assert_eq!(before.since(after).to_bits(), -2);
    /// ```
    #[must_use]
    pub const fn since(self, other: NtpTimestamp) -> NtpDuration {
        NtpDuration(self.0.wrapping_sub(other.0) as i64)
    }
}

/// The seconds from 1900, where the first NTP era starts, to 1970.
#[cfg(feature = "std")]
const TO_1970: i128 = 2_208_988_800;

#[cfg(feature = "std")]
impl From<std::time::SystemTime> for NtpTimestamp {
    /// Cut to 2^-32 s; times outside the era wrap, as timestamps do on the wire.
    fn from(time: std::time::SystemTime) -> Self {
        let nanos = match time.duration_since(std::time::UNIX_EPOCH) {
            Ok(after) => after.as_nanos() as i128,
            Err(before) => -(before.duration().as_nanos() as i128),
        };
        let since_1900 = nanos + TO_1970 * NANOS as i128;
        let seconds = since_1900.div_euclid(NANOS as i128);
        let fraction = (since_1900.rem_euclid(NANOS as i128) << 32) / NANOS as i128;
        NtpTimestamp(((seconds << 32) as u64).wrapping_add(fraction as u64))
    }
}

/// A signed interval in units of 2^-32 s.
///
/// ```
/// use reckonstile::NtpDuration;
/// assert_eq!(NtpDuration::from_bits(-(1 << 31)).to_seconds(), -0.5);
/// ```
#[derive(Clone, Copy, Debug, Default, PartialEq, Eq, PartialOrd, Ord, Hash)]
pub struct NtpDuration(i64);

impl NtpDuration {
    /// No time.
    pub const ZERO: NtpDuration = NtpDuration(0);

    /// From units of 2^-32 s.
    #[must_use]
    pub const fn from_bits(bits: i64) -> Self {
        NtpDuration(bits)
    }

    /// As units of 2^-32 s.
    #[must_use]
    pub const fn to_bits(self) -> i64 {
        self.0
    }

    /// In seconds, as close as an `f64` gets.
    #[must_use]
    pub fn to_seconds(self) -> f64 {
        self.0 as f64 / (1u64 << 32) as f64
    }

    /// The interval without its sign; the least one, whose size has no value, becomes the largest.
    #[must_use]
    pub const fn abs(self) -> Self {
        NtpDuration(self.0.saturating_abs())
    }

    /// As whole seconds, rounded down, and the nanoseconds beyond them.
    ///
    /// ```
    /// # use reckonstile::NtpDuration;
    /// assert_eq!(NtpDuration::from_bits(-(1 << 31)).as_seconds_nanos(), (-1, 500_000_000));
    /// ```
    #[must_use]
    pub const fn as_seconds_nanos(self) -> (i32, u32) {
        ((self.0 >> 32) as i32, (((self.0 as u64 & 0xffff_ffff) * NANOS as u64) >> 32) as u32)
    }

    /// From a `Duration`; one that is too large becomes the largest value.
    ///
    /// ```
    /// # use reckonstile::NtpDuration;
    /// # use core::time::Duration;
    /// assert_eq!(NtpDuration::from_system_duration(Duration::from_millis(250)).to_bits(), 1 << 30);
    /// assert_eq!(NtpDuration::from_system_duration(Duration::MAX).to_bits(), i64::MAX);
    /// ```
    #[must_use]
    pub const fn from_system_duration(duration: Duration) -> Self {
        let seconds = duration.as_secs();
        if seconds >= 1 << 31 {
            return NtpDuration(i64::MAX);
        }
        NtpDuration((seconds << 32) as i64 + (((duration.subsec_nanos() as u64) << 32) / NANOS as u64) as i64)
    }

    /// The size of the interval as a `Duration`, cut to nanoseconds.
    ///
    /// ```
    /// # use reckonstile::NtpDuration;
    /// # use core::time::Duration;
    /// assert_eq!(NtpDuration::from_bits(-(3 << 31)).abs_system_duration(), Duration::from_millis(1500));
    /// ```
    #[must_use]
    pub const fn abs_system_duration(self) -> Duration {
        let size = self.0.unsigned_abs();
        Duration::new(size >> 32, (((size & 0xffff_ffff) * NANOS as u64) >> 32) as u32)
    }
}

/// A reading of the uptime clock: nanoseconds from any start, one clock for timers and replies, which never steps back.
///
/// ```
/// use reckonstile::NtpInstant;
/// assert_eq!(NtpInstant::from_nanos(5).as_nanos(), 5);
/// ```
#[derive(Clone, Copy, Debug, Default, PartialEq, Eq, PartialOrd, Ord, Hash)]
pub struct NtpInstant(u64);

impl NtpInstant {
    /// From nanoseconds since the clock's start.
    #[must_use]
    pub const fn from_nanos(nanos: u64) -> Self {
        NtpInstant(nanos)
    }

    /// As nanoseconds since the clock's start.
    #[must_use]
    pub const fn as_nanos(self) -> u64 {
        self.0
    }

    /// The time since `start`, which the program takes once. On Linux this clock stops while the machine is suspended. A box that suspends needs
    /// `CLOCK_BOOTTIME` instead, or a reply that was held meanwhile counts as in time.
    ///
    /// ```
    /// # use reckonstile::NtpInstant;
    /// let start = std::time::Instant::now();
    /// let earlier = NtpInstant::since_start(start);
    /// assert!(earlier <= NtpInstant::since_start(start));
    /// ```
    #[cfg(feature = "std")]
    #[must_use]
    pub fn since_start(start: std::time::Instant) -> Self {
        NtpInstant(u64::try_from(start.elapsed().as_nanos()).unwrap_or(u64::MAX))
    }
}

/// A poll interval as an exponent of two, in seconds.
///
/// ```
/// use reckonstile::PollInterval;
/// use core::time::Duration;
/// assert_eq!(PollInterval::new(6).as_system_duration(), Duration::from_secs(64));
/// assert_eq!(PollInterval::new(-3).as_system_duration(), Duration::from_secs(1));
/// ```
#[derive(Clone, Copy, Debug, Default, PartialEq, Eq, PartialOrd, Ord, Hash)]
pub struct PollInterval(i8);

impl PollInterval {
    /// From the exponent.
    #[must_use]
    pub const fn new(exponent: i8) -> Self {
        PollInterval(exponent)
    }

    /// The exponent.
    #[must_use]
    pub const fn as_log(self) -> i8 {
        self.0
    }

    /// How long to wait for the next poll, before the caller stretches it by a random factor from 1.01 to 1.05 (docs/EMBEDDING.md): an exponent below 0 is
    /// taken as 0, one above 31 as 31.
    #[must_use]
    pub const fn as_system_duration(self) -> Duration {
        let exponent = if self.0 < 0 {
            0
        } else if self.0 > 31 {
            31
        } else {
            self.0
        };
        Duration::from_secs(1 << exponent)
    }
}

/// The limits of the poll interval.
///
/// ```
/// use reckonstile::{PollInterval, PollIntervalLimits};
/// assert_eq!(PollIntervalLimits::default(), PollIntervalLimits { min: PollInterval::new(4), max: PollInterval::new(10) });
/// ```
#[derive(Clone, Copy, Debug, PartialEq, Eq)]
pub struct PollIntervalLimits {
    /// The least, from 0 on.
    pub min: PollInterval,
    /// The largest, up to 17.
    pub max: PollInterval,
}

impl Default for PollIntervalLimits {
    fn default() -> Self {
        PollIntervalLimits { min: PollInterval(4), max: PollInterval(10) }
    }
}
