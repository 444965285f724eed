//! What an association is made with.
use crate::ffi;
use crate::identifiers::ReferenceId;
use crate::time::PollIntervalLimits;
use core::fmt;
use core::time::Duration;

/// The version that an association speaks. A fourth of `ntp-proto`'s, `V4UpgradingToV5`, is retired: the caller says whether a server speaks V5.
///
/// ```
/// use reckonstile::{Association, ProtocolVersion, Settings};
/// let (a, _) = Association::<8>::new(&Settings { version: ProtocolVersion::V5, ..Settings::default() }, &[]).unwrap();
/// assert_eq!(a.version(), ProtocolVersion::V5);
/// ```
#[derive(Clone, Copy, Debug, PartialEq, Eq, Hash)]
#[non_exhaustive]
pub enum ProtocolVersion {
    /// NTPv4.
    V4,
    /// NTPv5 that was agreed on; two polls without an answer make it V4. A new association has had no answer, so its first poll is of V4.
    UpgradedToV5,
    /// NTPv5.
    V5,
}

impl ProtocolVersion {
    const fn code(self) -> u32 {
        match self {
            ProtocolVersion::V4 => 0,
            ProtocolVersion::UpgradedToV5 => 2,
            ProtocolVersion::V5 => 3,
        }
    }

    pub(crate) const fn from_code(code: u32) -> Self {
        match code {
            2 => ProtocolVersion::UpgradedToV5,
            3 => ProtocolVersion::V5,
            _ => ProtocolVersion::V4,
        }
    }
}

/// The settings of an association. The default has `ntp-proto`'s numbers, with V4 and no NTS. How many cookies are held is not a setting here, but the type's
/// `SLOTS` ([`crate::Association`]).
///
/// ```
/// use reckonstile::{ReferenceId, Settings};
/// let settings = Settings { source: ReferenceId::from(core::net::Ipv4Addr::new(192, 0, 2, 1)), nts: true, ..Settings::default() };
/// assert_eq!((settings.startup_tries, settings.poll_window.as_secs()), (3, 5));
/// ```
#[derive(Clone, Copy, Debug, PartialEq, Eq)]
pub struct Settings {
    /// The limits of the poll interval: 0 <= min <= max <= 17.
    pub poll_interval_limits: PollIntervalLimits,
    /// After this many polls with no answer the association gives up: 1 to 8.
    pub startup_tries: u8,
    /// How long a request stays live: above 0, up to 60 s.
    pub poll_window: Duration,
    /// The reference timestamp of an upgrade request, which [`crate::write_request`] can write and no timer asks for any more.
    pub upgrade_mark: u64,
    /// The version to start with.
    pub version: ProtocolVersion,
    /// Whether the association uses NTS.
    pub nts: bool,
    /// The source's own identifier, made from its address.
    pub source: ReferenceId,
}

impl Default for Settings {
    fn default() -> Self {
        Settings {
            poll_interval_limits: PollIntervalLimits::default(),
            startup_tries: 3,
            poll_window: Duration::from_secs(5),
            upgrade_mark: u64::from_be_bytes(*b"NTP5DRFT"),
            version: ProtocolVersion::V4,
            nts: false,
            source: ReferenceId::from_bits(0),
        }
    }
}

impl Settings {
    /// Which setting is outside its range, if a new association is rejected with 30: the first in the order of [`SettingsFault`].
    ///
    /// # Errors
    /// [`SettingsFault`], exactly if `new`, `metered` and `profile` answer 30.
    ///
    /// ```
    /// use reckonstile::{Settings, SettingsFault};
    /// let settings = Settings { startup_tries: 9, ..Settings::default() };
    /// assert_eq!(settings.check(), Err(SettingsFault::StartupTries));
    /// assert_eq!(settings.check().unwrap_err().to_string(), "startup_tries is not 1 to 8");
    /// assert_eq!(Settings::default().check(), Ok(()));
    /// ```
    pub fn check(&self) -> Result<(), SettingsFault> {
        let limits = self.poll_interval_limits;
        let (min, max) = (limits.min.as_log(), limits.max.as_log());
        let faults = [
            (min < 0, SettingsFault::PollMin),
            (max > 17, SettingsFault::PollMax),
            (min > max, SettingsFault::PollOrder),
            (!(1..=8).contains(&self.startup_tries), SettingsFault::StartupTries),
            (self.poll_window.is_zero() || self.poll_window > Duration::from_secs(60), SettingsFault::PollWindow),
        ];
        faults.into_iter().find(|(wrong, _)| *wrong).map_or(Ok(()), |(_, fault)| Err(fault))
    }

    /// The settings as the library takes them, with the capacity of the association that is made.
    pub(crate) fn numbers(&self, capacity: usize) -> ffi::Settings {
        ffi::Settings {
            window: u64::try_from(self.poll_window.as_nanos()).unwrap_or(u64::MAX),
            upgrademark: self.upgrade_mark,
            source: self.source.to_bits(),
            start: self.version.code(),
            nts: self.nts.into(),
            capacity: u8::try_from(capacity).unwrap_or(u8::MAX),
            spare: 0,
            left: 0,
            startup: self.startup_tries,
            min: self.poll_interval_limits.min.as_log(),
            max: self.poll_interval_limits.max.as_log(),
        }
    }
}

/// Which setting is outside its range.
#[derive(Clone, Copy, Debug, PartialEq, Eq, Hash)]
#[non_exhaustive]
#[must_use]
pub enum SettingsFault {
    /// `poll_interval_limits.min` is below 0.
    PollMin,
    /// `poll_interval_limits.max` is over 17.
    PollMax,
    /// `poll_interval_limits.min` is over `max`.
    PollOrder,
    /// `startup_tries` is not 1 to 8.
    StartupTries,
    /// `poll_window` is 0, or over 60 s.
    PollWindow,
}

impl fmt::Display for SettingsFault {
    fn fmt(&self, f: &mut fmt::Formatter<'_>) -> fmt::Result {
        f.write_str(match self {
            SettingsFault::PollMin => "poll_interval_limits.min is below 0",
            SettingsFault::PollMax => "poll_interval_limits.max is over 17",
            SettingsFault::PollOrder => "poll_interval_limits.min is over max",
            SettingsFault::StartupTries => "startup_tries is not 1 to 8",
            SettingsFault::PollWindow => "poll_window is 0, or over 60 s",
        })
    }
}

impl core::error::Error for SettingsFault {}
