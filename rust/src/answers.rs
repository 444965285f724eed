//! What the calls answer: each answer is an enum, and `number` returns the number that docs/NUMBERS.md, the header and the drill have for it.
use crate::ffi;
use crate::numbers;
use crate::time::{NtpDuration, NtpInstant, NtpTimestamp, PollInterval};
use core::fmt;

/// Makes an enum of refusals from a table of variants with number and words. The tables are made from numbers.toml.
macro_rules! numbered {
    ($(#[$meta:meta])* $name:ident { $($variant:ident = $number:literal, $words:literal;)* }) => {
        $(#[$meta])*
        #[derive(Clone, Copy, Debug, PartialEq, Eq, Hash)]
        #[non_exhaustive]
        #[must_use]
        pub enum $name {
            $(#[doc = concat!("**", stringify!($number), "**: ", $words, ".")] $variant,)*
            /// A number that this crate does not know: the library is of another version.
            Other(u32),
        }

        impl $name {
            pub(crate) const fn from_number(number: u32) -> Self {
                match number {
                    $($number => $name::$variant,)*
                    other => $name::Other(other),
                }
            }

            /// The number of this answer.
            #[must_use]
            pub const fn number(self) -> u32 {
                match self {
                    $($name::$variant => $number,)*
                    $name::Other(other) => other,
                }
            }
        }

        impl fmt::Display for $name {
            fn fmt(&self, f: &mut fmt::Formatter<'_>) -> fmt::Result {
                match self {
                    $($name::$variant => write!(f, "{} ({})", $words, $number),)*
                    $name::Other(other) => write!(f, "a number of another version of the library ({other})"),
                }
            }
        }

        impl core::error::Error for $name {}
    };
}

numbered! {
    /// Why there is no new association.
    ///
    /// ```
    /// use reckonstile::{Association, NewRefused, Settings, SettingsFault};
    /// let settings = Settings { startup_tries: 9, ..Settings::default() };
    /// let refused = Association::<8>::new(&settings, &[]).unwrap_err();
    /// assert_eq!((refused, refused.number()), (NewRefused::BadSettings, 30));
    /// assert_eq!(settings.check(), Err(SettingsFault::StartupTries)); // which one it is
    /// ```
    NewRefused {
        // tools/numbers: variants NewRefused
        BadSettings = 30, "a setting is outside its range, or an unknown code";
        WrongSize = 31, "the record does not have the size of its capacity";
        BrokenList = 33, "with NTS, the cookie list is broken";
        RetiredStart = 38, "the start version is upgrading, which is retired";
        // tools/numbers: end
    }
}

numbered! {
    /// Why there is no metered association: the first rule of the profile, for links that are paid by the packet, that settings or cookie list break.
    ///
    /// ```
    /// use reckonstile::{Association, MeteredRefused, Settings};
    /// let refused = Association::<8>::metered(&Settings::default(), &[]).unwrap_err();
    /// assert_eq!((refused, refused.number()), (MeteredRefused::LowPollMin, 34));
    /// assert_eq!(Association::<8>::profile(&Settings::default(), &[]), Err(refused));
    /// ```
    MeteredRefused {
        // tools/numbers: variants MeteredRefused
        BadSettings = 30, "a setting is outside its range, or an unknown code";
        WrongSize = 31, "the record does not have the size of its capacity";
        BrokenList = 33, "with NTS, the cookie list is broken";
        LowPollMin = 34, "the lower poll limit is below 8";
        HighStartup = 35, "the startup limit is over 3";
        UpgradingStart = 36, "the start version is upgrading, which is retired";
        LongCookie = 37, "with NTS, a cookie of the first list has over 100 bytes";
        // tools/numbers: end
    }
}

numbered! {
    /// Why the timer sends nothing.
    ///
    /// ```
    /// use reckonstile::{Action, TimerRefused};
    /// assert_eq!(TimerRefused::NoCookie.number(), 23);
    /// assert_eq!(TimerRefused::NoCookie.action(), Action::Reset);
    /// ```
    TimerRefused {
        // tools/numbers: variants TimerRefused
        Reset = 21, "no answer to that many polls: look the server up again and begin with a new association";
        Demobilize = 22, "no answer, and service was denied: stop talking to this server";
        NoCookie = 23, "no cookie is left: exchange keys again and begin with a new association";
        CookieTooLarge = 24, "the cookie is too large to send: exchange keys again and begin with a new association";
        WrongSize = 31, "with NTS, the buffer for the cookie has fewer than 724 bytes";
        NotWhole = 32, "the record was not made by a call, or is not lent whole";
        // tools/numbers: end
    }
}

numbered! {
    /// Why a reply is not measured.
    ///
    /// ```
    /// use reckonstile::{Action, ReplyRefused};
    /// assert_eq!(ReplyRefused::DeniedNts.number(), 7);
    /// assert_eq!(ReplyRefused::DeniedNts.action(), Action::Demobilize);
    /// assert_eq!(ReplyRefused::NoMatch.action(), Action::Nothing);
    /// assert_eq!(ReplyRefused::NoMatch.to_string(), "it answers another request (4)");
    /// // Why no request was live, for a reader of the log; the caller does nothing on any of the three.
    /// let no_live = [ReplyRefused::NeverSent, ReplyRefused::AlreadyMeasured, ReplyRefused::Expired];
    /// assert_eq!(no_live.map(ReplyRefused::number), [12, 13, 14]);
    /// assert_eq!(no_live.map(ReplyRefused::action), [Action::Nothing; 3]);
    /// ```
    ReplyRefused {
        // tools/numbers: variants ReplyRefused
        Undecodable = 1, "the packet cannot be decoded, `end` is 0 or not the place of a field, or a decoded reply has an unknown code";
        UnexpectedVersion = 2, "the packet has an unexpected version";
        NoMatch = 4, "it answers another request";
        Rate = 5, "the server asks for slower polls, and the next ones are slower";
        Denied = 6, "service is denied, and the record notes it";
        DeniedNts = 7, "service is denied, and with NTS that is believed: stop talking to this server";
        Ntsn = 8, "the server could not use the cookie (NTSN)";
        OtherKiss = 9, "the server declines with some other kiss code";
        BadStratum = 10, "the reply has a stratum over 16";
        NotServer = 11, "the reply does not come from a server (by its mode)";
        NeverSent = 12, "nothing was sent yet";
        AlreadyMeasured = 13, "the last poll was answered already";
        Expired = 14, "too late: the deadline of the request has passed";
        NotWhole = 32, "the record was not made by a call, or is not lent whole";
        BrokenList = 33, "with NTS, the cookie list is broken";
        // tools/numbers: end
    }
}

numbered! {
    /// Why the source may not be used, for now.
    ///
    /// ```
    /// use reckonstile::AcceptRefused;
    /// assert_eq!(AcceptRefused::Unreachable.number(), 42);
    /// ```
    AcceptRefused {
        // tools/numbers: variants AcceptRefused
        NotWhole = 32, "the record was not made by a call, or is not lent whole";
        HighStratum = 40, "the source's stratum is not below our own (16: nothing was measured yet)";
        Loop = 41, "the source gets its time from us";
        Unreachable = 42, "none of the last eight polls was answered";
        // tools/numbers: end
    }
}

numbered! {
    /// Why there is nothing to look at.
    ///
    /// ```
    /// use reckonstile::{Association, LookRefused};
    /// assert_eq!(Association::<1>::from_bytes(&mut [0; 818]).unwrap().look().unwrap_err(), LookRefused::NotWhole);
    /// ```
    LookRefused {
        // tools/numbers: variants LookRefused
        NotWhole = 32, "the bytes are not a record: their number is not the capacity's, or a code is unknown";
        // tools/numbers: end
    }
}

numbered! {
    /// Why there is no cookie list; nothing is written.
    ///
    /// ```
    /// use reckonstile::{collect, CollectRefused};
    /// assert_eq!(collect(&[2, 4, 0, 8], &mut [0; 8]), Err(CollectRefused::Undecodable));
    /// ```
    CollectRefused {
        // tools/numbers: variants CollectRefused
        Undecodable = 1, "the decrypted bytes are not whole fields";
        WrongSize = 31, "the list is longer than the buffer";
        // tools/numbers: end
    }
}

numbered! {
    /// Why no request is written; the buffer is unchanged.
    ///
    /// ```
    /// use reckonstile::RequestRefused;
    /// assert_eq!(RequestRefused::ShortRequestBuffer.number(), 51);
    /// ```
    RequestRefused {
        // tools/numbers: variants RequestRefused
        VersionFive = 50, "the caller writes requests of version 5 itself; or the kind is unknown";
        ShortRequestBuffer = 51, "the packet is longer than the buffer";
        CookieOrCount = 52, "the cookie has over 724 bytes, or the number asked for is not 1 to 8";
        // tools/numbers: end
    }
}

numbered! {
    /// Why no hand-over file is written; association and buffer are unchanged.
    ///
    /// ```
    /// use reckonstile::{Association, SaveRefused, Settings};
    /// let (mut a, _) = Association::<8>::new(&Settings::default(), &[]).unwrap();
    /// assert_eq!(a.save(&mut [0; 62]), Err(SaveRefused::ShortFileBuffer));
    /// ```
    SaveRefused {
        // tools/numbers: variants SaveRefused
        NotWhole = 32, "the record was not made by a call, or is not lent whole";
        ShortFileBuffer = 60, "the buffer is shorter than the file";
        // tools/numbers: end
    }
}

numbered! {
    /// Why a hand-over file is not loaded: the first fault in the file, or that its contents are not an association.
    ///
    /// ```
    /// use reckonstile::{Association, LoadRefused, Settings, FILE_BYTES};
    /// assert_eq!(Association::<8>::load(b"").unwrap_err(), LoadRefused::WrongLength);
    /// assert_eq!(Association::<8>::load(b"no file").unwrap_err(), LoadRefused::WrongMark);
    /// // A file of an association with two slots is not one with eight.
    /// let mut file = [0; FILE_BYTES];
    /// let length = Association::<2>::new(&Settings::default(), &[]).unwrap().0.save(&mut file).unwrap();
    /// assert_eq!(Association::<8>::load(&file[..length]).unwrap_err(), LoadRefused::WrongSize);
    /// assert!(Association::<2>::load(&file[..length]).is_ok());
    /// ```
    LoadRefused {
        // tools/numbers: variants LoadRefused
        WrongSize = 31, "the record does not have the size of the file's capacity";
        WrongMark = 61, "a record of the file has a wrong mark";
        WrongLength = 62, "a record of the file has a wrong length, or bytes are missing or left over";
        NoAssociation = 63, "the file has an unknown code, or its contents are not a whole association";
        // tools/numbers: end
    }
}

/// Why two hand-over files are not compared; nothing is written. If both files are rejected, it is the left one.
///
/// ```
/// use reckonstile::{compare, CompareRefused, LoadRefused};
/// let refused = compare(b"no file", b"", &mut []).unwrap_err();
/// assert_eq!((refused, refused.number()), (CompareRefused::Left(LoadRefused::WrongMark), 61));
/// assert_eq!(refused.to_string(), "the left file: a record of the file has a wrong mark (61)");
/// ```
#[derive(Clone, Copy, Debug, PartialEq, Eq, Hash)]
#[non_exhaustive]
#[must_use]
pub enum CompareRefused {
    /// The left file cannot be read, with the number of its refusal.
    Left(LoadRefused),
    /// The left file can be read, and the right one cannot.
    Right(LoadRefused),
    /// **71**: the buffer is shorter than the list.
    ShortCompareBuffer,
    /// A number that this crate does not know: the library is of another version.
    Other(u32),
}

impl CompareRefused {
    pub(crate) fn from_answer(number: u32, side: u32) -> Self {
        match (number, side) {
            (numbers::SHORT_COMPARE_BUFFER, _) => CompareRefused::ShortCompareBuffer,
            (_, 1) => CompareRefused::Left(LoadRefused::from_number(number)),
            (_, 2) => CompareRefused::Right(LoadRefused::from_number(number)),
            _ => CompareRefused::Other(number),
        }
    }

    /// The number, as in docs/NUMBERS.md.
    #[must_use]
    pub fn number(self) -> u32 {
        match self {
            CompareRefused::Left(refused) | CompareRefused::Right(refused) => refused.number(),
            CompareRefused::ShortCompareBuffer => numbers::SHORT_COMPARE_BUFFER,
            CompareRefused::Other(number) => number,
        }
    }
}

impl fmt::Display for CompareRefused {
    fn fmt(&self, f: &mut fmt::Formatter<'_>) -> fmt::Result {
        match self {
            CompareRefused::Left(refused) => write!(f, "the left file: {refused}"),
            CompareRefused::Right(refused) => write!(f, "the right file: {refused}"),
            CompareRefused::ShortCompareBuffer => write!(f, "the buffer is shorter than the list ({})", self.number()),
            CompareRefused::Other(number) => write!(f, "a number of another version of the library ({number})"),
        }
    }
}

impl core::error::Error for CompareRefused {
    fn source(&self) -> Option<&(dyn core::error::Error + 'static)> {
        match self {
            CompareRefused::Left(refused) | CompareRefused::Right(refused) => Some(refused),
            CompareRefused::ShortCompareBuffer | CompareRefused::Other(_) => None,
        }
    }
}

numbered! {
    /// Why a cookie list is not salvaged; nothing is written.
    ///
    /// ```
    /// use reckonstile::{salvage, SalvageRefused};
    /// assert_eq!(salvage(&[1, 2, 3], &mut [0; 2]).unwrap_err(), SalvageRefused::ShortSalvageBuffer);
    /// assert_eq!(SalvageRefused::ShortSalvageBuffer.number(), 70);
    /// ```
    SalvageRefused {
        // tools/numbers: variants SalvageRefused
        ShortSalvageBuffer = 70, "the buffer is shorter than the damaged list";
        // tools/numbers: end
    }
}

/// Makes an enum of a calendar's refusals from a table: for each its number, the entry or minute that it names, if any, and its words.
macro_rules! naming {
    ($(#[$meta:meta])* $name:ident { $($variant:ident $({ $place:ident })? = $number:literal, $words:literal;)* }) => {
        $(#[$meta])*
        #[derive(Clone, Copy, Debug, PartialEq, Eq, Hash)]
        #[non_exhaustive]
        #[must_use]
        pub enum $name {
            $(
                #[doc = concat!("**", stringify!($number), "**: ", $words, ".")]
                $variant $({
                    #[doc = concat!("The lowest such ", stringify!($place), ", counted from 0.")]
                    $place: usize,
                })?,
            )*
            /// A number that this crate does not know: the library is of another version.
            Other(u32),
        }

        impl $name {
            pub(crate) const fn from_answer(answer: &ffi::Scheduled) -> Self {
                match answer.number {
                    $($number => $name::$variant $({ $place: ffi::size(answer.place) })?,)*
                    other => $name::Other(other),
                }
            }

            /// The number of this answer.
            #[must_use]
            pub const fn number(self) -> u32 {
                match self {
                    $($name::$variant $({ $place: _ })? => $number,)*
                    $name::Other(other) => other,
                }
            }
        }

        impl fmt::Display for $name {
            fn fmt(&self, f: &mut fmt::Formatter<'_>) -> fmt::Result {
                match self {
                    $($name::$variant $({ $place })? => {
                        $(write!(f, concat!(stringify!($place), " {}: "), $place)?;)?
                        write!(f, "{} ({})", $words, $number)
                    })*
                    $name::Other(other) => write!(f, "a number of another version of the library ({other})"),
                }
            }
        }

        impl core::error::Error for $name {}
    };
}

naming! {
    /// Why a calendar is not accepted.
    ///
    /// ```
    /// use reckonstile::{check_calendar, CheckRefused};
    /// let refused = check_calendar(1, &[15, 15], &[60, 60]).unwrap_err();
    /// assert_eq!((refused, refused.number()), (CheckRefused::OverCap { minute: 15 }, 83));
    /// assert_eq!(refused.to_string(), "minute 15: more polls than the cap (83)");
    /// ```
    CheckRefused {
        // tools/numbers: variants CheckRefused
        TooMany = 80, "more than 64 entries";
        BadRepeat { entry } = 81, "a repeat that is 0 or does not divide 1440";
        LateStart { entry } = 82, "a start at or past its repeat";
        OverCap { minute } = 83, "more polls than the cap";
        // tools/numbers: end
    }
}

naming! {
    /// Why there is no plan; nothing is written.
    ///
    /// ```
    /// use reckonstile::{plan_calendar, PlanRefused};
    /// let refused = plan_calendar(1, &[4, 4, 2], &mut [0; 3]).unwrap_err();
    /// assert_eq!((refused, refused.number()), (PlanRefused::NoFit { entry: 2 }, 84));
    /// ```
    PlanRefused {
        // tools/numbers: variants PlanRefused
        WrongSize = 31, "the buffer has fewer starts than there are entries";
        TooMany = 80, "more than 64 entries";
        BadRepeat { entry } = 81, "a repeat that is 0 or does not divide 1440";
        NoFit { entry } = 84, "no start fits after those placed before";
        // tools/numbers: end
    }
}

/// What an answer asks the caller to do (docs/EMBEDDING.md has the table).
///
/// ```
/// use reckonstile::{Action, TimerRefused};
/// assert_eq!(TimerRefused::Demobilize.action(), Action::Demobilize);
/// ```
#[derive(Clone, Copy, Debug, PartialEq, Eq, Hash)]
#[non_exhaustive]
#[must_use]
pub enum Action {
    /// Nothing; the timer stays set.
    Nothing,
    /// Look the server up again, with NTS exchange keys again, and begin with a new association.
    Reset,
    /// Stop talking to this server.
    Demobilize,
    /// A fault of the caller: the arguments (31, 33) or the record (32). Call again with what the answer names, or begin with a new association.
    Caller,
}

/// What each refusal of an enum asks the caller to do, from one table.
macro_rules! acting {
    ($name:ident { $($variant:ident => $action:ident;)* }) => {
        impl $name {
            /// What to do.
            pub const fn action(self) -> Action {
                match self {
                    $($name::$variant => Action::$action,)*
                    $name::Other(_) => Action::Caller,
                }
            }
        }
    };
}

acting! {
    TimerRefused {
        // tools/numbers: actions TimerRefused
        Reset => Reset;
        Demobilize => Demobilize;
        NoCookie => Reset;
        CookieTooLarge => Reset;
        WrongSize => Caller;
        NotWhole => Caller;
        // tools/numbers: end
    }
}

acting! {
    ReplyRefused {
        // tools/numbers: actions ReplyRefused
        Undecodable => Nothing;
        UnexpectedVersion => Nothing;
        NoMatch => Nothing;
        Rate => Nothing;
        Denied => Nothing;
        DeniedNts => Demobilize;
        Ntsn => Nothing;
        OtherKiss => Nothing;
        BadStratum => Nothing;
        NotServer => Nothing;
        NeverSent => Nothing;
        AlreadyMeasured => Nothing;
        Expired => Nothing;
        NotWhole => Caller;
        BrokenList => Caller;
        // tools/numbers: end
    }
}

/// What kind of request is sent.
///
/// ```
/// use reckonstile::SendKind;
/// assert!(SendKind::NtsV4.is_nts() && !SendKind::V4.is_nts());
/// ```
#[derive(Clone, Copy, Debug, PartialEq, Eq, Hash)]
#[non_exhaustive]
pub enum SendKind {
    /// NTPv4.
    V4,
    /// NTPv4 with the upgrade mark; no timer asks for it any more.
    V4Upgrade,
    /// NTPv5, which the caller writes itself.
    V5,
    /// NTPv4 with NTS.
    NtsV4,
    /// NTPv5 with NTS, which the caller writes itself.
    NtsV5,
}

impl SendKind {
    pub(crate) const fn from_code(code: u8) -> Option<Self> {
        match code {
            1 => Some(SendKind::V4),
            2 => Some(SendKind::V4Upgrade),
            3 => Some(SendKind::V5),
            4 => Some(SendKind::NtsV4),
            5 => Some(SendKind::NtsV5),
            _ => None,
        }
    }

    pub(crate) const fn code(self) -> u8 {
        match self {
            SendKind::V4 => 1,
            SendKind::V4Upgrade => 2,
            SendKind::V5 => 3,
            SendKind::NtsV4 => 4,
            SendKind::NtsV5 => 5,
        }
    }

    /// Whether the request has a cookie and the caller's authenticator.
    #[must_use]
    pub const fn is_nts(self) -> bool {
        matches!(self, SendKind::NtsV4 | SendKind::NtsV5)
    }
}

/// A poll to send (20). Set the timer again for `poll`, and call `accept` again, since the reach has changed.
///
/// ```
/// use reckonstile::{Association, NtpInstant, PollInterval, SendKind, Settings};
/// let (mut a, _) = Association::<8>::new(&Settings::default(), &[]).unwrap();
/// let poll = a.timer(NtpInstant::from_nanos(0), PollInterval::new(6), 0x0102030405060708, [0; 32], &mut []).unwrap();
/// assert_eq!((poll.kind, poll.poll, poll.cookie.len(), poll.asked), (SendKind::V4, PollInterval::new(6), 0, 0));
/// ```
#[derive(Clone, Copy, PartialEq, Eq)]
#[non_exhaustive]
#[must_use]
pub struct Poll<'b> {
    /// What is sent.
    pub kind: SendKind,
    /// Its poll interval, which is also how long to wait for the next timer.
    pub poll: PollInterval,
    /// With NTS the cookie to send, in the timer's buffer; else empty.
    pub cookie: &'b [u8],
    /// With NTS how many new cookies to ask for, 1 to 8; else 0.
    pub asked: u8,
}

impl fmt::Debug for Poll<'_> {
    /// Without the cookie's bytes.
    fn fmt(&self, f: &mut fmt::Formatter<'_>) -> fmt::Result {
        let cookie = self.cookie.len();
        f.debug_struct("Poll")
            .field("kind", &self.kind)
            .field("poll", &self.poll)
            .field("cookie", &format_args!("{cookie} bytes"))
            .field("asked", &self.asked)
            .finish()
    }
}

impl Poll<'_> {
    /// The number of this answer, 20.
    #[must_use]
    pub const fn number(&self) -> u32 {
        numbers::SENT
    }
}

/// A leap second's announcement. The protocol has these and no others.
#[derive(Clone, Copy, Debug, PartialEq, Eq, Hash)]
pub enum NtpLeapIndicator {
    /// None.
    NoWarning,
    /// The day's last minute has 61 seconds.
    Leap61,
    /// The day's last minute has 59 seconds.
    Leap59,
    /// Not known (V5 only).
    Unknown,
    /// The source is not synchronized.
    Unsynchronized,
}

impl NtpLeapIndicator {
    pub(crate) const fn from_code(code: u8) -> Self {
        match code {
            0 => NtpLeapIndicator::NoWarning,
            1 => NtpLeapIndicator::Leap61,
            2 => NtpLeapIndicator::Leap59,
            3 => NtpLeapIndicator::Unknown,
            _ => NtpLeapIndicator::Unsynchronized,
        }
    }

    /// The drill's and the header's code, 0 to 4 in the order of the variants.
    ///
    /// ```
    /// assert_eq!(reckonstile::NtpLeapIndicator::Leap59.code(), 2);
    /// ```
    #[must_use]
    pub const fn code(self) -> u8 {
        self as u8
    }
}

/// Which cookies were dropped from the stash while others were stored: the oldest, as many as did not fit. Log it with NTS: the server sends more than it was
/// asked for. Without NTS nothing is dropped.
///
/// ```
/// use reckonstile::{cookie_list, Association, Dropped, Settings};
/// let mut list = [0; 128];
/// let length = cookie_list([&b"the first of nine"[..], b"2", b"3", b"4", b"5", b"6", b"7", b"8", b"9"], &mut list).unwrap();
/// let (a, dropped) = Association::<8>::new(&Settings { nts: true, ..Settings::default() }, &list[..length]).unwrap();
/// assert_eq!((a.cookies(), dropped), (8, Dropped { count: 1, bytes: 17 }));
/// ```
#[derive(Clone, Copy, Debug, Default, PartialEq, Eq, Hash)]
#[must_use]
pub struct Dropped {
    /// How many cookies.
    pub count: u64,
    /// The sum of their lengths, with the lengths of those over 724 bytes, of which nothing is kept.
    pub bytes: u64,
}

/// What a measured reply (0) says: the fields, units and names of `ntp-proto`'s `Measurement`, for its clock steering, and what was dropped from the stash.
///
/// ```
/// use reckonstile::Measurement;
/// fn slow_by(m: &Measurement) -> f64 { m.offset.to_seconds() }
/// ```
#[derive(Clone, Copy, Debug, PartialEq, Eq)]
#[non_exhaustive]
#[must_use]
pub struct Measurement {
    /// The round trip, without the time that the server took.
    pub delay: NtpDuration,
    /// What to add to our wall clock: positive if it is slow.
    pub offset: NtpDuration,
    /// Our wall clock half way between T1 and T4.
    pub localtime: NtpTimestamp,
    /// The `time` at which the reply was handed over.
    pub monotime: NtpInstant,
    /// The source's stratum.
    pub stratum: u8,
    /// The source's own delay to its root.
    pub root_delay: NtpDuration,
    /// The source's own dispersion.
    pub root_dispersion: NtpDuration,
    /// A leap second's announcement.
    pub leap: NtpLeapIndicator,
    /// The precision of the source's clock, as an exponent of two, in seconds.
    pub precision: i8,
    /// With NTS, what was dropped while the reply's cookies were stored.
    pub dropped: Dropped,
}

impl Measurement {
    pub(crate) const fn from_answer(r: &ffi::Replied) -> Self {
        Measurement {
            delay: NtpDuration::from_bits(r.delay),
            offset: NtpDuration::from_bits(r.offset),
            localtime: NtpTimestamp::from_bits(r.local),
            monotime: NtpInstant::from_nanos(r.mono),
            stratum: r.stratum,
            root_delay: NtpDuration::from_bits(r.rootdelay),
            root_dispersion: NtpDuration::from_bits(r.rootdisp),
            leap: NtpLeapIndicator::from_code(r.leap),
            precision: r.precision,
            dropped: Dropped { count: r.dropped, bytes: r.lost },
        }
    }
}
