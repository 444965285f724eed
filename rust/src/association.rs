//! The association's calls.
use crate::answers::{
    AcceptRefused, CollectRefused, Dropped, LoadRefused, LookRefused, Measurement, MeteredRefused, NewRefused, Poll,
    ReplyRefused, RequestRefused, SaveRefused, SendKind, TimerRefused,
};
use crate::decoded::DecodedReply;
use crate::ffi::{self, Association};
use crate::identifiers::ReferenceId;
use crate::opened::Opened;
use crate::settings::{ProtocolVersion, Settings};
use crate::time::{NtpInstant, NtpTimestamp, PollInterval};
use core::fmt;
use core::mem::MaybeUninit;
#[cfg(feature = "std")]
use std::boxed::Box;

/// The longest cookie that is kept, and with NTS the least room of the timer's buffer.
pub const COOKIE_BYTES: usize = 724;

/// A buffer of this size holds any request that the timer asks for; with NTS the caller's authenticator follows it.
pub const REQUEST_BYTES: usize = 852;

/// A buffer of this size holds the hand-over file of any association.
pub const FILE_BYTES: usize = 5872;

/// What the source last said about itself.
///
/// ```
/// use reckonstile::{Association, Settings};
/// let (a, _) = Association::<8>::new(&Settings::default(), &[]).unwrap();
/// assert_eq!((a.source().stratum, a.source().denial), (16, false));
/// ```
#[derive(Clone, Copy, Debug, PartialEq, Eq)]
#[non_exhaustive]
pub struct Source {
    /// Its stratum; 16 until a reply is measured.
    pub stratum: u8,
    /// Its reference identifier; `XNON` until a reply is measured.
    pub reference_id: ReferenceId,
    /// Whether it denied service since the last measured reply.
    pub denial: bool,
}

/// Settings and state of an association as numbers: what a display or a log shows.
#[derive(Clone, Copy, Debug, PartialEq, Eq)]
#[non_exhaustive]
pub struct View {
    /// The settings, which no call changes.
    pub settings: ffi::Settings,
    /// What the calls change, except the cookies.
    pub state: ffi::State,
}

/// When a request left, when its reply came, and the time at which the reply is handed in.
///
/// T1 is the wall clock right before the packet is handed to the network: not when the timer went off, and not when the packet entered a queue, or the offset
/// is wrong by half of the time that it waited there. T4 is the wall clock when the reply came in, before anything else is done with it.
///
/// ```no_run
/// use reckonstile::{NtpInstant, NtpTimestamp, Times};
/// # fn main() -> std::io::Result<()> {
/// # let (socket, packet, mut datagram) = (std::net::UdpSocket::bind("127.0.0.1:0")?, [0; 48], [0; 2048]);
/// let start = std::time::Instant::now(); // once, when the program starts
/// let t1 = NtpTimestamp::now();
/// socket.send(&packet)?; // nothing in between
/// let length = socket.recv(&mut datagram)?;
/// let t4 = NtpTimestamp::now();
/// let times = Times { t1, t4, time: NtpInstant::since_start(start) };
/// # let _ = (length, times);
/// # Ok(())
/// # }
/// ```
#[derive(Clone, Copy, Debug, PartialEq, Eq)]
pub struct Times {
    /// T1: our wall clock when the last request left. The packet does not carry it; keep it.
    pub t1: NtpTimestamp,
    /// T4: our wall clock when the reply came.
    pub t4: NtpTimestamp,
    /// The uptime clock, now.
    pub time: NtpInstant,
}

/// What the caller's Bloom filter (V5) says about us.
#[derive(Clone, Copy, Debug, Default, PartialEq, Eq, Hash)]
pub enum Bloom {
    /// There is no filter.
    #[default]
    NoFilter,
    /// We are not in it.
    Absent,
    /// We are in it: the source gets its time from us.
    Present,
}

impl<const SLOTS: usize> fmt::Debug for Association<SLOTS> {
    /// Settings, state and how many cookies there are; no byte of a cookie.
    fn fmt(&self, f: &mut fmt::Formatter<'_>) -> fmt::Result {
        let mut shown = f.debug_struct("Association");
        match self.look() {
            Ok(view) => shown.field("settings", &view.settings).field("cookies", &self.cookies()).field("state", &view.state),
            Err(refused) => shown.field("refused", &refused),
        };
        shown.finish()
    }
}

impl<const SLOTS: usize> Association<SLOTS> {
    /// Makes a new association (0) in `place`, and returns with it what of the list did not fit. With NTS `list` has the cookies of the key exchange, as
    /// [`cookie_list`] writes them; without NTS it is not read. Call [`Association::timer`] at once.
    ///
    /// # Errors
    /// [`NewRefused`]: for 30 [`Settings::check`] names the setting. 31 and 38 do not occur here: types and settings exclude them.
    ///
    /// ```
    /// use reckonstile::{Association, Settings};
    /// use std::mem::MaybeUninit;
    /// // Two slots: 1,544 bytes, which may also be in a `static`.
    /// let mut place = MaybeUninit::<Association<2>>::uninit();
    /// let (a, _) = Association::new_in(&mut place, &Settings::default(), &[]).unwrap();
    /// assert_eq!((a.as_bytes().len(), a.cookies()), (1544, 0));
    /// ```
    pub fn new_in<'a>(
        place: &'a mut MaybeUninit<Self>,
        settings: &Settings,
        list: &[u8],
    ) -> Result<(&'a mut Self, Dropped), NewRefused> {
        match ffi::new(place, settings.numbers(SLOTS), list) {
            (said, Some(made)) => Ok((made, Dropped { count: said.dropped, bytes: said.lost })),
            (said, None) => Err(NewRefused::from_number(said.number)),
        }
    }

    /// [`Association::new_in`], on the heap: it is made there, and never passes over the stack.
    ///
    /// # Errors
    /// As [`Association::new_in`].
    #[cfg(feature = "std")]
    pub fn new(settings: &Settings, list: &[u8]) -> Result<(Box<Self>, Dropped), NewRefused> {
        ffi::boxed(|place| Self::new_in(place, settings, list).map(|(_, dropped)| dropped))
    }

    /// Makes a new association for a link that is paid by the packet (0): that of [`Association::new_in`], if settings and list meet the metered profile. No
    /// poll that it sends has an exponent below 8.
    ///
    /// # Errors
    /// [`MeteredRefused`]; 31 and 36 do not occur here.
    pub fn metered_in<'a>(
        place: &'a mut MaybeUninit<Self>,
        settings: &Settings,
        list: &[u8],
    ) -> Result<(&'a mut Self, Dropped), MeteredRefused> {
        match ffi::metered(place, settings.numbers(SLOTS), list) {
            (said, Some(made)) => Ok((made, Dropped { count: said.dropped, bytes: said.lost })),
            (said, None) => Err(MeteredRefused::from_number(said.number)),
        }
    }

    /// [`Association::metered_in`], on the heap.
    ///
    /// # Errors
    /// As [`Association::metered_in`].
    #[cfg(feature = "std")]
    pub fn metered(settings: &Settings, list: &[u8]) -> Result<(Box<Self>, Dropped), MeteredRefused> {
        ffi::boxed(|place| Self::metered_in(place, settings, list).map(|(_, dropped)| dropped))
    }

    /// Whether settings and list meet the metered profile, as [`Association::metered_in`] would say.
    ///
    /// # Errors
    /// [`MeteredRefused`], as from [`Association::metered_in`].
    pub fn profile(settings: &Settings, list: &[u8]) -> Result<(), MeteredRefused> {
        match ffi::profile(settings.numbers(SLOTS), list) {
            0 => Ok(()),
            number => Err(MeteredRefused::from_number(number)),
        }
    }

    /// Sets all bytes to zero. Such an association is not whole: every call on it answers 32.
    pub fn blank(&mut self) {
        ffi::blank(self.bytes_mut());
    }

    /// Call it when it is time to poll. `desired` is the poll interval that the clock steering wants; `id` and, with NTS, `uid` are drawn at random anew for
    /// each call. With NTS the cookie is written to `buffer`, of at least [`COOKIE_BYTES`]; without NTS it may be empty. On 20 write the request, send it,
    /// keep T1, and call again after the poll interval.
    ///
    /// # Errors
    /// [`TimerRefused`], whose `action` says what to do.
    pub fn timer<'b>(
        &mut self,
        time: NtpInstant,
        desired: PollInterval,
        id: u64,
        uid: [u8; 32],
        buffer: &'b mut [u8],
    ) -> Result<Poll<'b>, TimerRefused> {
        let said = ffi::timer(self.bytes_mut(), time.as_nanos(), desired.as_log(), id, uid, buffer);
        match (said.number, SendKind::from_code(said.kind), buffer.get(..ffi::size(said.length))) {
            (20, Some(kind), Some(cookie)) => Ok(Poll {
                kind,
                poll: PollInterval::new(said.poll),
                cookie,
                asked: u8::try_from(said.asked).unwrap_or(u8::MAX),
            }),
            (number, _, _) => Err(TimerRefused::from_number(number)),
        }
    }

    /// Writes the request that a timer's 20 asks for, with the `id` and `uid` that the timer got, and returns its length. With NTS the caller appends its
    /// authenticator, made over the whole request. [`REQUEST_BYTES`] are enough.
    ///
    /// # Errors
    /// [`RequestRefused`]: the request is of V5, or the buffer is too short.
    pub fn write_request(&self, poll: &Poll<'_>, id: u64, uid: [u8; 32], out: &mut [u8]) -> Result<usize, RequestRefused> {
        write_request(poll.kind, poll.poll, id, self.upgrade_mark(), uid, poll.cookie, poll.asked, out)
    }

    /// Hands over a reply of V3 or V4. On 0 hand the measurement to the clock steering, and call [`Association::accept`] again.
    ///
    /// # Errors
    /// [`ReplyRefused`]: 12, 13 and 14 say why no request is live. Its `action` says what to do: for most of them nothing.
    pub fn reply(&mut self, reply: &Opened<'_>, times: Times) -> Result<Measurement, ReplyRefused> {
        measured(&ffi::reply(
            self.bytes_mut(),
            reply.packet(),
            reply.end(),
            reply.decrypted(),
            reply.list(),
            times.t1.to_bits(),
            times.t4.to_bits(),
            times.time.as_nanos(),
        ))
    }

    /// Hands over a reply of V5, decoded by the caller; with NTS `list` has its new cookies.
    ///
    /// # Errors
    /// [`ReplyRefused`], as for [`Association::reply`].
    ///
    /// ```
    /// # use reckonstile::*;
    /// # let (mut a, _) = Association::<8>::new(&Settings { version: ProtocolVersion::V5, ..Settings::default() }, &[]).unwrap();
    /// # let zero = NtpTimestamp::from_bits(0);
    /// let d = DecodedReply {
    ///     leap: NtpLeapIndicator::NoWarning, response: true, stratum: 2, poll: PollInterval::new(6), precision: -20,
    ///     root_delay: NtpDuration::ZERO, root_dispersion: NtpDuration::ZERO, receive: zero, transmit: zero, cookie: 7,
    ///     kisses: Kisses::default(), authenticated: Uid::Absent, encrypted: Uid::Absent, untrusted: Uid::Absent,
    /// };
    /// let times = Times { t1: zero, t4: zero, time: NtpInstant::from_nanos(1) };
    /// assert_eq!(a.reply_decoded(&d, &[], times), Err(ReplyRefused::NeverSent));
    /// ```
    pub fn reply_decoded(&mut self, reply: &DecodedReply, list: &[u8], times: Times) -> Result<Measurement, ReplyRefused> {
        measured(&ffi::reply_decoded(
            self.bytes_mut(),
            reply.numbers(),
            list,
            times.t1.to_bits(),
            times.t4.to_bits(),
            times.time.as_nanos(),
        ))
    }

    /// Whether the source may be used (0), given our own stratum, our own identifiers and what the Bloom filter says. Call it after each 20 and each measured
    /// reply.
    ///
    /// # Errors
    /// [`AcceptRefused`]: not for now, or the record is not whole.
    ///
    /// ```
    /// # use reckonstile::*;
    /// let (a, _) = Association::<8>::new(&Settings::default(), &[]).unwrap();
    /// assert_eq!(a.accept(17, &[ReferenceId::from(core::net::Ipv4Addr::LOCALHOST)], Bloom::NoFilter), Err(AcceptRefused::Unreachable));
    /// ```
    pub fn accept(&self, stratum: u8, local: &[ReferenceId], bloom: Bloom) -> Result<(), AcceptRefused> {
        match ffi::accept(self.as_bytes(), stratum, local, bloom as u32) {
            0 => Ok(()),
            number => Err(AcceptRefused::from_number(number)),
        }
    }

    /// Settings and state as numbers. Numbers that contradict each other are shown too: if another call answers 32, they say what is wrong.
    ///
    /// # Errors
    /// [`LookRefused`], if the bytes are not a record of this type: an unknown code, or another capacity.
    ///
    /// ```
    /// # use reckonstile::*;
    /// let (a, _) = Association::<4>::new(&Settings::default(), &[]).unwrap();
    /// let view = a.look().unwrap();
    /// assert_eq!((view.settings.capacity, view.settings.startup, view.state.stratum), (4, 3, 16));
    /// ```
    pub fn look(&self) -> Result<View, LookRefused> {
        let said = ffi::look(self.as_bytes());
        match u32::try_from(said.number) {
            Ok(0) => Ok(View { settings: said.settings, state: said.state }),
            number => Err(LookRefused::from_number(number.unwrap_or(u32::MAX))),
        }
    }

    /// Writes the association to a hand-over file, at power-down, and returns the file's length (docs/HANDOVER.md). The cookies are then only in the file; all
    /// else of this association is unchanged. [`FILE_BYTES`] are enough. The NTS keys are not in the file.
    ///
    /// # Errors
    /// [`SaveRefused`]; then nothing is written, and nothing has changed.
    ///
    /// ```
    /// # use reckonstile::*;
    /// let (mut old, _) = Association::<8>::new(&Settings { nts: true, ..Settings::default() }, b"\xc0\x0e\0\x03abc").unwrap();
    /// let before = old.as_bytes().to_vec();
    /// let mut file = [0; FILE_BYTES];
    /// let length = old.save(&mut file).unwrap();
    /// assert_eq!((length, &file[..2], old.cookies()), (69, &b"SE"[..], 0));
    /// // In the new box: the same association, as long as nothing was sent.
    /// assert_eq!(Association::<8>::load(&file[..length]).unwrap().0.as_bytes(), before);
    /// ```
    pub fn save(&mut self, out: &mut [u8]) -> Result<usize, SaveRefused> {
        let said = ffi::save(self.bytes_mut(), out);
        match said.number {
            0 => Ok(ffi::size(said.length)),
            number => Err(SaveRefused::from_number(number)),
        }
    }

    /// Makes the association of a hand-over file in `place`, with nothing sent yet. Call [`Association::timer`] at once. Load a file once, in one box: a
    /// cookie has one owner, and no call detects a second load. The `bool` says whether the file had the retired version, upgrading, as start version or as
    /// version: that is V4 now.
    ///
    /// # Errors
    /// [`LoadRefused`]: the first fault in the file; or 31, if the file is of an association with another number of slots.
    ///
    /// ```
    /// use reckonstile::{Association, ProtocolVersion, Settings, FILE_BYTES};
    /// let mut file = [0; FILE_BYTES];
    /// let length = Association::<8>::new(&Settings::default(), &[]).unwrap().0.save(&mut file).unwrap();
    /// assert!(!Association::<8>::load(&file[..length]).unwrap().1);
    /// file[23] = 1; // a file of an older version: its start version was upgrading
    /// let (a, retired) = Association::<8>::load(&file[..length]).unwrap();
    /// assert!(retired && a.version() == ProtocolVersion::V4);
    /// ```
    pub fn load_in<'a>(place: &'a mut MaybeUninit<Self>, file: &[u8]) -> Result<(&'a mut Self, bool), LoadRefused> {
        match ffi::load(place, file) {
            (said, Some(loaded)) => Ok((loaded, said.retired == 1)),
            (said, None) => Err(LoadRefused::from_number(said.number)),
        }
    }

    /// [`Association::load_in`], on the heap.
    ///
    /// # Errors
    /// As [`Association::load_in`].
    #[cfg(feature = "std")]
    pub fn load(file: &[u8]) -> Result<(Box<Self>, bool), LoadRefused> {
        ffi::boxed(|place| Self::load_in(place, file).map(|(_, retired)| retired))
    }

    /// The state; that of zeros, if no call made the bytes.
    fn state(&self) -> ffi::State {
        ffi::look(self.as_bytes()).state
    }

    /// What the source last said about itself.
    #[must_use]
    pub fn source(&self) -> Source {
        let state = self.state();
        Source { stratum: state.stratum, reference_id: ReferenceId::from_bits(state.refid), denial: state.denial == 1 }
    }

    /// The version in use.
    #[must_use]
    pub fn version(&self) -> ProtocolVersion {
        ProtocolVersion::from_code(self.state().version)
    }

    /// The poll interval last used, and the least that the source asks for.
    #[must_use]
    pub fn polls(&self) -> (PollInterval, PollInterval) {
        let state = self.state();
        (PollInterval::new(state.last), PollInterval::new(state.remote))
    }

    /// Whether one of the last eight polls was answered.
    #[must_use]
    pub fn is_reachable(&self) -> bool {
        self.state().reach != 0
    }

    /// How many polls there were since the last that was answered, 0 to 8; a new association has 8.
    ///
    /// ```
    /// # use reckonstile::*;
    /// let (a, _) = Association::<8>::new(&Settings::default(), &[]).unwrap();
    /// assert_eq!(a.unanswered_polls(), 8);
    /// ```
    #[must_use]
    pub fn unanswered_polls(&self) -> u8 {
        self.state().unanswered
    }

    /// The unique identifier of the pending request, if one is pending: a V5 reply's fields are compared with it.
    #[must_use]
    pub fn pending_uid(&self) -> Option<[u8; 32]> {
        let state = self.state();
        (state.present == 1).then_some(state.uid)
    }
}

fn measured(said: &ffi::Replied) -> Result<Measurement, ReplyRefused> {
    match said.number {
        0 => Ok(Measurement::from_answer(said)),
        number => Err(ReplyRefused::from_number(number)),
    }
}

/// Writes a request from its parts; [`Association::write_request`] takes them from a timer's answer.
///
/// # Errors
/// [`RequestRefused`]; then nothing is written.
///
/// ```
/// # use reckonstile::*;
/// let mut out = [0; 48];
/// assert_eq!(write_request(SendKind::V4, PollInterval::new(6), 1, 0, [0; 32], &[], 0, &mut out), Ok(48));
/// assert_eq!(write_request(SendKind::V4, PollInterval::new(6), 1, 0, [0; 32], &[], 0, &mut out[..47]), Err(RequestRefused::ShortRequestBuffer));
/// ```
#[allow(clippy::too_many_arguments)]
pub fn write_request(
    kind: SendKind,
    poll: PollInterval,
    id: u64,
    upgrade_mark: u64,
    uid: [u8; 32],
    cookie: &[u8],
    asked: u8,
    out: &mut [u8],
) -> Result<usize, RequestRefused> {
    let said = ffi::write_request(kind.code(), poll.as_log(), id, upgrade_mark, uid, cookie, asked, out);
    match said.number {
        0 => Ok(ffi::size(said.length)),
        number => Err(RequestRefused::from_number(number)),
    }
}

/// Writes the cookies among decrypted fields as a list into `out`, and returns its length. An `out` as long as `decrypted` is enough.
///
/// # Errors
/// [`CollectRefused`]; then nothing is written: hand over the reply with an empty list.
///
/// ```
/// let mut out = [0; 8];
/// assert_eq!(reckonstile::collect(&[2, 4, 0, 8, 1, 2, 3, 4], &mut out), Ok(8));
/// assert_eq!(out, [0xc0, 0x0e, 0, 4, 1, 2, 3, 4]);
/// ```
pub fn collect(decrypted: &[u8], out: &mut [u8]) -> Result<usize, CollectRefused> {
    let said = ffi::collect(decrypted, out);
    match said.number {
        0 => Ok(ffi::size(said.length)),
        number => Err(CollectRefused::from_number(number)),
    }
}

/// Writes cookies as a list into `out` (for each the mark C0 0E, two bytes of length, and its bytes), and returns its length, or `None` if it does not fit.
///
/// ```
/// let mut out = [0; 16];
/// assert_eq!(reckonstile::cookie_list([&b"abc"[..], b""], &mut out), Some(11));
/// assert_eq!(out[..11], *b"\xc0\x0e\0\x03abc\xc0\x0e\0\0");
/// assert_eq!(reckonstile::cookie_list([&b"abc"[..]], &mut out[..6]), None);
/// ```
#[must_use]
pub fn cookie_list<'a>(cookies: impl IntoIterator<Item = &'a [u8]>, out: &mut [u8]) -> Option<usize> {
    let mut at = 0usize;
    for cookie in cookies {
        let length = u16::try_from(cookie.len()).ok()?.to_be_bytes();
        let place = out.get_mut(at..at.checked_add(4 + cookie.len())?)?;
        place[..2].copy_from_slice(&[0xc0, 0x0e]);
        place[2..4].copy_from_slice(&length);
        place[4..].copy_from_slice(cookie);
        at += 4 + cookie.len();
    }
    Some(at)
}

/// The revision of the linked library: [`REVISION`](crate::REVISION), if library and crate are of one revision.
///
/// ```
/// assert_eq!(reckonstile::revision(), reckonstile::REVISION);
/// ```
#[must_use]
pub fn revision() -> u32 {
    ffi::revision()
}
