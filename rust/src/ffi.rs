//! The library as C sees it (`include/reckonstile.h`), and the only `unsafe` of this crate: each call once, in a safe function that passes what the library's
//! contract requires and nothing else.
//!
//! The contract requires: a record is bytes that are lent to this call alone, as an exclusive (or, for `accept` and `look`, a shared) slice is; a slice is a
//! pointer that is not null and a length, as every slice of Rust is, an empty one too; what is read and what is written do not overlap, which the borrow
//! checker ensures. Every struct is of numbers, for which any bytes are a value. No call keeps a pointer, allocates, or unwinds.
#![allow(unsafe_code)]

use crate::identifiers::ReferenceId;
use core::mem::{align_of, offset_of, size_of, MaybeUninit};

/// The revision of the C interface that this crate is written for; [`crate::revision`] returns the library's. `tools/revision` computes it.
pub const REVISION: u32 = 0xBCF81C62;

/// The bytes of a record before its cookies.
pub(crate) const HEAD: usize = 92;

/// The bytes of a cookie's place: 724 of the cookie, and its length in two.
pub(crate) const ROW: usize = 726;

/// The settings of an association, as numbers.
#[repr(C)]
#[derive(Clone, Copy, Debug, Default, PartialEq, Eq)]
pub struct Settings {
    /// How long a request stays live, in nanoseconds.
    pub window: u64,
    /// The reference timestamp of an upgrade request; no rule reads it.
    pub upgrademark: u64,
    /// The source's identifier.
    pub source: u32,
    /// The version to start with: 0 V4, 2 upgraded, 3 V5; 1, upgrading, is retired.
    pub start: u32,
    /// 1 with NTS, else 0.
    pub nts: u16,
    /// How many cookies the stash holds, 1 to 8.
    pub capacity: u8,
    /// Always 0.
    pub spare: u8,
    /// 0 beside the versions that stay.
    pub left: u8,
    /// After this many polls with no answer the association gives up.
    pub startup: u8,
    /// The least poll exponent.
    pub min: i8,
    /// The largest poll exponent.
    pub max: i8,
}

/// What the calls change in a record, except its cookies.
#[repr(C)]
#[derive(Clone, Copy, Debug, Default, PartialEq, Eq)]
pub struct State {
    /// Which of the last eight polls were answered, the newest in bit 0.
    pub reach: u8,
    /// Polls sent, held at 255.
    pub tries: u8,
    /// The poll exponent last used.
    pub last: i8,
    /// The least poll exponent that the source asks for.
    pub remote: i8,
    /// The source's reference identifier.
    pub refid: u32,
    /// The version, as in the settings.
    pub version: u32,
    /// 0 beside the versions that stay.
    pub left: u8,
    /// The source's stratum; 16 until a reply is measured.
    pub stratum: u8,
    /// 1 if service was denied since the last measured reply.
    pub denial: u8,
    /// Polls since the last that was answered, 0 to 8: the zeros at the low end of `reach`. A new association has 8.
    pub unanswered: u8,
    /// The pending request's 64 bits.
    pub id: u64,
    /// Until when its reply is awaited.
    pub deadline: u64,
    /// Its unique identifier; zero without NTS.
    pub uid: [u8; 32],
    /// 1 if a reply was measured since the last sent poll, which is never so while a request is pending; else 0.
    pub answered: u32,
    /// 1 if a request is pending; if not, `id`, `deadline` and `uid` are zero.
    pub present: u32,
}

/// An association with one server: its record, in bytes that the caller owns.
///
/// `SLOTS` is how many cookies it holds, 1 to 8, and determines its size ([`Association::BYTES`]). It is made in place (by [`Association::new_in`] and
/// others) or on the heap ([`Association::new`], with the feature `std`), and is neither copied nor cloned: a cookie has one owner.
///
/// ```compile_fail
/// // Nine slots are one too many.
/// let mut place = std::mem::MaybeUninit::uninit();
/// let _ = reckonstile::Association::<9>::new_in(&mut place, &reckonstile::Settings::default(), &[]);
/// ```
///
/// ```
/// use reckonstile::{Association, NtpInstant, NtpTimestamp, Opened, PollInterval, ReplyRefused, Settings, Times, REQUEST_BYTES};
///
/// let (mut a, _) = Association::<8>::new(&Settings::default(), &[])?;
/// let id = 0x0102030405060708; // 64 random bits, drawn anew for each call
/// let poll = a.timer(NtpInstant::from_nanos(0), PollInterval::new(6), id, [0; 32], &mut [])?;
/// let mut out = [0; REQUEST_BYTES];
/// let len = a.write_request(&poll, id, [0; 32], &mut out)?;
/// assert_eq!((len, out[0], &out[40..48]), (48, 0x23, &id.to_be_bytes()[..]));
///
/// // A server of stratum 2 answers: the origin timestamp is the request's id.
/// let mut reply = [0; 48];
/// reply[0] = 0x24;
/// reply[1] = 2;
/// reply[24..32].copy_from_slice(&id.to_be_bytes());
/// reply[32..40].copy_from_slice(&(3u64 << 32).to_be_bytes()); // T2
/// reply[40..48].copy_from_slice(&(3u64 << 32).to_be_bytes()); // T3
/// let times = Times { t1: NtpTimestamp::from_bits(1 << 32), t4: NtpTimestamp::from_bits(2 << 32), time: NtpInstant::from_nanos(1_000_000_000) };
/// let measured = a.reply(&Opened::plain(&reply), times)?;
/// assert_eq!((measured.delay.to_seconds(), measured.offset.to_seconds()), (1.0, 1.5));
/// a.accept(16, &[], Default::default())?;
///
/// // The same reply once more is not measured twice.
/// assert_eq!(a.reply(&Opened::plain(&reply), times), Err(ReplyRefused::AlreadyMeasured));
/// # Ok::<(), Box<dyn std::error::Error>>(())
/// ```
#[repr(C)]
pub struct Association<const SLOTS: usize = 8> {
    head: [u8; HEAD],
    rows: [[u8; ROW]; SLOTS],
}

#[repr(C)]
#[derive(Clone, Copy)]
pub(crate) struct View {
    pub settings: Settings,
    pub state: State,
    pub number: u64,
}

#[repr(C)]
#[derive(Clone, Copy)]
pub(crate) struct Field {
    pub number: u32,
    pub found: u32,
    pub kind: u32,
    pub spare: u32,
    pub body: u64,
    pub length: u64,
    pub next: u64,
}

#[repr(C)]
#[derive(Clone, Copy)]
pub(crate) struct Uid {
    pub bytes: [u8; 32],
}

#[repr(C)]
#[derive(Clone, Copy, Default)]
pub(crate) struct Made {
    pub number: u32,
    pub made: u32,
    pub dropped: u64,
    pub lost: u64,
}

#[repr(C)]
#[derive(Clone, Copy, Default)]
pub(crate) struct Timed {
    pub number: u32,
    pub kind: u8,
    pub poll: i8,
    pub asked: u16,
    pub length: u64,
}

#[repr(C)]
#[derive(Clone, Copy, Default)]
pub(crate) struct Replied {
    pub number: u32,
    pub measured: u8,
    pub leap: u8,
    pub stratum: u8,
    pub precision: i8,
    pub delay: i64,
    pub offset: i64,
    pub local: u64,
    pub mono: u64,
    pub rootdelay: i64,
    pub rootdisp: i64,
    pub dropped: u64,
    pub lost: u64,
}

#[repr(C)]
#[derive(Clone, Copy, Default)]
pub(crate) struct Decoded {
    pub rootdelay: i64,
    pub rootdisp: i64,
    pub receive: u64,
    pub transmit: u64,
    pub cookie: u64,
    pub mode: u32,
    pub leap: u8,
    pub stratum: u8,
    pub poll: i8,
    pub precision: i8,
    pub rate: u8,
    pub deny: u8,
    pub rstr: u8,
    pub ntsn: u8,
    pub any: u8,
    pub authenticated: u8,
    pub encrypted: u8,
    pub untrusted: u8,
}

#[repr(C)]
#[derive(Clone, Copy, Default)]
pub(crate) struct Written {
    pub number: u32,
    pub written: u32,
    pub length: u64,
}

#[repr(C)]
#[derive(Clone, Copy, Default)]
pub(crate) struct Loaded {
    pub number: u32,
    pub retired: u32,
}

#[repr(C)]
#[derive(Clone, Copy)]
pub(crate) struct Salvaged {
    pub number: u32,
    pub told: u32,
    pub kept: u64,
    pub skipped: u64,
    pub gaps: u64,
    pub length: u64,
    pub places: [u64; 32],
}

#[repr(C)]
#[derive(Clone, Copy, Default)]
pub(crate) struct Compared {
    pub number: u32,
    pub side: u32,
    pub entries: u64,
}

#[repr(C)]
#[derive(Clone, Copy, Default)]
pub(crate) struct Scheduled {
    pub number: u32,
    pub named: u32,
    pub place: u64,
}

// The library's layout; another one stops the build. `tests/embed` compares the header with the same numbers and with the library's own answers.
const _: () = {
    assert!(
        size_of::<Settings>() == 32
            && offset_of!(Settings, nts) == 24
            && offset_of!(Settings, capacity) == 26
            && offset_of!(Settings, left) == 28
    );
    assert!(
        size_of::<State>() == 72
            && offset_of!(State, version) == 8
            && offset_of!(State, unanswered) == 15
            && offset_of!(State, id) == 16
            && offset_of!(State, uid) == 32
            && offset_of!(State, answered) == 64
            && offset_of!(State, present) == 68
    );
    assert!(size_of::<View>() == 112 && offset_of!(View, state) == 32 && offset_of!(View, number) == 104);
    assert!(
        size_of::<Field>() == 40
            && offset_of!(Field, found) == 4
            && offset_of!(Field, kind) == 8
            && offset_of!(Field, body) == 16
            && offset_of!(Field, next) == 32
    );
    assert!(size_of::<Uid>() == 32 && size_of::<Timed>() == 16 && offset_of!(Timed, length) == 8);
    assert!(size_of::<Made>() == 24 && offset_of!(Made, dropped) == 8);
    assert!(size_of::<Replied>() == 72 && offset_of!(Replied, delay) == 8 && offset_of!(Replied, dropped) == 56);
    assert!(size_of::<Decoded>() == 56 && offset_of!(Decoded, mode) == 40 && offset_of!(Decoded, untrusted) == 55);
    assert!(size_of::<Written>() == 16 && offset_of!(Written, length) == 8);
    assert!(size_of::<Loaded>() == 8 && offset_of!(Loaded, retired) == 4);
    assert!(size_of::<Compared>() == 16 && offset_of!(Compared, entries) == 8);
    assert!(size_of::<Salvaged>() == 296 && offset_of!(Salvaged, kept) == 8 && offset_of!(Salvaged, places) == 40);
    assert!(size_of::<Scheduled>() == 16 && offset_of!(Scheduled, place) == 8);
};

mod c {
    use super::{Compared, Decoded, Field, Loaded, Made, Replied, Salvaged, Scheduled, Settings, Timed, Uid, View, Written};
    extern "C" {
        pub fn reckonstile_revision() -> u32;
        pub fn reckonstile_blank(record: *mut u8, size: usize) -> u32;
        pub fn reckonstile_new(record: *mut u8, size: usize, settings: Settings, list: *const u8, list_len: usize) -> Made;
        pub fn reckonstile_metered(record: *mut u8, size: usize, settings: Settings, list: *const u8, list_len: usize) -> Made;
        pub fn reckonstile_profile(settings: Settings, list: *const u8, list_len: usize) -> u32;
        pub fn reckonstile_timer(
            record: *mut u8,
            size: usize,
            time: u64,
            desired: i8,
            id: u64,
            uid: Uid,
            buffer: *mut u8,
            room: usize,
        ) -> Timed;
        pub fn reckonstile_field_at(packet: *const u8, packet_len: usize, at: usize) -> Field;
        pub fn reckonstile_reply(
            record: *mut u8,
            size: usize,
            packet: *const u8,
            packet_len: usize,
            end: usize,
            decrypted: *const u8,
            decrypted_len: usize,
            list: *const u8,
            list_len: usize,
            t1: u64,
            t4: u64,
            time: u64,
        ) -> Replied;
        pub fn reckonstile_reply_decoded(
            record: *mut u8,
            size: usize,
            d: Decoded,
            list: *const u8,
            list_len: usize,
            t1: u64,
            t4: u64,
            time: u64,
        ) -> Replied;
        pub fn reckonstile_accept(
            record: *const u8,
            size: usize,
            stratum: u8,
            local: *const u32,
            count: usize,
            bloom: u32,
        ) -> u32;
        pub fn reckonstile_look(record: *const u8, size: usize) -> View;
        pub fn reckonstile_collect(decrypted: *const u8, decrypted_len: usize, out: *mut u8, room: usize) -> Written;
        pub fn reckonstile_write_request(
            kind: u8,
            poll: i8,
            id: u64,
            upgrademark: u64,
            uid: Uid,
            cookie: *const u8,
            cookie_len: usize,
            asked: u8,
            out: *mut u8,
            room: usize,
        ) -> Written;
        pub fn reckonstile_save(record: *mut u8, size: usize, out: *mut u8, room: usize) -> Written;
        pub fn reckonstile_load(record: *mut u8, size: usize, file: *const u8, file_len: usize) -> Loaded;
        pub fn reckonstile_compare(
            left: *const u8,
            left_len: usize,
            right: *const u8,
            right_len: usize,
            out: *mut u8,
            room: usize,
        ) -> Compared;
        pub fn reckonstile_salvage(list: *const u8, list_len: usize, out: *mut u8, room: usize) -> Salvaged;
        pub fn reckonstile_check_calendar(
            cap: u8,
            starts: *const u16,
            starts_count: usize,
            repeats: *const u16,
            repeats_count: usize,
        ) -> Scheduled;
        pub fn reckonstile_plan_calendar(
            cap: u8,
            repeats: *const u16,
            repeats_count: usize,
            starts: *mut u16,
            room: usize,
        ) -> Scheduled;
    }
}

/// A length or a place of an answer. It counts bytes or entries of a slice that was lent, so it fits.
pub(crate) const fn size(n: u64) -> usize {
    n as usize
}

pub(crate) fn revision() -> u32 {
    // SAFETY: the call takes nothing and touches no memory of ours.
    unsafe { c::reckonstile_revision() }
}

/// Runs before every other call. In debug builds the first call asks the library whether it is of this crate's revision; the build has checked its PROOF.
#[inline]
fn held() {
    #[cfg(debug_assertions)]
    {
        use core::sync::atomic::{AtomicBool, Ordering::Relaxed};
        static ASKED: AtomicBool = AtomicBool::new(false);
        if !ASKED.load(Relaxed) {
            let theirs = revision();
            assert!(theirs == REVISION, "reckonstile: the library is of revision {theirs:#010X} and the crate of {REVISION:#010X}: take both from one release");
            ASKED.store(true, Relaxed);
        }
    }
}

impl<const SLOTS: usize> Association<SLOTS> {
    /// The bytes of a record: 818, 1,544, 2,996 and 5,900 for 1, 2, 4 and 8 slots.
    pub const BYTES: usize = {
        assert!(SLOTS >= 1 && SLOTS <= 8, "reckonstile: an association has 1 to 8 slots");
        assert!(size_of::<Self>() == HEAD + ROW * SLOTS && align_of::<Self>() == 1);
        HEAD + ROW * SLOTS
    };

    /// The record as bytes, to look at (docs/EMBEDDING.md has the layout). They hold the cookies, which are secrets, and their format is that of one
    /// revision: to store an association use [`Association::save`].
    #[must_use]
    pub fn as_bytes(&self) -> &[u8] {
        // SAFETY: the struct is `BYTES` bytes without padding, as asserted there, and is lent as long as the slice.
        unsafe { core::slice::from_raw_parts(core::ptr::from_ref(self).cast(), Self::BYTES) }
    }

    /// How many cookies are held.
    #[must_use]
    pub fn cookies(&self) -> usize {
        self.head[28].into()
    }

    /// What [`crate::write_request`] puts into an upgrade request.
    pub(crate) fn upgrade_mark(&self) -> u64 {
        self.head[11..19].iter().fold(0, |mark, byte| mark << 8 | u64::from(*byte))
    }

    pub(crate) fn bytes_mut(&mut self) -> &mut [u8] {
        // SAFETY: as above, lent exclusively; and any bytes are a value of the struct.
        unsafe { core::slice::from_raw_parts_mut(core::ptr::from_mut(self).cast(), Self::BYTES) }
    }

    /// The association in the caller's bytes, if there are [`Association::BYTES`] of them. They may be any bytes: if no call of this revision made them, every
    /// call answers 32 and changes nothing.
    ///
    /// ```
    /// # use reckonstile::*;
    /// let mut bytes = [0; 818];
    /// let a = Association::<1>::from_bytes(&mut bytes).unwrap();
    /// assert_eq!(a.timer(NtpInstant::from_nanos(0), PollInterval::new(6), 1, [0; 32], &mut []), Err(TimerRefused::NotWhole));
    /// assert!(Association::<2>::from_bytes(&mut bytes).is_none());
    /// ```
    #[must_use]
    pub fn from_bytes(bytes: &mut [u8]) -> Option<&mut Self> {
        if bytes.len() != Self::BYTES {
            return None;
        }
        // SAFETY: there are as many bytes as the struct has, it has no alignment, any bytes are a value of it, and they stay lent exclusively.
        Some(unsafe { &mut *bytes.as_mut_ptr().cast::<Self>() })
    }
}

pub(crate) fn blank(record: &mut [u8]) -> u32 {
    held();
    // SAFETY: `record` is lent exclusively; no more than its length is written.
    unsafe { c::reckonstile_blank(record.as_mut_ptr(), record.len()) }
}

pub(crate) fn new<'a, const SLOTS: usize>(
    place: &'a mut MaybeUninit<Association<SLOTS>>,
    settings: Settings,
    list: &[u8],
) -> (Made, Option<&'a mut Association<SLOTS>>) {
    held();
    // SAFETY: `place` has `BYTES` bytes and is lent exclusively; what they were is not read. `list` is a pointer that is not null and its length.
    let said = unsafe {
        c::reckonstile_new(place.as_mut_ptr().cast(), Association::<SLOTS>::BYTES, settings, list.as_ptr(), list.len())
    };
    // SAFETY: on 0 every byte is written.
    (said, (said.number == 0).then(|| unsafe { place.assume_init_mut() }))
}

pub(crate) fn metered<'a, const SLOTS: usize>(
    place: &'a mut MaybeUninit<Association<SLOTS>>,
    settings: Settings,
    list: &[u8],
) -> (Made, Option<&'a mut Association<SLOTS>>) {
    held();
    // SAFETY: as for `new`.
    let said = unsafe {
        c::reckonstile_metered(place.as_mut_ptr().cast(), Association::<SLOTS>::BYTES, settings, list.as_ptr(), list.len())
    };
    // SAFETY: on 0 every byte is written.
    (said, (said.number == 0).then(|| unsafe { place.assume_init_mut() }))
}

pub(crate) fn load<'a, const SLOTS: usize>(
    place: &'a mut MaybeUninit<Association<SLOTS>>,
    file: &[u8],
) -> (Loaded, Option<&'a mut Association<SLOTS>>) {
    held();
    // SAFETY: as for `new`, with the file in the list's place.
    let said =
        unsafe { c::reckonstile_load(place.as_mut_ptr().cast(), Association::<SLOTS>::BYTES, file.as_ptr(), file.len()) };
    // SAFETY: on 0 every byte is written.
    (said, (said.number == 0).then(|| unsafe { place.assume_init_mut() }))
}

/// A record made on the heap, where it stays: `make` is one of the three calls above.
#[cfg(feature = "std")]
pub(crate) fn boxed<const SLOTS: usize, T, E>(
    make: impl FnOnce(&mut MaybeUninit<Association<SLOTS>>) -> Result<T, E>,
) -> Result<(std::boxed::Box<Association<SLOTS>>, T), E> {
    let mut place = std::boxed::Box::new_uninit();
    let made = make(&mut place)?;
    // SAFETY: `make` was answered 0, so every byte is written.
    Ok((unsafe { place.assume_init() }, made))
}

pub(crate) fn profile(settings: Settings, list: &[u8]) -> u32 {
    held();
    // SAFETY: `list` is a pointer that is not null and its length, and nothing is written.
    unsafe { c::reckonstile_profile(settings, list.as_ptr(), list.len()) }
}

pub(crate) fn timer(record: &mut [u8], time: u64, desired: i8, id: u64, uid: [u8; 32], buffer: &mut [u8]) -> Timed {
    held();
    let uid = Uid { bytes: uid };
    // SAFETY: `record` and `buffer` are lent exclusively, so they do not overlap; of neither more than its length is written.
    unsafe {
        c::reckonstile_timer(record.as_mut_ptr(), record.len(), time, desired, id, uid, buffer.as_mut_ptr(), buffer.len())
    }
}

pub(crate) fn field_at(packet: &[u8], at: usize) -> Field {
    held();
    // SAFETY: the packet is only read, and `at` may be any number.
    unsafe { c::reckonstile_field_at(packet.as_ptr(), packet.len(), at) }
}

#[allow(clippy::too_many_arguments)]
pub(crate) fn reply(
    record: &mut [u8],
    packet: &[u8],
    end: usize,
    decrypted: &[u8],
    list: &[u8],
    t1: u64,
    t4: u64,
    time: u64,
) -> Replied {
    held();
    // SAFETY: `record` is lent exclusively, so none of the three slices, which are only read, overlaps with it.
    unsafe {
        c::reckonstile_reply(
            record.as_mut_ptr(),
            record.len(),
            packet.as_ptr(),
            packet.len(),
            end,
            decrypted.as_ptr(),
            decrypted.len(),
            list.as_ptr(),
            list.len(),
            t1,
            t4,
            time,
        )
    }
}

pub(crate) fn reply_decoded(record: &mut [u8], d: Decoded, list: &[u8], t1: u64, t4: u64, time: u64) -> Replied {
    held();
    // SAFETY: `record` is lent exclusively, so the list, which is only read, does not overlap with it.
    unsafe { c::reckonstile_reply_decoded(record.as_mut_ptr(), record.len(), d, list.as_ptr(), list.len(), t1, t4, time) }
}

pub(crate) fn accept(record: &[u8], stratum: u8, local: &[ReferenceId], bloom: u32) -> u32 {
    held();
    // SAFETY: both are only read; an identifier is a number (repr(transparent)), and the length counts them, as the call wants it.
    unsafe { c::reckonstile_accept(record.as_ptr(), record.len(), stratum, local.as_ptr().cast::<u32>(), local.len(), bloom) }
}

pub(crate) fn look(record: &[u8]) -> View {
    held();
    // SAFETY: the record is only read.
    unsafe { c::reckonstile_look(record.as_ptr(), record.len()) }
}

pub(crate) fn collect(decrypted: &[u8], out: &mut [u8]) -> Written {
    held();
    // SAFETY: `out` is lent exclusively, so it does not overlap with what is read; no more than its length is written.
    unsafe { c::reckonstile_collect(decrypted.as_ptr(), decrypted.len(), out.as_mut_ptr(), out.len()) }
}

pub(crate) fn save(record: &mut [u8], out: &mut [u8]) -> Written {
    held();
    // SAFETY: `record` and `out` are lent exclusively, so they do not overlap; of neither more than its length is written.
    unsafe { c::reckonstile_save(record.as_mut_ptr(), record.len(), out.as_mut_ptr(), out.len()) }
}

#[allow(clippy::too_many_arguments)]
pub(crate) fn write_request(
    kind: u8,
    poll: i8,
    id: u64,
    upgrademark: u64,
    uid: [u8; 32],
    cookie: &[u8],
    asked: u8,
    out: &mut [u8],
) -> Written {
    held();
    // SAFETY: `out` is lent exclusively, so it does not overlap with the cookie; no more than its length is written.
    unsafe {
        c::reckonstile_write_request(
            kind,
            poll,
            id,
            upgrademark,
            Uid { bytes: uid },
            cookie.as_ptr(),
            cookie.len(),
            asked,
            out.as_mut_ptr(),
            out.len(),
        )
    }
}

pub(crate) fn compare(left: &[u8], right: &[u8], out: &mut [u8]) -> Compared {
    held();
    // SAFETY: `out` is lent exclusively, so it does not overlap with the files; no more than its length is written.
    unsafe { c::reckonstile_compare(left.as_ptr(), left.len(), right.as_ptr(), right.len(), out.as_mut_ptr(), out.len()) }
}

pub(crate) fn salvage(list: &[u8], out: &mut [u8]) -> Salvaged {
    held();
    // SAFETY: `out` is lent exclusively, so it does not overlap with the list; no more than its length is written.
    unsafe { c::reckonstile_salvage(list.as_ptr(), list.len(), out.as_mut_ptr(), out.len()) }
}

pub(crate) fn check_calendar(cap: u8, starts: &[u16], repeats: &[u16]) -> Scheduled {
    held();
    // SAFETY: both are only read; the lengths count their numbers, as the call wants it.
    unsafe { c::reckonstile_check_calendar(cap, starts.as_ptr(), starts.len(), repeats.as_ptr(), repeats.len()) }
}

pub(crate) fn plan_calendar(cap: u8, repeats: &[u16], starts: &mut [u16]) -> Scheduled {
    held();
    // SAFETY: `starts` is lent exclusively, so it does not overlap with the repeats; no more than its length, in numbers, is written.
    unsafe { c::reckonstile_plan_calendar(cap, repeats.as_ptr(), repeats.len(), starts.as_mut_ptr(), starts.len()) }
}
