//! Operations, answers and the association's record in the terms of RULES; crate and rules are both brought to them.
pub use ntp_proto::ProtocolVersion as Version;
use std::net::IpAddr;

pub const UPGRADE_MARK: u64 = u64::from_be_bytes(*b"NTP5DRFT");
/// The most bytes that a slot of the stash stores.
pub const STORED: usize = 724;

#[derive(Debug, Clone)]
pub enum Op {
    New {
        nts: bool,
        min: i8,
        max: i8,
        startup: u8,
        window: u64,
        start: Version,
        source: IpAddr,
        cookies: Vec<Vec<u8>>,
        /// How many slots the stash uses; the crate's has eight (RULES, No. 12).
        capacity: u8,
    },
    /// `room` is the lent cookie buffer, if not the drill's default.
    Timer {
        now: u64,
        desired: i8,
        id: u64,
        uid: [u8; 32],
        room: Option<u16>,
    },
    /// With `fail` every decryption fails.
    Reply {
        now: u64,
        t1: u64,
        t4: u64,
        packet: Vec<u8>,
        fail: bool,
    },
    Accept {
        stratum: u8,
        local: Vec<IpAddr>,
        bloom: Bloom,
    },
    Poke(Vec<(&'static str, i64)>),
    /// The hand-over file is written (RULES, No. 6); `room` is the lent buffer, if not one that is always enough.
    Save {
        room: Option<u16>,
    },
    /// The association of a hand-over file takes the place of the one before. A file that is refused is loaded elsewhere, and the
    /// association goes on.
    Load {
        file: Vec<u8>,
    },
    /// Bytes of a copy of the record set by hand, each at a place of the longest record: calls are made with the copy, and the
    /// association goes on.
    Break(Vec<(usize, u8)>),
}

#[derive(Debug, Clone, Copy, PartialEq, Eq)]
pub enum Bloom {
    None,
    Absent,
    Present,
}

#[derive(Debug, Clone, PartialEq, Eq, Default)]
pub struct Answer {
    pub number: u8,
    pub sent: Option<Sent>,
    pub measured: Option<Measured>,
    /// Of `new` and of a measured reply: how many cookies fell out of the stash, and their lengths summed (RULES, No. 5).
    pub dropped: Option<(u64, u64)>,
    /// Of a save that is not refused: the hand-over file.
    pub file: Option<Vec<u8>>,
    /// Of a load that is not refused: whether the file had the retired version (RULES, No. 14).
    pub retired: Option<bool>,
}

#[derive(Debug, Clone, PartialEq, Eq)]
pub struct Sent {
    pub kind: &'static str,
    pub poll: i8,
    pub cookie: Vec<u8>,
    pub asked: u8,
}

#[derive(Debug, Clone, PartialEq, Eq)]
pub struct Measured {
    pub delay: i64,
    pub offset: i64,
    pub local: u64,
    pub mono: u64,
    pub stratum: u8,
    pub root_delay: i64,
    pub root_dispersion: i64,
    /// The drill's code: 0 no warning, 1 leap 61, 2 leap 59, 3 unknown, 4 unsynchronized.
    pub leap: u8,
    pub precision: i8,
}

/// A reply in decoded form: what the crate draws from a V5 packet, and what the rules read off a V3 or V4 one.
#[derive(Debug, Clone, PartialEq, Eq)]
pub struct Decoded {
    pub leap: u8,
    pub response: bool,
    pub stratum: u8,
    pub poll: i8,
    pub precision: i8,
    pub root_delay: i64,
    pub root_dispersion: i64,
    pub receive: u64,
    pub transmit: u64,
    /// Client cookie of V5, origin timestamp of V3 and V4.
    pub identifier: u64,
    /// RATE, DENY, RSTR, NTSN, any.
    pub kiss: [bool; 5],
    /// Authenticated, encrypted, untrusted: none if absent, else whether all agree.
    pub uid: [Option<bool>; 3],
}

#[derive(Debug, Clone, PartialEq, Eq)]
pub struct State {
    pub reach: u8,
    pub tries: u8,
    pub version: Version,
    pub last: i8,
    pub remote: i8,
    /// Identifier, uid, deadline.
    pub pending: Option<(u64, [u8; 32], u64)>,
    /// A reply was measured since the last sent poll (RULES, No. 3). The crate keeps no such fact; its own actions tell it.
    pub answered: bool,
    /// Polls since the last that was answered, 0 to 8 (RULES, No. 8). The crate counts it from its reach.
    pub unanswered: u8,
    pub denial: bool,
    pub stratum: u8,
    pub refid: u32,
    pub read: usize,
    /// Oldest first: the length, and the stored bytes, which are none where the length is over 724.
    pub cookies: Vec<(usize, Vec<u8>)>,
    /// A setting, which the record shows. The crate has none such; here it has what `new` was given.
    pub capacity: u8,
}

/// Reach set by hand, with the unanswered polls that go with it: set alone, it would make the record not whole, of which the
/// crate knows nothing.
pub fn reach(value: u8) -> [(&'static str, i64); 2] {
    [("reach", value as i64), ("unanswered", value.trailing_zeros() as i64)]
}

pub fn stored(cookie: &[u8]) -> (usize, Vec<u8>) {
    (cookie.len(), if cookie.len() > STORED { vec![] } else { cookie.to_vec() })
}

/// Bytes as the drill writes them: hexadecimal, `-` for none.
pub fn bytes(b: &[u8]) -> String {
    if b.is_empty() { "-".into() } else { hex(b) }
}

pub fn hex(b: &[u8]) -> String {
    const DIGITS: &[u8; 16] = b"0123456789abcdef";
    let mut s = String::with_capacity(b.len() * 2);
    for x in b {
        s.push(DIGITS[(x >> 4) as usize] as char);
        s.push(DIGITS[(x & 15) as usize] as char);
    }
    s
}

/// The cookies as a cookie list: mark, length, bytes of each.
pub fn list(cookies: &[Vec<u8>]) -> Vec<u8> {
    let mut out = vec![];
    for c in cookies {
        out.extend([0xC0, 0x0E]);
        out.extend((c.len() as u16).to_be_bytes());
        out.extend(c);
    }
    out
}
