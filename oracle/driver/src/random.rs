//! Random operations from a seed, within the drill's limits.
use crate::both::Step;
use crate::state::*;
use crate::whole;
use ntp_proto::tls_utils::FakeCipher;
use std::net::{IpAddr, Ipv4Addr, Ipv6Addr};

/// The drill holds packets, decrypted bytes and cookie lists of at most this many bytes.
pub const HELD: usize = 4096;

/// Choices: random ones of SplitMix64, or those that bytes make.
pub struct Rng {
    state: u64,
    fed: Option<Fed>,
}

struct Fed {
    bytes: Vec<u8>,
    at: usize,
}

/// The least byte that says that what follows is said as it is.
const LITERAL: u64 = 224;

impl Rng {
    pub fn of(seed: u64) -> Self {
        Rng { state: seed.wrapping_mul(0xd1342543de82ef95) ^ 0x6f7261636c65, fed: None }
    }
    /// Choices that bytes make, for a search that changes the bytes; behind their end every choice is the first.
    pub fn fed(bytes: &[u8]) -> Self {
        Rng { state: 0, fed: Some(Fed { bytes: bytes.to_vec(), at: 0 }) }
    }
    /// The bytes are used up.
    pub fn ended(&self) -> bool {
        self.fed.as_ref().is_some_and(|f| f.at >= f.bytes.len())
    }
    /// Whether what follows is said as it is, and not chosen: the logs of the drill are told so (`literal`).
    pub fn literal(&mut self) -> bool {
        self.fed.is_some() && self.byte() >= LITERAL
    }
    /// So many bytes as they are.
    pub fn raw<const N: usize>(&mut self) -> [u8; N] {
        std::array::from_fn(|_| self.byte() as u8)
    }
    /// Bytes as they are, with their number before them; no more than there are.
    pub fn blob(&mut self, most: usize) -> Vec<u8> {
        let n = u16::from_be_bytes(self.raw()) as usize % (most + 1);
        let left = self.fed.as_ref().map_or(0, |f| f.bytes.len().saturating_sub(f.at));
        (0..n.min(left)).map(|_| self.byte() as u8).collect()
    }
    fn byte(&mut self) -> u64 {
        self.fed.as_mut().map_or(0, |f| {
            f.at += 1;
            f.bytes.get(f.at - 1).copied().unwrap_or(0) as u64
        })
    }
    fn mixed(&mut self) -> u64 {
        self.state = self.state.wrapping_add(0x9e3779b97f4a7c15);
        let mut z = self.state;
        z = (z ^ (z >> 30)).wrapping_mul(0xbf58476d1ce4e5b9);
        z = (z ^ (z >> 27)).wrapping_mul(0x94d049bb133111eb);
        z ^ (z >> 31)
    }
    /// 64 bits. Fed, one byte stands for a number that it is mixed into; the largest is followed by all eight.
    pub fn next(&mut self) -> u64 {
        if self.fed.is_none() {
            return self.mixed();
        }
        match self.byte() {
            255 => (0..8).fold(0, |n, _| n << 8 | self.byte()),
            seed => {
                self.state = seed;
                self.mixed()
            }
        }
    }
    pub fn below(&mut self, n: u64) -> u64 {
        match self.fed {
            None => self.mixed() % n,
            Some(_) if n <= 1 << 8 => self.byte() % n,
            Some(_) if n <= 1 << 16 => (self.byte() << 8 | self.byte()) % n,
            Some(_) => self.next() % n,
        }
    }
    pub fn one_in(&mut self, n: u64) -> bool {
        self.below(n) == 0
    }
    pub fn pick<T: Copy>(&mut self, s: &[T]) -> T {
        s[self.below(s.len() as u64) as usize]
    }
    pub fn bytes(&mut self, n: usize) -> Vec<u8> {
        let mut v = Vec::with_capacity(n + 8);
        if self.fed.is_some() {
            // One byte makes them all, so that an input has room for more than bytes that nobody looks at.
            self.state = self.byte();
        }
        while v.len() < n {
            v.extend(self.mixed().to_be_bytes());
        }
        v.truncate(n);
        v
    }
    pub fn array<const N: usize>(&mut self) -> [u8; N] {
        self.bytes(N).try_into().unwrap()
    }
}

/// What is generated.
#[derive(Clone, Copy, Default)]
pub struct Manner {
    /// Fields of odd lengths and types, odd tails: where part 7 and the crate differ.
    pub wild: bool,
    /// Numbers of the record set by hand between the steps.
    pub set: bool,
    /// With NTS always or never, or as it falls.
    pub nts: Option<bool>,
    /// Short cookies only, for a log that is kept.
    pub small: bool,
    /// Settings and first cookies that meet the metered profile (RULES, No. 11).
    pub metered: bool,
    /// Stashes of a capacity from 1 to 8 (RULES, No. 12), instead of the crate's 8.
    pub capacity: bool,
    /// Hand-over files are written and loaded between the steps (RULES, No. 6), right ones and damaged ones.
    pub handover: bool,
    /// Copies of the record are broken by hand between the steps.
    pub broken: bool,
    /// Fields of every type that the crate knows, among those that are decrypted too.
    pub typed: bool,
}

pub struct Random {
    pub r: Rng,
    manner: Manner,
    now: u64,
    base: u64,
    nts: bool,
    source: IpAddr,
    sent: Vec<(u64, [u8; 32])>,
    pending: Option<(u64, [u8; 32], u64)>,
    version: Version,
    unanswered: u8,
    stratum: u8,
    refid: u32,
    denial: bool,
    previous: Option<Vec<u8>>,
    /// The remote minimum was just set to 127, where RATE has an edge.
    rate_next: bool,
    /// The hand-over file last written, and whether it waits to be loaded.
    file: Vec<u8>,
    waits: bool,
}

/// The reference identifier that a new association and a V5 reply leave in the record.
const XNON: u32 = u32::from_be_bytes(*b"XNON");
const LENGTHS: [usize; 18] = [0, 1, 4, 15, 16, 64, 88, 90, 91, 92, 100, 104, 180, 362, 363, 724, 725, 1000];
const SHORT_LENGTHS: [usize; 8] = [0, 1, 4, 16, 24, 90, 91, 100];

impl Random {
    pub fn new(seed: u64, manner: Manner) -> Self {
        Self::of(Rng::of(seed), manner)
    }

    pub fn of(mut r: Rng, manner: Manner) -> Self {
        let base = r.next();
        Random {
            r,
            manner,
            now: 0,
            base,
            nts: false,
            source: IpAddr::V4(Ipv4Addr::UNSPECIFIED),
            sent: vec![],
            pending: None,
            version: Version::V4,
            unanswered: 8,
            stratum: 16,
            refid: XNON,
            denial: false,
            previous: None,
            rate_next: false,
            file: vec![],
            waits: false,
        }
    }

    /// Up to `most` cookies, with their headers at most `room` bytes; in a V4 field a length is a multiple of 4.
    fn cookies(&mut self, most: u64, field: bool, mut room: usize) -> Vec<Vec<u8>> {
        let mut out = vec![];
        for _ in 0..self.r.below(most + 1) {
            let mut n = match (self.r.one_in(2), self.manner.small) {
                (true, false) => 100,
                (false, false) => self.r.pick(&LENGTHS),
                (true, true) => 16,
                (false, true) => self.r.pick(&SHORT_LENGTHS),
            };
            if field {
                n = n / 4 * 4;
            }
            if n + 4 > room {
                break;
            }
            room -= n + 4;
            out.push(self.r.bytes(n));
        }
        out
    }

    /// One of the versions that stay (RULES, No. 14).
    fn version(&mut self) -> Version {
        self.r.pick(&[Version::V4, Version::V4, Version::UpgradedToV5, Version::UpgradedToV5, Version::V5])
    }

    fn address(&mut self) -> IpAddr {
        if self.r.one_in(4) {
            IpAddr::V6(Ipv6Addr::from(self.r.array::<16>()))
        } else {
            IpAddr::V4(Ipv4Addr::from(self.r.array::<4>()))
        }
    }

    /// The operation that begins a case.
    pub fn first(&mut self) -> Op {
        if self.r.literal() {
            return self.literal_first();
        }
        let min = self.r.below(18) as i8;
        let max = min + self.r.below(18 - min as u64) as i8;
        let (min, max) = if self.r.one_in(2) { (4, 10) } else { (min, max) };
        self.nts = self.manner.nts.unwrap_or(self.r.one_in(2));
        self.source = self.address();
        self.now = self.r.pick(&[0, 1000, 1 << 40, u64::MAX - 3_000_000_000, u64::MAX]);
        let window = if self.r.one_in(2) { 5_000_000_000 } else { self.r.pick(&[1, 5000, 60_000_000_000]) };
        let startup = if self.r.one_in(2) { 3 } else { 1 + self.r.below(8) as u8 };
        let start = self.version();
        let mut cookies = if self.nts { self.cookies(11, false, HELD) } else { vec![] };
        let (min, max, startup) = if self.manner.metered {
            cookies.iter_mut().for_each(|c| c.truncate(100));
            (min.max(8), max.max(8), startup.min(3))
        } else {
            (min, max, startup)
        };
        let capacity = if self.manner.capacity { 1 + self.r.below(8) as u8 } else { 8 };
        Op::New { nts: self.nts, min, max, startup, window, start, source: self.source, cookies, capacity }
    }

    /// Keeps up with what happened.
    pub fn saw(&mut self, step: &Step) {
        let (answer, s) = &step.of_rules;
        if let Some(file) = &answer.file {
            (self.file, self.waits) = (file.clone(), true);
        }
        if let Some(loaded) = &step.loaded {
            (self.nts, self.source, self.waits) = (loaded.nts, IpAddr::V4(Ipv4Addr::from(loaded.source)), false);
        }
        if answer.number == 20
            && let Some((id, uid, _)) = s.pending
        {
            self.sent.push((id, uid));
        }
        self.pending = s.pending;
        self.version = s.version;
        self.unanswered = s.unanswered;
        self.stratum = s.stratum;
        self.refid = s.refid;
        self.denial = s.denial;
    }

    pub fn next(&mut self) -> Op {
        if self.r.literal() {
            return self.literal_next();
        }
        let timers = if self.pending.is_none() { 12 } else { 5 };
        if self.manner.handover && self.r.one_in(if self.waits { 2 } else { 12 }) {
            return self.handover();
        }
        if self.manner.broken && self.r.one_in(2) {
            return self.broken();
        }
        match self.r.below(20) {
            _ if self.rate_next => self.reply(),
            // Only a hand-over file brings an upgraded association with polls answered; its reach is set here as that would.
            _ if self.version == Version::UpgradedToV5 && self.unanswered >= 2 && !self.r.one_in(8) => self.answered_poll(),
            // After a denial the polls often stay unanswered.
            _ if self.denial && !self.r.one_in(3) => self.timer(),
            19 => self.accept(),
            18 if self.manner.set && self.r.one_in(3) => self.poke(),
            n if n < timers => self.timer(),
            _ => self.reply(),
        }
    }

    fn timer(&mut self) -> Op {
        self.now = if self.r.one_in(20) {
            self.r.below(self.now.max(1))
        } else {
            self.now.saturating_add(self.r.below(20_000_000_000))
        };
        let desired = if self.r.one_in(10) { self.r.next() as i8 } else { self.r.below(18) as i8 };
        let desired = if self.r.one_in(30) { self.r.pick(&[126, 127, -128]) } else { desired };
        let id = if self.r.one_in(30) { self.sent.last().map_or(0, |s| s.0) } else { self.r.next() };
        let uid = if self.r.one_in(30) { [0; 32] } else { self.r.array() };
        let room = if self.r.one_in(4) { Some(self.r.pick(&[724, 725, 1000, 1024])) } else { None };
        Op::Timer { now: self.now, desired, id, uid, room }
    }

    fn accept(&mut self) -> Op {
        let mut local: Vec<IpAddr> = (0..self.r.below(3)).map(|_| self.address()).collect();
        // Own identifier, reported one and XNON each by itself or beside others: every way in which a loop is told or not.
        let reported = IpAddr::V4(Ipv4Addr::from(self.refid));
        for (address, often) in [(self.source, 3), (reported, 3), (IpAddr::V4(Ipv4Addr::from(XNON)), 8)] {
            if self.r.one_in(often) {
                let at = self.r.below(local.len() as u64 + 1) as usize;
                local.insert(at, address);
            }
        }
        let (s, above) = (self.stratum, self.stratum.saturating_add(1));
        let stratum = self.r.pick(&[16, 16, 0, 1, 2, 5, 10, 17, 255, s, above]);
        Op::Accept { stratum, local, bloom: self.r.pick(&[Bloom::None, Bloom::None, Bloom::Absent, Bloom::Present]) }
    }

    fn poke(&mut self) -> Op {
        let all = [
            ("reach", self.r.next() as u8 as i64),
            ("reach", self.r.pick(&[0, 1, 128])),
            ("tries", self.r.below(256) as i64),
            ("tries", self.r.pick(&[0, 254, 255])),
            ("stratum", self.r.next() as u8 as i64),
            ("stratum", self.r.pick(&[0, 1, 2, 16])),
            ("last", self.r.next() as i8 as i64),
            ("remote", self.r.pick(&[127, 126, 12, -128, -1, 0, 5, 17, 18])),
        ];
        let mut pairs: Vec<_> = all.into_iter().filter(|_| self.r.one_in(2)).collect();
        if pairs.is_empty() {
            pairs.push(all[7]);
        }
        pairs = pairs.into_iter().flat_map(|p| if p.0 == "reach" { reach(p.1 as u8).to_vec() } else { vec![p] }).collect();
        // Beside a pending request it would make the record not whole, of which the crate knows nothing.
        if self.pending.is_none() && self.r.one_in(2) {
            pairs.push(("answered", self.r.below(2) as i64));
        }
        self.rate_next = pairs.contains(&("remote", 127));
        Op::Poke(pairs)
    }

    /// A file is written, or the last one is loaded: as it is, as an older box wrote it, or damaged.
    fn handover(&mut self) -> Op {
        if self.file.is_empty() || !self.waits && self.r.one_in(2) {
            let room = if self.r.one_in(6) { Some(self.r.pick(&[0, 63, 64, 100, 1000, 5871])) } else { None };
            return Op::Save { room };
        }
        let mut file = self.file.clone();
        let length = file.len() as u64;
        match self.r.below(14) {
            // An older box has no capacity in its settings.
            0 => {
                file[3] = 26;
                file.remove(30);
            }
            1 => file.truncate(self.r.below(length) as usize),
            2 => file.extend(vec![0; 1 + self.r.below(3) as usize]),
            // A version of another kind, as start version or as version, behind whose mark it stands.
            3 => {
                let at = file.windows(4).position(|w| w == b"VE\0\x02").map_or(23, |at| at + 4);
                let at = if self.r.one_in(2) { 23 } else { at };
                file[at] = self.r.below(5) as u8;
                file[at + 1] = self.r.pick(&[0, 0, 1, 8, 255]);
            }
            // One byte, mostly of what stands at a place that every file has.
            4..=6 => {
                let most = if self.r.one_in(2) { length } else { length.min(40) };
                let at = self.r.below(most) as usize;
                file[at] = if self.r.one_in(2) { self.r.next() as u8 } else { file[at] ^ 1 << self.r.below(8) };
            }
            7 => {
                let end = length as usize - 1 - self.r.below(28) as usize;
                file[end] = self.r.next() as u8;
            }
            8 | 9 => self.another_length(&mut file),
            _ => {}
        }
        Op::Load { file }
    }

    /// A record of a file gets another length: with a byte more or less in its body, without, or with no body at all; or another mark; or
    /// the file ends within its head, with its mark or another.
    fn another_length(&mut self, file: &mut Vec<u8>) {
        let (mut heads, mut at) = (vec![], 0);
        while at < file.len() {
            heads.push(at);
            at += 4 + u16::from_be_bytes([file[at + 2], file[at + 3]]) as usize;
        }
        let head = self.r.pick(&heads);
        let n = u16::from_be_bytes([file[head + 2], file[head + 3]]);
        let n = match self.r.below(7) {
            6 => {
                file.truncate(head + self.r.below(4) as usize);
                let other = self.r.one_in(2);
                file[head..].iter_mut().take(1).filter(|_| other).for_each(|byte| *byte ^= 1);
                return;
            }
            0 => {
                file.insert(head + 4 + n as usize, self.r.next() as u8);
                n + 1
            }
            1 => {
                file.remove(head + 3 + n as usize);
                n - 1
            }
            2 => n + 1,
            3 => n - 1,
            4 => {
                file.drain(head + 4..head + 4 + n as usize);
                0
            }
            _ => {
                let other = self.r.pick(&heads);
                (file[head], file[head + 1]) = (file[other], file[other + 1]);
                n
            }
        };
        file[head + 2..head + 4].copy_from_slice(&n.to_be_bytes());
    }

    /// A byte of a copy of the record, now and then two: mostly one of its numbers, by a bit or to an edge.
    fn broken(&mut self) -> Op {
        let count = if self.r.one_in(4) { 2 } else { 1 };
        let bytes = (0..count).map(|_| {
            let place = whole::HEAD + whole::ROW * self.r.below(8) as usize;
            let at = match self.r.below(8) {
                0 => place + self.r.below(whole::ROW as u64) as usize,
                1 => place + STORED + self.r.below(2) as usize,
                _ => self.r.below(whole::HEAD as u64) as usize,
            };
            let value = if self.r.one_in(2) {
                self.r.pick(&[0, 1, 2, 3, 4, 7, 8, 9, 10, 17, 18, 127, 128, 255])
            } else {
                self.r.next() as u8
            };
            (at, value)
        });
        Op::Break(bytes.collect())
    }

    /// The last poll was answered, or the one before it.
    fn answered_poll(&mut self) -> Op {
        let older = self.r.next() as u8;
        Op::Poke(reach(if self.r.one_in(4) { older << 2 | 2 } else { older | 1 }).to_vec())
    }

    fn time(&mut self) -> u64 {
        match self.r.below(12) {
            0 => self.r.next(),
            1 => self.r.pick(&[0, 1, u64::MAX, 1 << 63, (1 << 63) - 1]),
            _ => self.base.wrapping_add(self.r.below(1 << 34)),
        }
    }

    /// A uid as a server returns it, now and then damaged, cut or with more behind it.
    fn uid(&mut self, uid: [u8; 32]) -> Vec<u8> {
        let mut u = uid.to_vec();
        match self.r.below(24) {
            0 => u[self.r.below(32) as usize] ^= 1,
            1 => u.truncate(28),
            2 => u.extend([9; 8]),
            _ => {}
        }
        u
    }

    fn reply(&mut self) -> Op {
        const KINDS: [&str; 24] = [
            "good",
            "good",
            "good",
            "good",
            "good",
            "good",
            "late",
            "edge",
            "doubled",
            "older",
            "forged",
            "version",
            "rate",
            "rate",
            "deny",
            "rstr",
            "ntsn",
            "kiss",
            "stratum",
            "mode",
            "damaged",
            "upgrade",
            "upgrade-kiss",
            "cipher-fails",
        ];
        let (id, uid, deadline) = self.pending.unwrap_or_else(|| {
            let (i, u) = self.sent.last().copied().unwrap_or((1, [0; 32]));
            (i, u, self.now)
        });
        let kind = if std::mem::take(&mut self.rate_next) { "rate" } else { self.r.pick(&KINDS) };
        let now = match kind {
            "late" => deadline.saturating_add(1 + self.r.below(3)),
            "edge" => deadline,
            _ if self.r.one_in(30) => self.r.next(),
            _ => self.now.saturating_add(self.r.below(1000)).min(deadline),
        };
        let (t1, t4) = (self.time(), self.time());
        if kind == "doubled"
            && let Some(packet) = self.previous.clone()
        {
            return Op::Reply { now, t1, t4, packet, fail: false };
        }
        let mut version = match self.version {
            Version::V4 if self.r.one_in(4) => 3,
            Version::V4 => 4,
            _ => 5,
        };
        if self.nts && version == 3 && !self.r.one_in(8) {
            version = 4;
        }
        if kind == "version" {
            version = self.r.below(8) as u8;
        }
        let (mut origin, mut uid) = (id, uid);
        match kind {
            "older" if !self.sent.is_empty() => {
                let i = self.r.below(self.sent.len() as u64) as usize;
                (origin, uid) = self.sent[i];
            }
            "forged" if self.r.one_in(2) => origin ^= 1 << self.r.below(64),
            "forged" => origin = self.r.next(),
            _ => {}
        }
        let mut p = self.header(kind, version, origin);
        let mut fail = kind == "cipher-fails";
        if version == 4 || version == 5 {
            self.fields(&mut p, kind, version, uid, &mut fail);
        }
        if version != 5 && self.r.one_in(8) {
            let n = if self.manner.wild { self.r.below(33) as usize } else { 20 + 4 * self.r.below(2) as usize };
            let tail = self.r.bytes(n);
            p.extend(tail);
        }
        if kind == "damaged" {
            match self.r.below(4) {
                0 => p.truncate(self.r.below(p.len() as u64) as usize),
                1 => p.truncate(self.r.pick(&[47, 48])),
                _ => {
                    let i = self.r.below(p.len() as u64) as usize;
                    p[i] ^= 1 << self.r.below(8);
                }
            }
        }
        assert!(p.len() <= HELD);
        self.previous = Some(p.clone());
        Op::Reply { now, t1, t4, packet: p, fail }
    }

    fn header(&mut self, kind: &str, version: u8, origin: u64) -> Vec<u8> {
        let mode = match (kind, version) {
            ("mode", 5) => 3,
            ("mode", _) => self.r.pick(&[0, 1, 2, 3, 5, 6, 7]),
            _ => 4,
        };
        let mut stratum = if self.r.one_in(10) { 16 } else { 1 + self.r.below(15) as u8 };
        let mut refid: [u8; 4] =
            if self.r.one_in(8) { *self.r.pick(&[b"RATE", b"DENY", b"XNON", b"NTSN"]) } else { self.r.array() };
        let mut poll = self.r.below(18) as u8;
        if self.r.one_in(12) {
            poll = self.r.next() as u8;
        }
        if self.r.one_in(40) {
            poll = 127;
        }
        let mut refts = self.r.next();
        let mut flags = if self.r.one_in(4) { self.r.below(4) as u8 } else { 1 };
        match kind {
            "rate" => (stratum, refid, poll) = (0, *b"RATE", self.r.pick(&[17u8, 10, 6, 20, 126, 127])),
            "deny" => (stratum, refid, poll) = (0, *b"DENY", 127),
            "rstr" => (stratum, refid, poll) = (0, *b"RSTR", 127),
            "ntsn" => (stratum, refid, poll, flags) = (0, *b"NTSN", 0, flags | 4),
            "kiss" => (stratum, poll, refid) = (0, 0, *self.r.pick(&[b"INIT", b"XNON", b"\0\0\0\0", b"rate"])),
            "stratum" => stratum = if self.r.one_in(4) { 17 } else { 17 + self.r.below(239) as u8 },
            "upgrade" => refts = UPGRADE_MARK,
            "upgrade-kiss" => {
                (refts, stratum) = (UPGRADE_MARK, 0);
                refid = *self.r.pick(&[b"NTSN", b"RATE", b"DENY", b"INIT"]);
            }
            _ => {}
        }
        let mut p = vec![(self.r.below(4) as u8) << 6 | version << 3 | mode, stratum, poll, self.r.next() as u8];
        p.extend(self.r.bytes(8));
        if version == 5 {
            p.extend([self.r.below(4) as u8, self.r.next() as u8, 0, flags]);
            p.extend(self.r.bytes(8));
        } else {
            p.extend(refid);
            p.extend(refts.to_be_bytes());
        }
        p.extend(origin.to_be_bytes());
        p.extend(self.time().to_be_bytes());
        p.extend(self.time().to_be_bytes());
        p
    }

    fn fields(&mut self, p: &mut Vec<u8>, kind: &str, version: u8, uid: [u8; 32], fail: &mut bool) {
        let wild = self.manner.wild;
        if version == 5 && !self.r.one_in(40) {
            // Length 27 in the header, padded to 28 on the wire.
            p.extend([0xF5, 0xFF, 0, 27]);
            p.extend(b"draft-ietf-ntp-ntpv5-08\0");
        }
        let unsealed = matches!(kind, "ntsn" | "upgrade-kiss") && self.r.one_in(2);
        if self.nts || self.r.one_in(6) {
            if !self.r.one_in(12) {
                field(p, 0x0104, &self.uid(uid), 16);
            }
            if self.r.one_in(12) {
                field(p, 0x0104, &self.uid(uid), 16);
            }
            if self.r.one_in(8) {
                let n = self.r.below(40) as usize;
                field(p, 0x2323, &self.r.bytes(n), 16);
            }
        }
        if wild && self.r.one_in(4) {
            let n = self.r.below(7) as usize * 4;
            let body = if self.r.one_in(3) { vec![0; n] } else { self.r.bytes(n) };
            field(p, self.r.pick(&[0x0104, 0x0204, 0x0304, 0x1111, 0xF501, 0xF5FF]), &body, 0);
        }
        if self.manner.typed && self.r.one_in(2) {
            self.typed(p);
        }
        if self.manner.typed && self.r.one_in(20) {
            // Too short for the lengths of nonce and text.
            p.extend([4, 4, 0, 4]);
        }
        if wild && self.r.one_in(16) {
            // A field that says a wrong length.
            let n: u16 = self.r.pick(&[0, 1, 3, 4, 5, 15, 16, 17, 18, 24, 25, 28, 65532, 65535]);
            p.extend([0x11, 0x11]);
            p.extend(n.to_be_bytes());
            let more = self.r.below(8) as usize * 4;
            p.extend(self.r.bytes(more));
        }
        if self.nts && !unsealed && !self.r.one_in(20) || self.r.one_in(60) {
            let mut plain = vec![];
            if self.r.one_in(10) {
                field(&mut plain, 0x0104, &self.uid(uid), 0);
            }
            let most = self.r.pick(&[1, 3, 8, 11]);
            for c in self.cookies(most, version == 4, 3000) {
                field(&mut plain, 0x0204, &c, 0);
            }
            if self.r.one_in(10) {
                field(&mut plain, 0x0304, &[0; 8], 0);
            }
            if wild && self.r.one_in(6) {
                field(&mut plain, self.r.pick(&[0x0304, 0x0404, 0x0204]), &self.r.bytes(8), 0);
                if self.r.one_in(3) {
                    let n = self.r.below(6) as usize;
                    plain.extend(self.r.bytes(n));
                }
            }
            if self.manner.typed && self.r.one_in(3) {
                self.typed(&mut plain);
            }
            seal(p, &plain);
            if self.r.one_in(12) {
                if self.r.one_in(3) {
                    field(p, 0x0104, &self.uid(uid), 16);
                }
                let mut more = vec![];
                if self.r.one_in(2) {
                    field(&mut more, 0x0204, &self.r.bytes(100), 0);
                }
                seal(p, &more);
                if self.r.one_in(4) {
                    let n = p.len();
                    p[n - 20] ^= 1;
                }
            }
        } else if self.r.one_in(2) {
            *fail = false;
        }
        if self.r.one_in(8) {
            field(p, 0x0104, &self.uid(uid), 28);
        }
    }
}

impl Random {
    /// A field of any type that the crate knows, or of one that it does not. What answers the request for a piece of the Bloom filter
    /// has 16 bytes.
    fn typed(&mut self, p: &mut Vec<u8>) {
        let ty = self.r.pick(&[0x0304, 0x2323, 0xF501, 0xF503, 0xF504, 0xF504, 0xF5FF]);
        let n = if self.r.one_in(2) { 16 } else { 4 * self.r.below(8) as usize };
        let zero = ty == 0x0304 && !self.r.one_in(4);
        let body = if zero { vec![0; n] } else { self.r.bytes(n) };
        field(p, ty, &body, 0);
    }
}

/// Operations that the bytes say as they are; `side::corpus` writes them so.
impl Random {
    fn literal_first(&mut self) -> Op {
        let r = &mut self.r;
        let [min, max, startup, start, capacity, count] = r.raw();
        let min = min % 18;
        let (min, max) = (min as i8, (min + max % (18 - min)) as i8);
        let window = 1 + u64::from_be_bytes(r.raw()) % 60_000_000_000;
        let source = IpAddr::V4(Ipv4Addr::from(r.raw::<4>()));
        let start = [Version::V4, Version::UpgradedToV5, Version::V5][start as usize % 3];
        self.nts = self.manner.nts.unwrap_or(false);
        self.source = source;
        let (mut cookies, mut room) = (vec![], HELD);
        for _ in 0..if self.nts { count % 12 } else { 0 } {
            let cookie = self.r.blob(1000);
            if cookie.len() + 4 > room {
                break;
            }
            room -= cookie.len() + 4;
            cookies.push(cookie);
        }
        let startup = 1 + startup % 8;
        let (min, max, startup) = if self.manner.metered {
            cookies.iter_mut().for_each(|c| c.truncate(100));
            (min.max(8), max.max(8), startup.min(3))
        } else {
            (min, max, startup)
        };
        let capacity = if self.manner.capacity { 1 + capacity % 8 } else { 8 };
        Op::New { nts: self.nts, min, max, startup, window, start, source, cookies, capacity }
    }

    fn literal_next(&mut self) -> Op {
        let r = &mut self.r;
        let [kind] = r.raw();
        match kind % 7 {
            0 => {
                self.now = u64::from_be_bytes(r.raw());
                let [desired, room] = r.raw();
                let (id, uid) = (u64::from_be_bytes(r.raw()), r.raw());
                let room = [None, Some(724), Some(725), Some(1000), Some(1024)][room as usize % 5];
                Op::Timer { now: self.now, desired: desired as i8, id, uid, room }
            }
            1 => {
                let [now, t1, t4] = [(); 3].map(|()| u64::from_be_bytes(r.raw()));
                let [fail] = r.raw();
                Op::Reply { now, t1, t4, packet: r.blob(HELD), fail: fail & 1 == 1 }
            }
            2 => {
                let [stratum, bloom, count] = r.raw();
                let local = (0..count % 4).map(|_| IpAddr::V4(Ipv4Addr::from(r.raw::<4>()))).collect();
                Op::Accept { stratum, local, bloom: [Bloom::None, Bloom::Absent, Bloom::Present][bloom as usize % 3] }
            }
            3 => {
                let [key, value] = r.raw();
                Op::Poke(match POKES[key as usize % POKES.len()] {
                    "reach" => reach(value).to_vec(),
                    // Beside a pending request it would make the record not whole.
                    "answered" if self.pending.is_some() => vec![],
                    "answered" => vec![("answered", (value & 1) as i64)],
                    key @ ("last" | "remote") => vec![(key, value as i8 as i64)],
                    key => vec![(key, value as i64)],
                })
            }
            4 => {
                let [room] = r.raw();
                Op::Save { room: [None, Some(0), Some(63), Some(64), Some(1000), Some(5871)][room as usize % 6] }
            }
            5 => Op::Load { file: r.blob(8192) },
            _ => {
                let [high, low, value] = r.raw();
                Op::Break(vec![(u16::from_be_bytes([high, low]) as usize % whole::LONGEST, value)])
            }
        }
    }
}

/// The numbers that are set by hand, by their place in an input.
pub const POKES: [&str; 6] = ["reach", "tries", "stratum", "last", "remote", "answered"];

/// A field of at least `least` bytes, padded with zeros to a multiple of 4.
pub fn field(out: &mut Vec<u8>, ty: u16, body: &[u8], least: usize) {
    let n = (body.len() + 4).max(least).next_multiple_of(4);
    let start = out.len();
    out.extend(ty.to_be_bytes());
    out.extend((n as u16).to_be_bytes());
    out.extend(body);
    out.resize(start + n, 0);
}

/// A 0404 field that the driver's cipher decrypts to `plain`.
pub fn seal(out: &mut Vec<u8>, plain: &[u8]) {
    let nonce = [7u8; 16];
    let tag = FakeCipher::tag(&nonce, out, plain);
    let mut body = vec![0, 16];
    body.extend(((plain.len() + 16) as u16).to_be_bytes());
    body.extend(nonce);
    body.extend(tag);
    body.extend(plain);
    field(out, 0x0404, &body, 16);
}
