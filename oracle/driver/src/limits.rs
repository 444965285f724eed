//! Cases made by hand on either side of each edge, with the crate's answers.
use crate::both::Both;
use crate::drill::Log;
use crate::random::{field, seal};
use crate::state::*;
use ntp_proto::tls_utils::{FakeCipher, identifier_of};
use std::net::{IpAddr, Ipv4Addr, Ipv6Addr};

const ID: u64 = 0x0102030405060708;
const UID: [u8; 32] = *b"\x00\x01\x02\x03\x04\x05\x06\x07\x08\x09\x0a\x0b\x0c\x0d\x0e\x0f\x10\x11\x12\x13\x14\x15\x16\x17\x18\x19\x1a\x1b\x1c\x1d\x1e\x1f";
const SECOND: u64 = 1 << 32;

/// The header of a reply, answering ID with stratum 2 unless told otherwise.
#[derive(Clone, Copy)]
struct Header {
    version: u8,
    leap: u8,
    mode: u8,
    stratum: u8,
    poll: i8,
    /// Reference identifier; of V5 timescale, era and flags.
    refid: [u8; 4],
    refts: u64,
    receive: u64,
    transmit: u64,
}

const V4: Header = Header {
    version: 4,
    leap: 0,
    mode: 4,
    stratum: 2,
    poll: 6,
    refid: [192, 0, 2, 1],
    refts: 0,
    receive: 2 * SECOND,
    transmit: 3 * SECOND,
};
/// Synchronised, UTC.
const V5: Header = Header { version: 5, refid: [0, 0, 0, 1], ..V4 };

impl Header {
    fn bytes(&self) -> Vec<u8> {
        let mut p = vec![self.leap << 6 | self.version << 3 | self.mode, self.stratum, self.poll as u8, 0xec];
        p.extend([0, 0, 1, 0, 0, 0, 2, 0]);
        p.extend(self.refid);
        for t in [self.refts, ID, self.receive, self.transmit] {
            p.extend(t.to_be_bytes());
        }
        p
    }
    fn kiss(self, name: &[u8; 4]) -> Header {
        Header { stratum: 0, refid: *name, ..self }
    }
    /// With more behind it.
    fn with(&self, more: impl FnOnce(&mut Vec<u8>)) -> Vec<u8> {
        let mut p = self.bytes();
        more(&mut p);
        p
    }
    /// A whole V5 packet has the draft's name.
    fn v5(&self) -> Vec<u8> {
        self.with(draft)
    }
}

fn draft(p: &mut Vec<u8>) {
    p.extend([0xF5, 0xFF, 0, 27]);
    p.extend(b"draft-ietf-ntp-ntpv5-08\0");
}

/// A field that says `length` whatever its body has.
fn says(p: &mut Vec<u8>, length: u16, body: &[u8]) {
    p.extend([0x11, 0x11]);
    p.extend(length.to_be_bytes());
    p.extend(body);
}

/// An uid in an authenticated field and decrypted fields behind it.
fn sealed(h: Header, plain: &[u8]) -> Vec<u8> {
    h.with(|p| {
        if h.version == 5 {
            draft(p);
        }
        field(p, 0x0104, &UID, 16);
        seal(p, plain);
    })
}

fn cookie_fields(cookies: &[Vec<u8>]) -> Vec<u8> {
    let mut p = vec![];
    for c in cookies {
        field(&mut p, 0x0204, c, 0);
    }
    p
}

struct Cases<'a> {
    log: &'a mut Log,
    both: Both,
}

/// How a case's association begins.
struct Start {
    nts: bool,
    start: Version,
    min: i8,
    max: i8,
    startup: u8,
    window: u64,
    cookies: Vec<Vec<u8>>,
    source: IpAddr,
}

fn plain() -> Start {
    Start {
        nts: false,
        start: Version::V4,
        min: 4,
        max: 10,
        startup: 3,
        window: 5000,
        cookies: vec![],
        source: IpAddr::V4(Ipv4Addr::new(192, 0, 2, 1)),
    }
}

fn nts(cookies: Vec<Vec<u8>>) -> Start {
    Start { nts: true, cookies, ..plain() }
}

fn eight() -> Vec<Vec<u8>> {
    (1..=8).map(|i| vec![i; 100]).collect()
}

impl Cases<'_> {
    fn step(&mut self, op: Op) {
        self.log.step(&mut self.both, &op);
    }
    fn begin(&mut self, title: &str, s: Start) {
        self.log.comment(title);
        let Start { nts, start, min, max, startup, window, cookies, source } = s;
        self.step(Op::New { nts, min, max, startup, window, start, source, cookies, capacity: 8 });
    }
    fn timer_with(&mut self, now: u64, desired: i8) {
        self.step(Op::Timer { now, desired, id: ID, uid: UID, room: None });
    }
    fn timer(&mut self) {
        self.timer_with(1000, 6);
    }
    fn reply_at(&mut self, now: u64, packet: Vec<u8>) {
        self.step(Op::Reply { now, t1: SECOND, t4: 4 * SECOND, packet, fail: false });
    }
    fn reply(&mut self, packet: Vec<u8>) {
        self.reply_at(2000, packet);
    }
    fn timed(&mut self, t1: u64, receive: u64, transmit: u64, t4: u64) {
        let packet = Header { receive, transmit, ..V4 }.bytes();
        self.step(Op::Reply { now: 2000, t1, t4, packet, fail: false });
    }
    fn poke(&mut self, pairs: &[(&'static str, i64)]) {
        self.step(Op::Poke(pairs.to_vec()));
    }
    fn accept(&mut self, stratum: u8, local: &[IpAddr], bloom: Bloom) {
        self.step(Op::Accept { stratum, local: local.to_vec(), bloom });
    }
    /// Upgraded, with its last poll answered: as a hand-over file may bring it.
    fn upgraded(&mut self, title: &str, s: Start) {
        self.begin(title, Start { start: Version::UpgradedToV5, ..s });
        self.poke(&reach(1));
    }
    /// One poll, one reply.
    fn asked(&mut self, title: &str, s: Start, packet: Vec<u8>) {
        self.begin(title, s);
        self.timer();
        self.reply(packet);
    }

    fn lengths(&mut self) {
        for version in [3, 4] {
            for n in [0, 1, 47, 48] {
                let p = Header { version, ..V4 }.bytes()[..n].to_vec();
                self.asked(&format!("a packet of {n} bytes, version {version}"), plain(), p);
            }
        }
        for n in 0..=33 {
            self.asked(&format!("a tail of {n} bytes"), plain(), V4.with(|p| p.extend(vec![0xaa; n])));
        }
        for n in [0, 1, 3, 4, 20, 24, 25, 28, 100] {
            let p = Header { version: 3, ..V4 }.with(|p| p.extend(vec![0xaa; n]));
            self.asked(&format!("a tail of {n} bytes, version 3"), plain(), p);
        }
        for n in [4, 8, 12, 16, 20, 24, 28, 32] {
            let p = V4.with(|p| field(p, 0x1111, &vec![0; n - 4], 0));
            self.asked(&format!("a last field of length {n}"), plain(), p);
            let p = V4.with(|p| {
                field(p, 0x1111, &vec![0; n - 4], 0);
                field(p, 0x2222, &[0; 28], 0);
            });
            self.asked(&format!("a field of length {n}, then one of 32"), plain(), p);
            let p = V4.with(|p| {
                field(p, 0x1111, &vec![0; n - 4], 0);
                p.extend([0xaa; 24]);
            });
            self.asked(&format!("a field of length {n}, then a tail of 24"), plain(), p);
        }
        for n in [0, 1, 2, 3, 4, 5, 14, 15, 16, 17, 18, 22, 23, 24, 25, 26, 27, 28, 29, 30, 32, 36, 65532, 65535] {
            let p = V4.with(|p| says(p, n, &[0; 28]));
            self.asked(&format!("32 bytes that say length {n}"), plain(), p);
        }
        for n in [25, 26, 27, 28] {
            let p = V4.with(|p| says(p, 28, &vec![0; n - 4]));
            self.asked(&format!("{n} bytes that say length 28"), plain(), p);
        }
        for (body, name) in [([0; 28], "zeros"), ([1; 28], "ones")] {
            let p = V4.with(|p| field(p, 0x0304, &body, 0));
            self.asked(&format!("a 0304 field of {name}"), plain(), p);
        }
        self.asked("a 0404 field without NTS", plain(), V4.with(|p| seal(p, &[])));
        self.asked("a 0404 field of wrong lengths without NTS", plain(), V4.with(|p| field(p, 0x0404, &[255; 28], 0)));
        for version in 0..8 {
            self.asked(&format!("version {version}"), plain(), Header { version, ..V4 }.bytes());
        }
        for version in [3, 4, 5] {
            let p = Header { version, ..V5 }.v5();
            self.upgraded(&format!("version {version}, upgraded"), plain());
            self.timer();
            self.reply(p.clone());
            self.asked(&format!("version {version}, V5"), Start { start: Version::V5, ..plain() }, p);
        }
    }

    /// The smallest inputs of the listed differences, and their neighbours without one.
    fn differences(&mut self) {
        for n in [20, 21] {
            let p = V4.with(|p| {
                field(p, 0x1111, &[], 0);
                p.extend(vec![0xaa; n]);
            });
            self.asked(&format!("a field of length 4, then {n} bytes"), plain(), p);
        }
        for n in [8, 9] {
            let p = V4.with(|p| {
                field(p, 0x0304, &[1; 12], 0);
                p.extend(vec![0xaa; n]);
            });
            self.asked(&format!("a 0304 field of ones and length 16, then {n} bytes"), plain(), p);
        }
        for ty in [0x0403, 0x0404] {
            let mut p = vec![];
            field(&mut p, ty, &[], 0);
            self.asked(&format!("an empty decrypted field of type {ty:04x}"), nts(eight()), sealed(V4, &p));
        }
        for (remote, last) in [(10, 4), (11, 4), (12, 4), (12, 11), (12, 12), (126, 4), (127, 4)] {
            self.begin(&format!("limits 4 to 10, remote {remote}, last {last}, RATE"), plain());
            self.timer();
            self.poke(&[("remote", remote), ("last", last)]);
            self.reply(V4.kiss(b"RATE").bytes());
        }
        let (a, b) = (Ipv4Addr::new(10, 0, 0, 1), Ipv4Addr::new(10, 0, 0, 2));
        for (own, source, stratum) in [(b, a, 2), (a, b, 3)] {
            self.asked(
                &format!("two boxes that serve each other: {own} asks {source}, of stratum {stratum}"),
                Start { source: IpAddr::V4(source), ..plain() },
                Header { stratum, refid: own.octets(), ..V4 }.bytes(),
            );
            self.accept(16, &[IpAddr::V4(own)], Bloom::None);
        }
    }

    /// Which of the two identifiers is compared, by stratum: the source's own, and the one that it reports.
    fn loops(&mut self) {
        let own = plain().source;
        let v6 = IpAddr::V6(Ipv6Addr::new(0x2001, 0xdb8, 0, 0, 0, 0, 0, 9));
        let other = IpAddr::V4(Ipv4Addr::new(192, 0, 2, 2));
        let v4 = IpAddr::V4(Ipv4Addr::new(192, 0, 2, 9));
        for (stratum, reported) in [(0, v4), (1, v4), (2, v4), (2, v6), (3, v4), (16, v4)] {
            let refid = identifier_of(reported).to_be_bytes();
            // A reply of stratum 0 is a kiss and not measured, so stratum 0 is set by hand.
            self.asked(
                &format!("stratum {stratum}, {own} reports {reported}"),
                plain(),
                Header { stratum: stratum.max(1), refid, ..V4 }.bytes(),
            );
            self.poke(&[("stratum", stratum as i64)]);
            for local in [&[other][..], &[own], &[reported], &[own, reported], &[other, reported, other]] {
                for bloom in [Bloom::None, Bloom::Absent, Bloom::Present] {
                    self.accept(17, local, bloom);
                }
            }
            self.accept(stratum, &[reported], Bloom::None);
            self.accept(stratum + 1, &[reported], Bloom::None);
            self.poke(&reach(0));
            for local in [other, own, reported] {
                self.accept(17, &[local], Bloom::None);
            }
        }
        let xnon = IpAddr::V4(Ipv4Addr::from(*b"XNON"));
        for stratum in [1, 2] {
            self.begin(&format!("XNON among ours, V5, stratum {stratum}"), Start { start: Version::V5, ..plain() });
            self.accept(17, &[xnon], Bloom::None);
            self.timer();
            self.reply(Header { stratum, ..V5 }.v5());
            self.accept(17, &[xnon], Bloom::None);
            self.accept(17, &[other], Bloom::None);
        }
    }

    fn decrypted(&mut self) {
        for n in [0u16, 1, 2, 3, 4, 5, 6, 7, 8, 9, 12, 16] {
            let mut p = 0x0204u16.to_be_bytes().to_vec();
            p.extend(n.to_be_bytes());
            p.extend([7; 8]);
            self.asked(&format!("12 decrypted bytes that say length {n}"), nts(eight()), sealed(V4, &p));
        }
        for n in 1..=4 {
            let mut p = cookie_fields(&[vec![9; 100]]);
            p.extend(vec![0; n]);
            self.asked(&format!("a decrypted cookie and {n} zeros behind it"), nts(eight()), sealed(V4, &p));
        }
        let mut p = cookie_fields(&[vec![9; 100]]);
        field(&mut p, 0x0404, &[0; 12], 0);
        self.asked("a 0404 field among the decrypted ones", nts(eight()), sealed(V4, &p));
        let mut p = vec![];
        field(&mut p, 0x0304, &[1; 8], 0);
        self.asked("a 0304 field of ones among the decrypted ones", nts(eight()), sealed(V4, &p));
        let mut two = V4.bytes();
        seal(&mut two, &cookie_fields(&[vec![9; 100]]));
        field(&mut two, 0x0104, &UID, 16);
        seal(&mut two, &cookie_fields(&[vec![10; 100]]));
        self.asked("two 0404 fields, a cookie in each, the uid between them", nts(eight()), two.clone());
        let last = two.len() - 1;
        two[last] ^= 1;
        self.asked("two 0404 fields, the second does not decrypt", nts(eight()), two);
        let p = V4.with(|p| {
            field(p, 0x0104, &UID, 16);
            let nonce = [7; 20];
            let mut body = vec![0, 20, 0, 16];
            body.extend(nonce);
            body.extend(FakeCipher::tag(&nonce, p, &[]));
            field(p, 0x0404, &body, 0);
        });
        self.asked("a nonce of 20 bytes", nts(eight()), p);
        self.asked("version 3 with NTS", nts(eight()), Header { version: 3, ..V4 }.bytes());
    }

    fn identifiers(&mut self) {
        let wrong = [255u8; 32];
        let n = || nts(eight());
        let good = sealed(V4, &cookie_fields(&eight()[..2]));
        self.asked("a good reply with two cookies", n(), good.clone());
        self.begin("decryption fails", n());
        self.timer();
        self.step(Op::Reply { now: 2000, t1: SECOND, t4: 4 * SECOND, packet: good.clone(), fail: true });
        self.asked("no 0404 field, uid untrusted", n(), V4.with(|p| field(p, 0x0104, &UID, 16)));
        self.asked("no uid", n(), V4.with(|p| seal(p, &[])));
        let mut inner = vec![];
        field(&mut inner, 0x0104, &UID, 0);
        self.asked("uid decrypted only", n(), V4.with(|p| seal(p, &inner)));
        for (bytes, name) in [
            ([&UID[..31], &[0]].concat(), "its last byte other"),
            ([&UID[..], &[0; 8]].concat(), "8 bytes behind it"),
            (UID[..28].to_vec(), "28 bytes of it"),
        ] {
            let p = V4.with(|p| {
                field(p, 0x0104, &bytes, 16);
                seal(p, &[]);
            });
            self.asked(&format!("uid authenticated with {name}"), n(), p);
        }
        let mut p = good.clone();
        field(&mut p, 0x0104, &wrong, 28);
        self.asked("uid authenticated, another one untrusted", n(), p);
        let mut p = sealed(V4.kiss(b"NTSN"), &[]);
        field(&mut p, 0x0104, &wrong, 28);
        self.asked("uid authenticated, another one untrusted, NTSN", n(), p);
        let mut inner = vec![];
        field(&mut inner, 0x0104, &wrong, 0);
        self.asked("uid authenticated, another one decrypted", n(), sealed(V4, &inner));
        let p = V4.with(|p| {
            field(p, 0x0104, &UID, 16);
            field(p, 0x0104, &wrong, 16);
            seal(p, &[]);
        });
        self.asked("uid and another one authenticated", n(), p);
        for (kiss, name) in [(b"NTSN", "NTSN"), (b"RATE", "RATE"), (b"DENY", "DENY"), (b"RSTR", "RSTR"), (b"INIT", "INIT")] {
            let k = V4.kiss(kiss);
            self.asked(&format!("{name}, uid untrusted"), n(), k.with(|p| field(p, 0x0104, &UID, 16)));
            self.asked(&format!("{name}, no uid"), n(), k.bytes());
            self.asked(&format!("{name}, sealed"), n(), sealed(k, &[]));
            self.asked(&format!("{name}, no NTS"), plain(), k.bytes());
        }
        let p = V4.kiss(b"NTSN").with(|p| {
            field(p, 0x0104, &UID, 16);
            field(p, 0x0104, &[0; 12], 0);
            p.extend([0xaa; 10]);
        });
        self.asked("NTSN, a 0104 field of length 16 before a tail of 10", n(), p);
        let mut other = V4.bytes();
        other[31] ^= 1;
        self.asked("the origin timestamp other by one bit", plain(), other);
        self.asked("RATE by name with stratum 1 is no kiss", plain(), Header { stratum: 1, refid: *b"RATE", ..V4 }.bytes());
        self.asked("RATE, mode 3", plain(), Header { mode: 3, ..V4.kiss(b"RATE") }.bytes());
    }

    fn deadlines(&mut self) {
        for now in [5999, 6000, 6001] {
            self.begin(&format!("sent at 1000, window 5000, reply at {now}"), plain());
            self.timer();
            self.reply_at(now, V4.bytes());
        }
        for window in [1, 60_000_000_000] {
            self.begin(&format!("window {window}, one after, at, and again"), Start { window, ..plain() });
            self.timer();
            self.reply_at(1001 + window, V4.bytes());
            self.reply_at(1000 + window, V4.bytes());
            self.reply_at(1000 + window, V4.bytes());
        }
        for now in [u64::MAX - 5001, u64::MAX - 5000, u64::MAX - 4999, u64::MAX] {
            self.begin(&format!("sent at {now}, window 5000, reply at 2^64-1"), plain());
            self.timer_with(now, 6);
            self.reply_at(u64::MAX, V4.bytes());
        }
        self.begin("a kiss and a late reply leave the request; the clock goes back", plain());
        self.timer();
        self.reply(V4.kiss(b"INIT").bytes());
        self.reply_at(7000, V4.bytes());
        self.reply_at(0, V4.bytes());
    }

    fn counters(&mut self) {
        for tries in [0, 253, 254, 255] {
            self.begin(&format!("tries {tries}, reach 1"), plain());
            self.poke(&[("tries", tries)]);
            self.poke(&reach(1));
            self.timer();
            self.timer();
        }
        for startup in 1..=8 {
            self.begin(&format!("startup limit {startup}, never answered"), Start { startup, ..plain() });
            for _ in 0..=startup {
                self.timer();
            }
        }
        self.begin("a denial, then never answered", plain());
        self.timer();
        self.reply(V4.kiss(b"DENY").bytes());
        self.timer();
        self.timer();
        self.timer();
        self.begin("a denial, then an answer", plain());
        self.timer();
        self.reply(V4.kiss(b"RSTR").bytes());
        self.reply(V4.bytes());
        for register in [0, 1, 2, 3, 4, 64, 127, 128, 129, 255] {
            self.begin(&format!("reach {register}, upgraded"), Start { start: Version::UpgradedToV5, ..plain() });
            self.poke(&reach(register));
            self.poke(&[("tries", 2)]);
            self.timer();
            self.timer();
        }
        self.asked("a V4 reply with the upgrade mark", plain(), Header { refts: UPGRADE_MARK, ..V4 }.bytes());
        self.timer();
        let ntsn = Header { refts: UPGRADE_MARK, ..V4.kiss(b"NTSN") }.bytes();
        self.asked("NTSN with the upgrade mark", plain(), ntsn);
        self.timer();
        self.begin("starts upgraded, and falls back with its first poll", Start { start: Version::UpgradedToV5, ..plain() });
        self.timer();
        self.reply(V5.v5());
        self.reply(V4.bytes());
        self.timer();
        self.reply(V4.bytes());
        self.upgraded("upgraded, answered in V5", plain());
        self.timer();
        self.reply(V5.v5());
        self.timer();
        self.upgraded("upgraded, a kiss in V5", plain());
        self.timer();
        self.reply(Header { poll: 7, stratum: 0, ..V5 }.v5());
        self.timer();
        self.upgraded("upgraded, two polls not answered, then V4", plain());
        self.timer();
        self.reply(V4.bytes());
        self.timer();
        self.timer();
        self.reply(V5.v5());
        self.reply(V4.bytes());
        self.upgraded("upgraded with NTS sends V5 and expects V5", nts(eight()));
        self.timer();
        self.reply(sealed(V4, &[]));
        self.reply(sealed(V5, &[]));
        self.timer();
    }

    fn polls(&mut self) {
        for desired in [126, 127, -128, 3, 4, 5] {
            self.begin(&format!("desired poll {desired}, limits 4 to 10, RATE twice"), plain());
            self.timer_with(1000, desired);
            self.reply(V4.kiss(b"RATE").bytes());
            self.reply(V4.kiss(b"RATE").bytes());
            self.timer_with(2000, desired);
        }
        for remote in [-128, -1, 4, 9, 10, 11, 12, 126, 127] {
            for last in [-128, 4, 6, 10, 126, 127] {
                self.begin(&format!("limits 4 to 10, remote {remote}, last {last}, RATE"), plain());
                self.timer();
                self.poke(&[("remote", remote), ("last", last)]);
                self.reply(V4.kiss(b"RATE").bytes());
            }
        }
        self.begin("limits 17 to 17, RATE", Start { min: 17, max: 17, ..plain() });
        self.timer();
        self.reply(V4.kiss(b"RATE").bytes());
        let v5 = || Start { start: Version::V5, ..plain() };
        for poll in [-128, 5, 6, 7, 126, 127] {
            self.asked(&format!("V5 measured, poll {poll}"), v5(), Header { poll, ..V5 }.v5());
            self.asked(&format!("V5 kiss, poll {poll}, own 6"), v5(), Header { poll, stratum: 0, ..V5 }.v5());
        }
        let nak = Header { stratum: 0, refid: [0, 0, 0, 5], ..V5 };
        self.asked("V5 kiss, poll 7 and authnak", v5(), Header { poll: 7, ..nak }.v5());
        self.asked("V5 kiss, poll 0 and authnak", v5(), Header { poll: 0, ..nak }.v5());
        self.asked(
            "V5 deny with NTS, sealed",
            Start { start: Version::V5, ..nts(eight()) },
            sealed(Header { poll: 127, stratum: 0, ..V5 }, &[]),
        );
    }

    fn strata(&mut self) {
        for stratum in [0, 1, 15, 16, 17, 255] {
            self.asked(&format!("stratum {stratum}"), plain(), Header { stratum, ..V4 }.bytes());
            self.asked(&format!("stratum {stratum}, mode 3"), plain(), Header { stratum, mode: 3, ..V4 }.bytes());
            self.asked(
                &format!("stratum {stratum}, V5"),
                Start { start: Version::V5, ..plain() },
                Header { stratum, ..V5 }.v5(),
            );
        }
        for mode in 0..8 {
            self.asked(&format!("mode {mode}"), plain(), Header { mode, ..V4 }.bytes());
        }
        self.asked("V5, mode 3", Start { start: Version::V5, ..plain() }, Header { mode: 3, ..V5 }.v5());
        for leap in 0..4 {
            self.asked(&format!("leap {leap}"), plain(), Header { leap, ..V4 }.bytes());
            for flags in [0, 1] {
                let p = Header { leap, refid: [0, 0, 0, flags], ..V5 }.v5();
                self.asked(&format!("leap {leap}, V5, flags {flags}"), Start { start: Version::V5, ..plain() }, p);
            }
        }
        let v6 = IpAddr::V6(Ipv6Addr::new(0x2001, 0xdb8, 0, 0, 0, 0, 0, 1));
        let other = IpAddr::V4(Ipv4Addr::new(192, 0, 2, 2));
        for source in [plain().source, v6] {
            for stratum in [1, 2, 15, 16] {
                self.asked(
                    &format!("stratum {stratum} from {source}, acceptance"),
                    Start { source, ..plain() },
                    Header { stratum, refid: [192, 0, 2, 9], ..V4 }.bytes(),
                );
                for own in [0, 1, 2, 3, 15, 16, 17, 255] {
                    self.accept(own, &[], Bloom::None);
                }
                for bloom in [Bloom::None, Bloom::Absent, Bloom::Present] {
                    self.accept(17, &[other], bloom);
                    self.accept(17, &[other, source], bloom);
                }
                self.poke(&reach(0));
                self.accept(17, &[other], Bloom::Absent);
                self.accept(17, &[source], Bloom::Absent);
                self.poke(&reach(128));
                self.accept(17, &[other], Bloom::Absent);
            }
        }
        for stratum in [0, 16, 17, 255] {
            self.begin(&format!("stratum {stratum} by hand, acceptance"), plain());
            self.poke(&[("stratum", stratum)]);
            self.poke(&reach(1));
            for own in [0, 16, 17, 18, 255] {
                self.accept(own, &[], Bloom::None);
            }
        }
    }

    fn cookies(&mut self) {
        for n in [0, 1, 7, 8, 9, 10, 16, 17] {
            self.begin(&format!("{n} cookies at the start"), nts((1..=n).map(|i| vec![i; 20]).collect()));
            self.timer();
            self.timer();
        }
        for n in [0, 1, 2, 7, 8, 9, 10] {
            self.begin(&format!("{n} cookies in a reply to the last but one"), nts(eight()[..2].to_vec()));
            self.timer();
            self.reply(sealed(V4, &cookie_fields(&(11..11 + n).map(|i| vec![i; 20]).collect::<Vec<_>>())));
            self.timer();
        }
        for n in [0, 1, 2, 89, 90, 91, 103, 104, 120, 121, 362, 363, 723, 724, 725, 4092] {
            self.begin(&format!("a cookie of {n} bytes, gap 8"), nts(vec![vec![0xcc; n]]));
            self.timer();
            self.timer();
            if 8 * (n + 4) <= 4096 {
                self.begin(&format!("a cookie of {n} bytes, gap 1"), nts(vec![vec![0xcc; n]; 8]));
                self.timer();
            } else {
                let mut cookies = vec![vec![0xcc; n]];
                cookies.extend((1..=7).filter(|_| n < 4000).map(|i| vec![i; 20]));
                self.begin(&format!("a cookie of {n} bytes before short ones"), nts(cookies));
                self.timer();
                self.timer();
            }
        }
        for n in [20, 725] {
            let mut two = vec![vec![0xcc; 20]];
            two.extend((n > 20).then(|| vec![0xcc; n]));
            self.begin(
                &format!(
                    "no reply, then {}: the request and the last poll stay",
                    if n > 20 { "a cookie too large" } else { "no cookie" }
                ),
                nts(two),
            );
            self.timer();
            self.timer_with(2000, 8);
            self.reply(sealed(V4, &cookie_fields(&eight()[..1])));
        }
        for n in [0usize, 4, 720, 724, 728, 3900] {
            self.begin(&format!("a cookie of {n} bytes in a V4 reply"), nts(eight()[..1].to_vec()));
            self.timer();
            self.reply(sealed(V4, &cookie_fields(&[vec![0xcc; n]])));
            self.timer();
        }
        for n in [0usize, 1, 723, 724, 725, 3901] {
            self.begin(
                &format!("a cookie of {n} bytes in a V5 reply"),
                Start { start: Version::V5, ..nts(eight()[..1].to_vec()) },
            );
            self.timer();
            let mut inner = vec![];
            let mut length = ((n + 4) as u16).to_be_bytes().to_vec();
            inner.extend([2, 4]);
            inner.append(&mut length);
            inner.extend(vec![0xcc; n]);
            inner.resize(inner.len().next_multiple_of(4), 0);
            self.reply(sealed(V5, &inner));
            self.timer();
        }
    }

    /// A cookie of 65,531 bytes fits no list that the drill holds: crate and rules are set against each other without a log.
    fn longest_cookie(&mut self) {
        self.log
            .comment("a cookie of 65,531 bytes fits no list of the drill; driver limits ran it on crate and rules alone: 24");
        let mut both = Both::new();
        let Start { nts, start, min, max, startup, window, cookies, source } = nts(vec![vec![0xcc; 65_531]]);
        let new = Op::New { nts, min, max, startup, window, start, source, cookies, capacity: 8 };
        let timer = Op::Timer { now: 1000, desired: 6, id: ID, uid: UID, room: None };
        for (op, number) in [(new, 0), (timer, 24)] {
            let step = both.step(&op);
            assert!(!step.failed && step.reason.is_none() && step.of_crate.0.number == number);
        }
    }

    fn times(&mut self) {
        const HALF: u64 = 1 << 63;
        const MAX: u64 = u64::MAX;
        for (t1, t2, t3, t4) in [
            (MAX - 3, 2, 4, 6),
            (1, 0, 0, 2),
            (2, 0, 0, 1),
            (0, HALF, 0, 0),
            (0, 0, HALF, 0),
            (HALF, 0, 0, 0),
            (0, 0, 0, HALF),
            (0, 0, 0, HALF - 1),
            (0, 0, HALF, HALF - 1),
            (0, HALF - 1, HALF - 1, 0),
            (0, HALF, HALF, 0),
            (HALF, 0, 0, HALF),
            (HALF - 1, 0, 0, HALF - 1),
            (MAX, 0, MAX, 0),
            (3, 2, 2, 0),
            (0, 3, 0, 0),
        ] {
            self.begin(&format!("T1 {t1}, T2 {t2}, T3 {t3}, T4 {t4}"), plain());
            self.timer();
            self.timed(t1, t2, t3, t4);
        }
    }
}

/// Writes the cases of the limits.
pub fn write(log: &mut Log) {
    let mut c = Cases { log, both: Both::new() };
    // A difference may be in the record alone.
    let shown = std::mem::replace(&mut c.log.shown, (1, 1));
    c.differences();
    c.log.shown = shown;
    c.lengths();
    c.decrypted();
    c.identifiers();
    c.deadlines();
    c.counters();
    c.polls();
    c.strata();
    c.loops();
    // What a slot stores is seen in the cookies alone.
    let shown = std::mem::replace(&mut c.log.shown, (1, 1));
    c.cookies();
    c.log.shown = shown;
    c.longest_cookie();
    c.times();
}
