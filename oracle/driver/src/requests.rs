//! Lines of the request writer, and what the published crate sends for each. A packet is built by the crate's own function
//! (`poll_message`, `poll_message_upgrade_request` and `nts_poll_message` of packet/mod.rs), which draws the line's
//! identifier and uid from the queue of random numbers, and written by the crate's own `NtpPacket::serialize`; with NTS it is
//! cut where its 0404 field starts. What the crate does not have is the rule of RULES, No. 1, and such a line is listed with its
//! reason: the refusals, and a mark that is not the crate's, for which the crate's eight bytes are replaced.
use crate::drill::{Log, uid_text};
use crate::exec::Controller;
use crate::random::{HELD, Rng};
use crate::state::*;
use ntp_proto::tls_utils::FakeCipher;
use ntp_proto::{Cipher, NtpPacket, NtpSource, NtpSourceAction, PollInterval};
use std::fmt::Write;
use std::io::Cursor;
use std::net::{IpAddr, Ipv4Addr, SocketAddr};

/// The most bytes of buffer that the drill lends.
const ROOM: usize = 6144;
/// The most new cookies that a request asks for.
const ASKED: usize = 8;
/// Cookie lengths times numbers asked, and a step through them that meets each once.
const PAIRS: u64 = (STORED as u64 + 1) * ASKED as u64;
const STRIDE: u64 = 1747;
/// One line in so many has the next of these pairs.
const PAIR_EVERY: u64 = 16;

pub struct Request {
    pub kind: &'static str,
    pub poll: i8,
    pub id: u64,
    pub mark: u64,
    pub uid: [u8; 32],
    pub cookie: Vec<u8>,
    pub asked: u8,
    pub room: usize,
}

/// The expected number and packet, and the reason where they are not the crate's.
pub type Expected = (u8, Vec<u8>, Option<&'static str>);

impl Request {
    /// The line; where it is `short` the keys that have their defaults are left out.
    pub fn command(&self, short: bool) -> String {
        let mut line = format!("request kind={} poll={} id={:016x}", self.kind, self.poll, self.id);
        for (key, value, default) in [
            ("mark", format!("{:016x}", self.mark), "0000000000000000"),
            ("uid", uid_text(&self.uid), "-"),
            ("cookie", bytes(&self.cookie), "-"),
            ("asked", self.asked.to_string(), "0"),
            ("room", self.room.to_string(), "6144"),
        ] {
            if !(short && value == default) {
                write!(line, " {key}={value}").unwrap();
            }
        }
        line
    }

    fn nts(&self) -> bool {
        self.kind.starts_with("nts-")
    }

    /// What is expected of this request.
    pub fn expected(&self) -> Expected {
        match self.refused() {
            Some((number, reason)) => (number, vec![], Some(reason)),
            None => self.answer(self.packet()),
        }
    }

    /// The first two refusals of RULES, No. 1, and why the crate has no answer there.
    fn refused(&self) -> Option<(u8, &'static str)> {
        if self.kind.ends_with("v5") {
            Some((50, "v5-kind"))
        } else if self.nts() && (self.cookie.len() > STORED || !(1..=ASKED).contains(&(self.asked as usize))) {
            Some((52, "cookie-or-asked"))
        } else {
            None
        }
    }

    /// The next draws of the crate are this request's.
    fn inject(&self) {
        rand::oracle::clear();
        rand::oracle::push_bytes(&self.id.to_be_bytes());
        if self.nts() {
            rand::oracle::push_bytes(&self.uid);
        }
    }

    /// What the crate sends, with the 0404 field that it puts behind.
    fn whole_packet(&self) -> Vec<u8> {
        self.inject();
        let poll = PollInterval::from_byte(self.poll as u8);
        let (packet, _) = match self.kind {
            "v4" => NtpPacket::poll_message(poll),
            "v4-upgrade" => NtpPacket::poll_message_upgrade_request(poll),
            "nts-v4" => NtpPacket::nts_poll_message(&self.cookie, self.asked, poll),
            other => panic!("RULES, No. 1, refuses {other}"),
        };
        assert_eq!(rand::oracle::left(), (0, 0));
        // The serialiser's buffer is dirty, so that every byte is one that it wrote, and has space for any 0404 field.
        let mut buffer = vec![0xAA; 2 * ROOM];
        let mut cursor = Cursor::new(buffer.as_mut_slice());
        packet.serialize(&mut cursor, &self.nts().then_some(&FakeCipher as &dyn Cipher), None).unwrap();
        let len = cursor.position() as usize;
        buffer.truncate(len);
        buffer
    }

    /// What the crate's timer sends where it makes this request: it asks for min(gap, 724 div length) cookies, and the gap is
    /// the number asked when 9 less that number are held.
    fn sent_by_timer(&self) -> Option<Vec<u8>> {
        if self.nts() && self.asked as usize > STORED / self.cookie.len().max(1) {
            return None;
        }
        let cookies = self.nts().then(|| vec![self.cookie.clone(); ASKED + 1 - self.asked as usize]);
        let version = if self.kind == "v4-upgrade" { Version::V4UpgradingToV5 { tries_left: 8 } } else { Version::V4 };
        let address = SocketAddr::new(IpAddr::V4(Ipv4Addr::LOCALHOST), 123);
        let controller = Controller { desired: self.poll, measured: None };
        let (mut source, _) = NtpSource::make(address, self.poll, self.poll, version, controller, cookies.as_deref());
        self.inject();
        rand::oracle::push_float(1.03);
        let sent = source.handle_timer().find_map(|a| if let NtpSourceAction::Send(p) = a { Some(p) } else { None });
        Some(sent.expect("the timer sends a request"))
    }

    /// The crate's bytes up to the place where the 0404 field starts. The crate's timer has to send the same, and its reader to
    /// find the same place and uid.
    pub fn packet(&self) -> Vec<u8> {
        let mut packet = self.whole_packet();
        if let Some(sent) = self.sent_by_timer() {
            assert_eq!(sent, packet, "the crate's timer sends what its packet functions write");
        }
        if self.nts() {
            let end = authenticator(&packet);
            FakeCipher::take_seen();
            let (read, _) = NtpPacket::deserialize(&packet, &Some(&FakeCipher as &dyn Cipher)).ok().unwrap();
            assert_eq!(FakeCipher::take_seen(), [(end, Some(vec![]))], "the crate's reader has the 0404 field elsewhere");
            assert_eq!(read.uid_groups(&self.uid), [Some(true), None, None]);
            packet.truncate(end);
        }
        packet
    }

    /// The expected answer of a request whose packet by the crate is given.
    fn answer(&self, mut packet: Vec<u8>) -> Expected {
        if self.room < packet.len() {
            return (51, vec![], Some("buffer-short"));
        }
        let marked = self.kind == "v4-upgrade" && self.mark != UPGRADE_MARK;
        if marked {
            assert_eq!(packet[16..24], UPGRADE_MARK.to_be_bytes());
            packet[16..24].copy_from_slice(&self.mark.to_be_bytes());
        }
        (0, packet, marked.then_some("other-mark"))
    }
}

/// Where the 0404 field starts, by the types and lengths of the fields behind the header.
pub fn authenticator(packet: &[u8]) -> usize {
    let mut at = 48;
    while packet[at..at + 2] != [0x04, 0x04] {
        // V5 pads behind the length that it says.
        at += u16::from_be_bytes([packet[at + 2], packet[at + 3]]).next_multiple_of(4) as usize;
    }
    at
}

/// Random requests, and the walks over what each run has to have.
pub struct Source {
    pub r: Rng,
    /// The place among the pairs of a length and a number asked, and the next length for a request that the timer can make.
    pair: u64,
    length: usize,
}

impl Source {
    pub fn new(r: Rng, pair: u64, length: usize) -> Self {
        Source { r, pair, length }
    }

    /// The request of line `i`, and what is expected of it.
    pub fn request(&mut self, i: u64) -> (Request, Expected) {
        let every_pair = i.is_multiple_of(PAIR_EVERY);
        let mut request = match self.r.below(100) {
            _ if every_pair => self.next_pair(),
            0..=11 => self.unlooked("v4"),
            12..=24 => self.unlooked("v4-upgrade"),
            25 | 26 => self.unlooked("v5"),
            27 | 28 => self.unlooked("nts-v5"),
            29..=31 => self.refused(),
            32..=65 => self.next_length(),
            _ => self.short_cookie(),
        };
        if let Some((number, reason)) = request.refused() {
            request.room = self.enough(0);
            return (request, (number, vec![], Some(reason)));
        }
        let packet = request.packet();
        let short = !every_pair && self.r.one_in(20);
        request.room = if short { self.too_little(packet.len()) } else { self.enough(packet.len()) };
        let expected = request.answer(packet);
        (request, expected)
    }

    /// A request with everything but its cookie, number asked and room, which are those of no cookie.
    fn any(&mut self, kind: &'static str) -> Request {
        let r = &mut self.r;
        let id = if r.one_in(32) { r.pick(&[0, 1, u64::MAX]) } else { r.next() };
        // Only an upgrade request looks at the mark.
        let mark = if r.one_in(8) { r.next() } else { r.pick(&[UPGRADE_MARK, 0]) };
        let mark = if kind == "v4-upgrade" && mark == 0 { UPGRADE_MARK } else { mark };
        let uid = if r.one_in(16) { [0; 32] } else { r.array() };
        Request { kind, poll: r.next() as i8, id, mark, uid, cookie: vec![], asked: 0, room: ROOM }
    }

    /// A request with NTS that is written.
    fn nts(&mut self, length: usize, asked: usize) -> Request {
        let cookie = self.r.bytes(length);
        Request { cookie, asked: asked as u8, ..self.any("nts-v4") }
    }

    /// The next length and number asked.
    fn next_pair(&mut self) -> Request {
        let place = (self.pair % PAIRS * STRIDE % PAIRS) as usize;
        self.pair += 1;
        self.nts(place / ASKED, place % ASKED + 1)
    }

    /// The next length, with a number asked that the timer can have for it.
    fn next_length(&mut self) -> Request {
        let length = self.length % (STORED + 1);
        self.length += 1;
        let most = (STORED / length.max(1)).min(ASKED);
        let asked = 1 + self.r.below(most as u64) as usize;
        self.nts(length, asked)
    }

    fn short_cookie(&mut self) -> Request {
        let (length, asked) = (self.r.below(111) as usize, 1 + self.r.below(ASKED as u64) as usize);
        self.nts(length, asked)
    }

    /// A kind that looks at neither uid nor cookie nor number asked; in every other one these are not what NTS would take.
    fn unlooked(&mut self, kind: &'static str) -> Request {
        let mut request = self.any(kind);
        if self.r.one_in(2) {
            let length = self.r.pick(&[1, 16, 100, 725]);
            request.cookie = self.r.bytes(length);
            request.asked = self.r.pick(&[0, 1, 8, 9, 255]);
        }
        request
    }

    /// A request with NTS whose cookie or number asked is refused.
    fn refused(&mut self) -> Request {
        let over = self.r.below((HELD - STORED) as u64) as usize + STORED + 1;
        let length = self.r.pick(&[0, 100, STORED, STORED + 1, STORED + 1, over, HELD]);
        let asked = if length <= STORED { self.r.pick(&[0, 9, 255]) } else { self.r.pick(&[0, 1, 8, 9]) };
        self.nts(length, asked)
    }

    /// A room that holds `len` bytes: all that the drill has, just enough, or something between.
    fn enough(&mut self, len: usize) -> usize {
        match self.r.below(8) {
            0..=2 => ROOM,
            3..=5 => len,
            _ => len + self.r.below((ROOM - len) as u64) as usize,
        }
    }

    /// A room that does not: mostly one byte less, or none.
    fn too_little(&mut self, len: usize) -> usize {
        match self.r.below(4) {
            0 | 1 => len - 1,
            2 => 0,
            _ => self.r.below(len as u64) as usize,
        }
    }
}

/// Writes COUNT requests. Logs of following seeds and the same COUNT go on with the pairs of a length and a number asked where
/// the log before ends; 92,800 lines have all of them.
pub fn write(log: &mut Log, seed: u64, count: u64) {
    let pair = seed.wrapping_mul(count.div_ceil(PAIR_EVERY)) % PAIRS;
    let mut source = Source::new(Rng::of(seed), pair, seed as usize % (STORED + 1));
    for i in 0..count {
        let (request, (number, packet, reason)) = source.request(i);
        let answer = match number {
            0 => format!("request 0 len={} packet={}", packet.len(), bytes(&packet)),
            number => format!("request {number}"),
        };
        let of_crate = if reason.is_some() { "" } else { &answer };
        log.put(&request.command(source.r.one_in(2)), of_crate, &answer, reason);
    }
}

/// What the crate does where RULES, No. 1, refuses; docs/DIFFERENCES.md cites it.
#[cfg(test)]
mod tests {
    use super::*;

    fn nts(length: usize, asked: u8) -> Request {
        let (mark, uid, cookie) = (0, [7; 32], vec![9; length]);
        Request { kind: "nts-v4", poll: 6, id: 1, mark, uid, cookie, asked, room: ROOM }
    }

    fn written(length: usize, asked: u8) -> Vec<u8> {
        let mut packet = nts(length, asked).whole_packet();
        packet.truncate(authenticator(&packet));
        packet
    }

    #[test]
    fn the_crate_limits_neither_the_cookie_nor_the_number_asked() {
        assert_eq!(written(0, 0), written(0, 1));
        assert_eq!(written(0, 9).len(), 48 + 36 + 9 * 16);
        assert_eq!(written(725, 1).len(), 48 + 36 + 732);
    }

    #[test]
    fn the_crate_leaves_a_beginning_in_a_buffer_that_is_too_short() {
        rand::oracle::clear();
        rand::oracle::push_bytes(&[0x11; 8]);
        let (packet, _) = NtpPacket::poll_message(PollInterval::from_byte(6));
        let none: Option<&dyn Cipher> = None;
        for room in [1, 47] {
            let mut buffer = vec![0xAA; room];
            assert!(packet.serialize(&mut Cursor::new(buffer.as_mut_slice()), &none, None).is_err());
            assert_eq!(buffer[0], 0x23);
            assert!(!buffer.contains(&0xAA));
        }
    }
}
