//! Runs operations on the published NtpSource and brings what it did to the numbers and the record of RULES.
use crate::requests;
use crate::rules::{self, Rules};
use crate::state::*;
use ntp_proto::tls_utils::{FakeCipher, NtpHeader, Record, set_now, set_window};
use ntp_proto::v5::{BloomFilter, ServerId};
use ntp_proto::*;
use std::net::SocketAddr;
use std::panic::{AssertUnwindSafe, catch_unwind};
use std::sync::atomic::{AtomicBool, Ordering};

/// The number that stands for a panic of the crate; RULES has none such.
pub const PANIC: u8 = 255;

/// The controller that gives the desired poll exponent and keeps the measurement.
#[derive(Default)]
pub struct Controller {
    pub desired: i8,
    pub measured: Option<Measurement<NtpDuration>>,
}

impl SourceController for Controller {
    type ControllerMessage = ();
    type SourceMessage = ();
    type MeasurementDelay = NtpDuration;
    fn handle_message(&mut self, _: ()) {}
    fn handle_measurement(&mut self, m: Measurement<NtpDuration>) -> Option<()> {
        self.measured = Some(m);
        Some(())
    }
    fn desired_poll_interval(&self) -> PollInterval {
        PollInterval::from_byte(self.desired as u8)
    }
    fn observe(&self) -> ObservableSourceTimedata {
        ObservableSourceTimedata
    }
}

/// What the crate draws from a packet, which is the caller's part of the reply call.
#[derive(Debug, Clone, Default, PartialEq, Eq)]
pub struct Drawn {
    /// The version in the first byte, 0 where there is none.
    pub version: u8,
    /// The crate could decode it.
    pub decoded: bool,
    /// The crate's parse error by name, empty if decoded.
    pub error: String,
    /// Authenticated end, 0 where decryption failed.
    pub auth: usize,
    pub plain: Vec<u8>,
    pub cookies: Vec<Vec<u8>>,
    pub v5: Option<Decoded>,
    /// Type and body of each field of a V4 packet that the crate could decode, but for the 0404 fields.
    pub fields: Option<Vec<(u16, Vec<u8>)>>,
    /// Without NTS no rule reads the cookie list; then every other reply hands over one that is broken, where `BROKEN_LISTS` says so.
    pub broken_list: bool,
}

/// Whether there are such replies: beside the library, and not in the logs that `compare` writes and the sample keeps.
pub static BROKEN_LISTS: AtomicBool = AtomicBool::new(false);
/// A list that is broken: its only head is cut off.
pub const BROKEN_LIST: [u8; 3] = [0xC0, 0x0E, 0];

fn leap_code(l: NtpLeapIndicator) -> u8 {
    match l {
        NtpLeapIndicator::NoWarning => 0,
        NtpLeapIndicator::Leap61 => 1,
        NtpLeapIndicator::Leap59 => 2,
        NtpLeapIndicator::Unknown => 3,
        NtpLeapIndicator::Unsynchronized => 4,
    }
}

/// A crate's record as the rules have it: tries held at 255, no bytes of a cookie over 724.
fn state_of(r: &Record, answered: bool, capacity: u8) -> State {
    let (read, cookies) = r.stash.clone().unwrap_or_default();
    State {
        reach: r.reach,
        tries: r.tries.min(255) as u8,
        version: r.version,
        last: r.last_poll,
        remote: r.remote_min,
        pending: r.pending.map(|(id, uid, deadline)| (id, uid.unwrap_or([0; 32]), deadline)),
        answered,
        unanswered: r.unanswered as u8,
        denial: r.denied,
        stratum: r.stratum,
        refid: u32::from_be_bytes(r.reference_id),
        read,
        cookies: cookies.iter().map(|c| stored(c)).collect(),
        capacity,
    }
}

/// A crate's action, with what is looked at.
#[derive(PartialEq)]
enum Action {
    Send(Vec<u8>),
    Update { measurement: bool },
    Timer { zero: bool },
    Reset,
    Demobilize,
}

fn actions(from: NtpSourceActionIterator<()>) -> Vec<Action> {
    from.map(|a| match a {
        NtpSourceAction::Send(p) => Action::Send(p),
        NtpSourceAction::UpdateSystem(u) => Action::Update { measurement: u.has_message() },
        NtpSourceAction::SetTimer(d) => Action::Timer { zero: d.is_zero() },
        NtpSourceAction::Reset => Action::Reset,
        NtpSourceAction::Demobilize => Action::Demobilize,
    })
    .collect()
}

/// How many cookies fell out of the crate's stash, and their lengths summed. The crate says neither; but what it held and was given,
/// without what it holds, is what fell out.
fn fallen(before: &[Vec<u8>], given: &[Vec<u8>], after: &[Vec<u8>]) -> (u64, u64) {
    let lengths = |cookies: &[Vec<u8>]| cookies.iter().map(Vec::len).sum::<usize>();
    let count = before.len() + given.len() - after.len();
    (count as u64, (lengths(before) + lengths(given) - lengths(after)) as u64)
}

pub struct Exec {
    source: Option<NtpSource<Controller>>,
    pub nts: bool,
    startup: usize,
    /// What `new` was given; the crate's stash has eight slots, whatever it is.
    capacity: u8,
    /// The crate has handed out a measurement since it last sent a poll: from its actions alone, since it keeps no such fact.
    answered: bool,
    /// A reply that is ignored (12, 13, 14) and one that does not match (4) leave the same text; the former stands first in the file.
    line_of_ignored: u32,
    /// What the last timer sent, up to its 0404 field; none where it sent nothing.
    pub packet: Option<Vec<u8>>,
}

impl Exec {
    pub fn new() -> Self {
        let line_of_ignored = include_str!("../../published/source.rs")
            .lines()
            .position(|l| l.contains("Received old/unexpected packet from source"))
            .unwrap() as u32
            + 1;
        Exec { source: None, nts: false, startup: 3, capacity: 8, answered: false, line_of_ignored, packet: None }
    }

    fn source(&mut self) -> &mut NtpSource<Controller> {
        self.source.as_mut().unwrap()
    }

    /// The cookies in the crate's stash.
    fn held(&mut self) -> Vec<Vec<u8>> {
        self.source().record().stash.map_or(vec![], |(_, cookies)| cookies)
    }

    pub fn state(&mut self) -> State {
        let (answered, capacity) = (self.answered, self.capacity);
        state_of(&self.source().record(), answered, capacity)
    }

    /// Makes the crate's record that of the rules, after a step where they differ for a listed reason.
    pub fn follow(&mut self, s: &State) {
        self.answered = s.answered;
        let mut r = self.source().record();
        r.reach = s.reach;
        r.tries = s.tries as usize;
        r.version = s.version;
        r.last_poll = s.last;
        r.remote_min = s.remote;
        r.pending = s.pending.map(|(id, uid, deadline)| (id, self.nts.then_some(uid), deadline));
        r.denied = s.denial;
        r.stratum = s.stratum;
        r.reference_id = s.refid.to_be_bytes();
        if self.nts {
            let cookies = s.cookies.iter().map(|(n, b)| if *n > STORED { vec![0; *n] } else { b.clone() }).collect();
            r.stash = Some((s.read, cookies));
        }
        self.source().set_record(&r);
    }

    /// Makes the crate's association that of a loaded file: a new one with the file's settings, and then its record. The crate
    /// has no hand-over, but its record has all that a file has.
    pub fn load(&mut self, r: &Rules) {
        (self.nts, self.capacity, self.startup) = (r.nts, r.state.capacity, r.startup as usize);
        set_window(r.window);
        let source = SocketAddr::new(std::net::Ipv4Addr::from(r.source).into(), 123);
        let (made, _) = NtpSource::make(source, r.min, r.max, r.start, Controller::default(), r.nts.then_some(&[]));
        self.source = Some(made);
        self.follow(&r.state);
    }

    pub fn run(&mut self, op: &Op) -> (Answer, Option<Drawn>) {
        tracing::oracle::take();
        rand::oracle::clear();
        self.packet = None;
        match op {
            Op::New { nts, min, max, startup, window, start, source, cookies, capacity } => {
                self.nts = *nts;
                self.capacity = *capacity;
                self.answered = false;
                self.startup = *startup as usize;
                set_window(*window);
                let (made, acts) = NtpSource::make(
                    SocketAddr::new(*source, 123),
                    *min,
                    *max,
                    *start,
                    Controller::default(),
                    nts.then_some(cookies.as_slice()),
                );
                self.source = Some(made);
                assert!(actions(acts) == [Action::Timer { zero: true }]);
                let given = if *nts { cookies.as_slice() } else { &[] };
                (Answer { dropped: Some(fallen(&[], given, &self.held())), ..Answer::default() }, None)
            }
            Op::Timer { now, desired, id, uid, .. } => (self.timer(*now, *desired, *id, uid), None),
            Op::Save { .. } | Op::Load { .. } | Op::Break(_) => panic!("the crate has no such thing"),
            Op::Reply { now, t1, t4, packet, fail } => {
                set_now(*now);
                FakeCipher::force_fail(*fail);
                let mut drawn = catch_unwind(AssertUnwindSafe(|| self.draw(packet))).unwrap_or_default();
                drawn.broken_list = BROKEN_LISTS.load(Ordering::Relaxed) && !self.nts && t4 % 2 == 1;
                let before = self.held();
                let mut answer = self.reply(*now, *t1, *t4, packet);
                if answer.number == 0 {
                    let given = if self.nts { drawn.cookies.as_slice() } else { &[] };
                    answer.dropped = Some(fallen(&before, given, &self.held()));
                }
                FakeCipher::force_fail(false);
                (answer, Some(drawn))
            }
            Op::Accept { stratum, local, bloom } => {
                let mut snapshot = NtpSourceSnapshot::from_source(self.source());
                // A server identifier draws ten different 12-bit numbers; the system's own is not the other one.
                rand::oracle::push_bytes(&[0, 1, 0, 2, 0, 3, 0, 4, 0, 5, 0, 6, 0, 7, 0, 8, 0, 9, 0, 10]);
                let system = SystemSnapshot::default();
                rand::oracle::push_bytes(&[1, 1, 1, 2, 1, 3, 1, 4, 1, 5, 1, 6, 1, 7, 1, 8, 1, 9, 1, 10]);
                let other = ServerId::default();
                snapshot.bloom_filter = (*bloom != Bloom::None).then(|| {
                    let mut f = BloomFilter::new();
                    f.add_id(if *bloom == Bloom::Present { &system.server_id } else { &other });
                    f
                });
                let number = match snapshot.accept_synchronization(*stratum, local, &system) {
                    Ok(()) => 0,
                    Err(AcceptSynchronizationError::Stratum) => 40,
                    Err(AcceptSynchronizationError::Loop) => 41,
                    Err(AcceptSynchronizationError::ServerUnreachable) => 42,
                    Err(AcceptSynchronizationError::Distance) => panic!("Distance is never given"),
                };
                (Answer { number, ..Answer::default() }, None)
            }
            Op::Poke(pairs) => {
                let mut r = self.source().record();
                for (key, value) in pairs {
                    match *key {
                        "reach" => r.reach = *value as u8,
                        // The crate keeps no such number: it counts the zeros of its reach.
                        "unanswered" => {}
                        "tries" => r.tries = *value as usize,
                        "stratum" => r.stratum = *value as u8,
                        "last" => r.last_poll = *value as i8,
                        "remote" => r.remote_min = *value as i8,
                        "answered" => self.answered = *value != 0,
                        other => panic!("no number {other}"),
                    }
                }
                self.source().set_record(&r);
                (Answer::default(), None)
            }
        }
    }

    fn timer(&mut self, now: u64, desired: i8, id: u64, uid: &[u8; 32]) -> Answer {
        let (nts, startup) = (self.nts, self.startup);
        set_now(now);
        rand::oracle::push_bytes(&id.to_be_bytes());
        if nts {
            rand::oracle::push_bytes(uid);
        }
        rand::oracle::push_float(1.03);
        let oldest = self.source().record().stash.and_then(|(_, c)| c.first().cloned());
        let source = self.source();
        source.controller().desired = desired;
        // STARTUP_TRIES_THRESHOLD is a constant (3) and only that test reads `tries`: another limit is shown as 0 or 3.
        let tries = source.tries();
        if startup != 3 {
            source.set_tries(if tries >= startup { 3 } else { 0 });
        }
        let shown = source.tries();
        let result = catch_unwind(AssertUnwindSafe(|| source.handle_timer()));
        let polled = source.tries() - shown;
        source.set_tries(tries.saturating_add(polled));
        let (_, text) = tracing::oracle::take();
        let number = |number| Answer { number, ..Answer::default() };
        let Ok(acts) = result else { return number(PANIC) };
        match actions(acts).as_slice() {
            [Action::Demobilize] => number(22),
            [Action::Reset] if polled == 0 => number(21),
            [Action::Reset] if text.contains("Cookie too large") => number(24),
            [Action::Reset] => number(23),
            [Action::Send(p), Action::Update { measurement: false }, Action::Timer { zero: false }] => {
                assert_eq!(rand::oracle::left(), (0, 0));
                let poll = source.record().last_poll;
                self.answered = false;
                let end = if nts { requests::authenticator(p) } else { p.len() };
                self.packet = Some(p[..end].to_vec());
                Answer { number: 20, sent: Some(sent(p, poll, id, nts.then_some(uid), oldest)), ..Answer::default() }
            }
            _ => panic!("actions that RULES does not name"),
        }
    }

    fn reply(&mut self, now: u64, t1: u64, t4: u64, packet: &[u8]) -> Answer {
        let (line_of_ignored, answered) = (self.line_of_ignored, self.answered);
        tracing::oracle::take();
        let source = self.source();
        // The crate has one event for a reply without a live request. Which of the three it is, its record before and its actions so
        // far tell.
        let ignored = match (source.record().pending, answered) {
            (Some(_), _) => 14,
            (None, true) => 13,
            (None, false) => 12,
        };
        source.controller().measured = None;
        let result = catch_unwind(AssertUnwindSafe(|| {
            source.handle_incoming(packet, NtpInstant::now(), NtpTimestamp::of(t1), NtpTimestamp::of(t4))
        }));
        let (line, text) = tracing::oracle::take();
        let measured = source.controller().measured.take().map(|m| Measured {
            delay: m.delay.raw(),
            offset: m.offset.raw(),
            local: m.localtime.raw(),
            mono: m.monotime.nanos(),
            stratum: m.stratum,
            root_delay: m.root_delay.raw(),
            root_dispersion: m.root_dispersion.raw(),
            leap: leap_code(m.leap),
            precision: m.precision,
        });
        assert!(measured.as_ref().is_none_or(|m| m.mono == now));
        let Ok(acts) = result else { return Answer { number: PANIC, ..Answer::default() } };
        let number = match actions(acts).as_slice() {
            [Action::Update { measurement: true }] => 0,
            [Action::Demobilize] => 7,
            [] => match text {
                t if t.contains("received invalid packet") => 1,
                t if t.contains("unexpected version") => 2,
                t if t.contains("old/unexpected") && line == line_of_ignored => ignored,
                t if t.contains("old/unexpected") => 4,
                t if t.contains("requested rate limit") => 5,
                t if t.contains("denied service") => 6,
                t if t.contains("not-acknowledge") => 8,
                t if t.contains("Unrecognized KISS") => 9,
                t if t.contains("excessive stratum") => 10,
                t if t.contains("invalid mode") => 11,
                t => panic!("no number for the event {t}"),
            },
            _ => panic!("actions that RULES does not name"),
        };
        assert_eq!(measured.is_some(), number == 0);
        self.answered |= number == 0;
        Answer { number, measured, ..Answer::default() }
    }

    /// What the crate draws from a packet; where it refuses a V4 one, what the caller hands over is that of part 7's walk, since
    /// the rule may still decode it.
    fn draw(&mut self, packet: &[u8]) -> Drawn {
        let mut d = Drawn { auth: 48, ..Drawn::default() };
        d.version = packet.first().map_or(0, |b| (b >> 3) & 7);
        let record = self.source().record();
        FakeCipher::take_seen();
        let cipher: Option<&dyn Cipher> = self.nts.then_some(&FakeCipher);
        match NtpPacket::deserialize(packet, &cipher) {
            Ok((p, _)) => {
                d.decoded = true;
                d.cookies = p.new_cookies().collect();
                d.fields = (d.version == 4).then(|| p.fields());
                if let NtpHeader::V5(h) = p.header() {
                    let uid = record.pending.and_then(|(_, uid, _)| uid).unwrap_or([0; 32]);
                    d.v5 = Some(Decoded {
                        leap: leap_code(p.leap()),
                        response: p.mode() == NtpAssociationMode::Server,
                        stratum: p.stratum(),
                        poll: p.poll().as_log(),
                        precision: p.precision(),
                        root_delay: p.root_delay().raw(),
                        root_dispersion: p.root_dispersion().raw(),
                        receive: p.receive_timestamp().raw(),
                        transmit: p.transmit_timestamp().raw(),
                        identifier: u64::from_be_bytes(h.client_cookie.0),
                        kiss: [
                            p.is_kiss_rate(PollInterval::from_byte(record.last_poll as u8)),
                            p.is_kiss_deny(),
                            p.is_kiss_rstr(),
                            p.is_kiss_ntsn(),
                            p.is_kiss(),
                        ],
                        uid: p.uid_groups(&uid),
                    });
                }
            }
            Err(PacketParsingError::DecryptError(_)) => d.error = "DecryptError".into(),
            Err(e) => d.error = format!("{e:?}"),
        }
        for (end, plain) in FakeCipher::take_seen() {
            if d.decoded {
                d.auth = end;
                d.plain.extend(plain.unwrap());
            }
        }
        let whole = d.version == 4 && packet.len() >= 48 && rules::walk(packet, 48, 16, 24).is_some();
        if whole {
            let (auth, plain) = self.callers_part(packet);
            if d.decoded {
                assert_eq!((auth, &plain), (d.auth, &d.plain), "the caller's walk and the crate's part");
            }
            (d.auth, d.plain) = (auth, plain);
        }
        d
    }

    /// Authenticated end and decrypted bytes by part 7's walk: 0 where a 0404 field is broken, is met without NTS or does
    /// not decrypt; it stops behind decrypted fields that are broken, as the crate does.
    fn callers_part(&self, packet: &[u8]) -> (usize, Vec<u8>) {
        let (mut auth, mut plain) = (48, vec![]);
        let (fields, _) = rules::walk(packet, 48, 16, 24).unwrap();
        for (_, at, body) in fields.into_iter().filter(|f| f.0 == 0x0404) {
            let decrypted =
                sealed(body).filter(|_| self.nts).and_then(|(nonce, text)| FakeCipher.decrypt(nonce, text, &packet[..at]).ok());
            FakeCipher::take_seen();
            let Some(p) = decrypted else { return (0, vec![]) };
            auth = at;
            plain.extend(&p);
            if rules::walk(&p, 0, 4, 0).is_none() {
                break;
            }
        }
        (auth, plain)
    }
}

/// Nonce and ciphertext of a 0404 field, if they fit.
fn sealed(body: &[u8]) -> Option<(&[u8], &[u8])> {
    let at = |i: usize| Some(u16::from_be_bytes([*body.get(i)?, *body.get(i + 1)?]) as usize);
    let (nonce, text) = (at(0)?, at(2)?);
    let start = 4 + nonce.next_multiple_of(4);
    Some((body.get(4..4 + nonce)?, body.get(start..start + text)?))
}

/// A sent packet, read with a few lines of our own; identifier, uid and cookie must be the ones given.
fn sent(p: &[u8], poll: i8, id: u64, uid: Option<&[u8; 32]>, oldest: Option<Vec<u8>>) -> Sent {
    let version = (p[0] >> 3) & 7;
    let place = if version == 5 { 24 } else { 40 };
    assert_eq!(p[place..place + 8], id.to_be_bytes());
    assert_eq!(p[2] as i8, poll);
    let (mut cookie, mut asked, mut at) = (None, 0, 48);
    while at < p.len() {
        let n = u16::from_be_bytes([p[at + 2], p[at + 3]]) as usize;
        let body = &p[at + 4..at + n];
        match [p[at], p[at + 1]] {
            [1, 4] => assert_eq!(body, uid.unwrap()),
            [2, 4] => {
                asked += 1;
                cookie = Some(body);
            }
            [3, 4] => asked += 1,
            _ => {}
        }
        at += n.next_multiple_of(4);
    }
    // On the wire the cookie is padded with zeros.
    let cookie = cookie.map_or(vec![], |wire| {
        let oldest = oldest.unwrap();
        assert!(wire.starts_with(&oldest) && wire[oldest.len()..].iter().all(|b| *b == 0));
        oldest
    });
    let kind = match (version, asked > 0) {
        (4, false) if p[16..24] == UPGRADE_MARK.to_be_bytes() => "v4-upgrade",
        (4, false) => "v4",
        (5, false) => "v5",
        (4, true) => "nts-v4",
        _ => "nts-v5",
    };
    Sent { kind, poll, cookie, asked }
}
