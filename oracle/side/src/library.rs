//! An association of the library, its answers and its record brought to the terms of RULES.
use crate::ffi::{self, Association, Decoded, Field, Loaded, Made, Replied, Settings};
use crate::identifiers::ReferenceId;
use crate::wrong::Wrong;
use driver::both::Step;
use driver::exec::{Drawn, BROKEN_LIST, BROKEN_LISTS};
use driver::requests::Request;
use driver::rules::Rules;
use driver::state::*;
use driver::whole::{self, HEAD, ROW};
use driver::{handover, rules};
use ntp_proto::tls_utils::identifier_of;
use std::mem::MaybeUninit;
use std::sync::atomic::Ordering;

/// Bytes before and behind what is lent, which no call may touch.
pub const BESIDE: usize = 16;
const FILL: u8 = 0xA5;
/// The drill's own buffer, where a command names no room.
const ROOM: usize = 1024;
/// Cookie lists that are broken: a head that is cut off, another mark, a length past the end, and a whole entry before a head that is
/// cut off. The first is broken as decrypted fields, too.
const BROKEN: [&[u8]; 4] = [&[0xC0, 0x0E, 0], &[0xC0, 0x0F, 0, 0], &[0xC0, 0x0E, 0, 3, 1, 2], &[0xC0, 0x0E, 0, 1, 7, 0xC0]];
/// The kinds of a request, by their codes.
pub const KINDS: [&str; 6] = ["nothing", "v4", "v4-upgrade", "v5", "nts-v4", "nts-v5"];

pub struct Library {
    /// The record, between bytes that are not lent.
    bytes: Vec<u8>,
    settings: Settings,
    buffer: Vec<u8>,
    metered: bool,
    wrong: Option<Wrong>,
    /// The drill's commands for the copy of the record that was broken last.
    pub pokes: Vec<String>,
    /// The drill's words for a call that is made beside a step, where the step's command has others.
    pub instead: Vec<(&'static str, String)>,
}

pub type Found<T> = Result<T, String>;

/// The place of a record, in bytes that are lent; they may be any.
fn place<const SLOTS: usize>(bytes: &mut [u8]) -> &mut MaybeUninit<Association<SLOTS>> {
    assert_eq!(bytes.len(), Association::<SLOTS>::BYTES);
    // SAFETY: there are as many bytes as the struct has, it has no alignment, and they stay lent exclusively.
    unsafe { &mut *bytes.as_mut_ptr().cast() }
}

fn made_in<const SLOTS: usize>(bytes: &mut [u8], metered: bool, settings: Settings, list: &[u8]) -> Made {
    let call = if metered { ffi::metered } else { ffi::new };
    call(place::<SLOTS>(bytes), settings, list).0
}

fn loaded_in<const SLOTS: usize>(bytes: &mut [u8], file: &[u8]) -> Loaded {
    ffi::load(place::<SLOTS>(bytes), file).0
}

/// The call for as many slots as the bytes have places.
macro_rules! sized {
    ($bytes:expr, $call:ident, $($more:expr),*) => {
        match ($bytes.len() - HEAD) / ROW {
            1 => $call::<1>($bytes, $($more),*),
            2 => $call::<2>($bytes, $($more),*),
            3 => $call::<3>($bytes, $($more),*),
            4 => $call::<4>($bytes, $($more),*),
            5 => $call::<5>($bytes, $($more),*),
            6 => $call::<6>($bytes, $($more),*),
            7 => $call::<7>($bytes, $($more),*),
            _ => $call::<8>($bytes, $($more),*),
        }
    };
}

/// A record of some bytes, as many as 1 to 8 slots have, made in place.
pub fn make_in(bytes: &mut [u8], metered: bool, settings: Settings, list: &[u8]) -> Made {
    sized!(bytes, made_in, metered, settings, list)
}

pub fn load_in(bytes: &mut [u8], file: &[u8]) -> Loaded {
    sized!(bytes, loaded_in, file)
}

/// The settings that an association has by the rules.
fn settings_of(r: &Rules) -> Settings {
    Settings {
        window: r.window,
        upgrademark: r.mark,
        source: r.source,
        start: code(r.start),
        nts: r.nts as u16,
        capacity: r.state.capacity,
        startup: r.startup,
        min: r.min,
        max: r.max,
        ..Settings::default()
    }
}

pub fn code(v: Version) -> u32 {
    match v {
        Version::V4 => 0,
        Version::V4UpgradingToV5 { .. } => 1,
        Version::UpgradedToV5 => 2,
        Version::V5 => 3,
    }
}

pub fn must(holds: bool, what: &str) -> Found<()> {
    holds.then_some(()).ok_or_else(|| what.to_string())
}

/// A number as the driver has it; cut to a byte, a wrong one could pass for another.
pub fn small(number: u32) -> Found<u8> {
    u8::try_from(number).map_err(|_| format!("{number}, which no answer has"))
}

/// A buffer of which `room` bytes are lent, full of what no answer is made of.
pub fn lend(buffer: &mut Vec<u8>, room: usize) -> &mut [u8] {
    buffer.clear();
    buffer.resize(room + 2 * BESIDE, FILL);
    &mut buffer[BESIDE..BESIDE + room]
}

pub fn untouched(bytes: &[u8]) -> bool {
    bytes.iter().all(|b| *b == FILL)
}

impl Library {
    pub fn new(metered: bool, wrong: Option<Wrong>) -> Self {
        BROKEN_LISTS.store(true, Ordering::Relaxed);
        Library { bytes: vec![], settings: Settings::default(), buffer: vec![], metered, wrong, pokes: vec![], instead: vec![] }
    }

    /// The bytes of a record as long as the capacity asks for, between bytes that are not lent.
    fn clear(&mut self, capacity: u8) {
        self.bytes.clear();
        self.bytes.resize(HEAD + ROW * capacity as usize + 2 * BESIDE, FILL);
    }

    fn record(&mut self) -> &mut [u8] {
        let end = self.bytes.len() - BESIDE;
        &mut self.bytes[BESIDE..end]
    }

    /// Makes the call of an operation, and gives its answer and the record after it; else says what no call may do.
    pub fn step(&mut self, op: &Op, step: &Step) -> Found<(Answer, State)> {
        let mut answer = match op {
            Op::New { nts, min, max, startup, window, start, source, cookies, capacity } => {
                self.settings = Settings {
                    window: *window,
                    upgrademark: UPGRADE_MARK,
                    source: identifier_of(*source),
                    start: code(*start),
                    nts: *nts as u16,
                    capacity: *capacity,
                    startup: *startup,
                    min: *min,
                    max: *max,
                    ..Settings::default()
                };
                self.make(&list(cookies))?
            }
            Op::Timer { now, desired, id, uid, room } => {
                self.short(*now, *desired, *id, uid)?;
                let mut buffer = std::mem::take(&mut self.buffer);
                let answer = timed(self.record(), &mut buffer, room.map_or(ROOM, usize::from), *now, *desired, *id, uid)?;
                self.buffer = buffer;
                if let (Some(sent), Some(packet)) = (&answer.sent, &step.packet) {
                    self.write_request(sent, packet, *id, *uid, step)?;
                }
                answer
            }
            Op::Reply { now, t1, t4, packet, .. } => {
                let d = step.drawn.as_ref().ok_or("a reply of which nothing was drawn")?;
                if d.version == 4 && packet.len() >= 48 {
                    fields(packet, d, self.wrong)?;
                }
                match &d.v5 {
                    // It has no decoded form, so there is nothing to hand over.
                    None if step.left_out => step.of_rules.0.clone(),
                    None => {
                        let collected = self.collect(d)?;
                        self.otherwise(packet, d, *t1, *t4, *now)?;
                        let list = if d.broken_list { BROKEN_LIST.to_vec() } else { collected };
                        let said = ffi::reply(self.record(), packet, d.auth, &d.plain, &list, *t1, *t4, *now);
                        replied(said)?
                    }
                    Some(v5) => {
                        self.with_broken_list(33, *t4, |copy, list| {
                            ffi::reply_decoded(copy, decoded(v5), list, *t1, *t4, *now)
                        })?;
                        let list = if d.broken_list { BROKEN_LIST.to_vec() } else { list(&d.cookies) };
                        let said = ffi::reply_decoded(self.record(), decoded(v5), &list, *t1, *t4, *now);
                        replied(said)?
                    }
                }
            }
            Op::Accept { stratum, local, bloom } => {
                let local: Vec<_> = local.iter().map(|ip| ReferenceId::from_bits(identifier_of(*ip))).collect();
                let number = ffi::accept(self.record(), *stratum, &local, *bloom as u32);
                Answer { number: small(number)?, ..Answer::default() }
            }
            Op::Poke(pairs) => {
                for (key, value) in pairs {
                    let at = match *key {
                        "reach" => 29,
                        "tries" => 30,
                        "unanswered" => 31,
                        "last" => 34,
                        "remote" => 35,
                        "stratum" => 36,
                        "answered" => 43,
                        other => return Err(format!("no place of the record for {other}")),
                    };
                    self.record()[at] = *value as u8;
                }
                Answer::default()
            }
            Op::Save { room } => self.save(room.map_or(handover::LONGEST, usize::from))?,
            Op::Load { file } => self.load(file, step)?,
            Op::Break(changes) => {
                self.broken(changes)?;
                Answer::default()
            }
        };
        if let Some(wrong) = self.wrong {
            wrong.spoil(&mut answer, &mut self.bytes, BESIDE);
        }
        Ok((answer, self.state()?))
    }

    fn make(&mut self, list: &[u8]) -> Found<Answer> {
        let (metered, settings) = (self.metered, self.settings);
        self.clear(settings.capacity);
        let said = make_in(self.record(), metered, settings, list);
        must(said.number == 0 && said.made == 1, &format!("new: number {}, made {}", said.number, said.made))?;
        Ok(Answer { dropped: Some((said.dropped, said.lost)), ..Answer::default() })
    }

    /// The same call on a copy of the record, with a buffer too short for a cookie: 31 with NTS; without it no buffer is looked at.
    fn short(&mut self, now: u64, desired: i8, id: u64, uid: &[u8; 32]) -> Found<()> {
        let (mut copy, room) = (self.record().to_vec(), id as usize % STORED);
        let mut rules = whole::whole(&copy).ok_or("timer: the record before it is not whole")?;
        let refused = Answer { number: 31, ..Answer::default() };
        let expected = if rules.nts { refused } else { rules.timer(now, desired, id, uid) };
        self.instead = vec![("room", room.to_string())];
        let said = timed(&mut copy, &mut self.buffer, room, now, desired, id, uid)?;
        must(said == expected, &format!("timer: {said:?} with a short buffer, expected {expected:?}"))?;
        must(whole::whole(&copy) == Some(rules), "timer: another record than the rule's with a short buffer")?;
        self.instead.clear();
        Ok(())
    }

    /// The same reply on copies of the record: with a broken cookie list, and with another authenticated end, which the caller may get wrong. Without NTS no
    /// rule reads decrypted bytes, and those that are handed over are broken.
    fn otherwise(&mut self, packet: &[u8], d: &Drawn, t1: u64, t4: u64, now: u64) -> Found<()> {
        let mut copy = self.record().to_vec();
        let rules = whole::whole(&copy).ok_or("reply: the record before it is not whole")?;
        let plain = if rules.nts { &d.plain[..] } else { BROKEN[0] };
        let cookies = rules::collect(&d.plain).unwrap_or_default();
        if rules.nts {
            let first = rules.clone().reply(packet, d.auth, plain, &cookies, t1, t4, now).number;
            let number = if first == 1 { 1 } else { 33 };
            self.with_broken_list(number, t4, |copy, list| ffi::reply(copy, packet, d.auth, plain, list, t1, t4, now))?;
        }
        let mut ends = vec![0, 47, 48, 49, 52, 64, packet.len(), packet.len() + 4, usize::MAX];
        ends.extend(
            rules::walk(packet, 48, 16, 24).into_iter().flat_map(|walked| walked.0).flat_map(|field| [field.1, field.1 + 2]),
        );
        let (end, mut after) = (ends[t1 as usize % ends.len()], rules);
        let expected = after.reply(packet, end, plain, &cookies, t1, t4, now);
        self.instead = vec![("auth", end.to_string()), ("plain", bytes(plain)), ("list", bytes(&list(&cookies)))];
        let said = replied(ffi::reply(&mut copy, packet, end, plain, &list(&cookies), t1, t4, now))?;
        must(said == expected, &format!("reply: {said:?} with the authenticated end {end}, expected {expected:?}"))?;
        must(
            whole::whole(&copy) == Some(after),
            &format!("reply: another record than the rule's with the authenticated end {end}"),
        )?;
        self.instead.clear();
        Ok(())
    }

    /// A reply with a broken cookie list, on a copy of the record: the number, and nothing changes.
    fn with_broken_list(&mut self, number: u8, which: u64, call: impl Fn(&mut [u8], &[u8]) -> Replied) -> Found<()> {
        if self.settings.nts == 0 {
            return Ok(());
        }
        let (mut copy, list) = (self.record().to_vec(), BROKEN[which as usize % BROKEN.len()]);
        self.instead = vec![("list", bytes(list))];
        let said = replied(call(&mut copy, list))?;
        must(said.number == number, &format!("reply: {} with a broken list, expected {number}", said.number))?;
        must(copy == self.record(), "reply: the record was changed, with a broken list")?;
        self.instead.clear();
        Ok(())
    }

    /// The request of a poll that was sent: the crate's packet, up to its 0404 field, in a buffer that is just long enough. Of a smaller
    /// stash the crate asks for more, so its packet functions write the one with our number.
    fn write_request(&mut self, sent: &Sent, packet: &[u8], id: u64, uid: [u8; 32], step: &Step) -> Found<()> {
        let kind = KINDS.iter().position(|k| *k == sent.kind).unwrap_or(0) as u8;
        let (mark, cookie, asked) = (self.settings.upgrademark, sent.cookie.clone(), sent.asked);
        let as_many = step.of_crate.0.sent.as_ref().is_some_and(|s| s.asked == asked);
        let v5 = sent.kind.ends_with("v5");
        let request = Request { kind: sent.kind, poll: sent.poll, id, mark, uid, cookie, asked, room: 0 };
        let packet = if v5 {
            vec![]
        } else if as_many {
            packet.to_vec()
        } else {
            request.packet()
        };
        let (number, room) = if v5 { (50, packet.len().max(1000)) } else { (0, packet.len()) };
        let lent = lend(&mut self.buffer, room);
        let said = ffi::write_request(kind, sent.poll, id, mark, uid, &request.cookie, asked, lent);
        must(
            (said.number, said.written, said.length) == (number, (number == 0) as u32, packet.len() as u64),
            &format!("write_request: number {}, length {}; expected {number}, {}", said.number, said.length, packet.len()),
        )?;
        if self.wrong == Some(Wrong::Request) && number == 0 {
            // The last byte of the header.
            self.buffer[BESIDE + 47] ^= 1;
        }
        let (end, buffer) = (BESIDE + packet.len(), &self.buffer);
        must(
            buffer[BESIDE..end] == packet,
            &format!("write_request: not the packet that the crate sends, {}", bytes(&packet)),
        )?;
        must(untouched(&buffer[..BESIDE]) && untouched(&buffer[end..]), "write_request: bytes past the packet were written")
    }

    fn save(&mut self, room: usize) -> Found<Answer> {
        let mut buffer = std::mem::take(&mut self.buffer);
        let said = ffi::save(self.record(), lend(&mut buffer, room));
        let length = said.length as usize;
        must(said.written == (said.number == 0) as u32, "save: number and written do not go together")?;
        must(
            length <= room && (said.number == 0 || length == 0),
            "save: the file is longer than the buffer, or refused and long",
        )?;
        must(
            untouched(&buffer[..BESIDE]) && untouched(&buffer[BESIDE + length..]),
            "save: bytes of the buffer past the file were written",
        )?;
        let file = (said.number == 0).then(|| buffer[BESIDE..BESIDE + length].to_vec());
        self.buffer = buffer;
        Ok(Answer { number: small(said.number)?, file, ..Answer::default() })
    }

    /// A file that is refused is loaded over a copy, which has to be blank then; so is one of another size, which has to stay.
    fn load(&mut self, file: &[u8], step: &Step) -> Found<Answer> {
        let Some(rules) = &step.loaded else {
            let mut copy = self.record().to_vec();
            let said = load_in(&mut copy, file);
            must(said.retired == 0, "load: refused and retired")?;
            must(copy.iter().all(|b| *b == 0), "load: refused, and the record is not blank")?;
            blank(&mut copy, self.settings.nts == 1, self.wrong)?;
            return Ok(Answer { number: small(said.number)?, ..Answer::default() });
        };
        let other = if rules.state.capacity == 8 { 1 } else { rules.state.capacity + 1 };
        let mut copy = vec![FILL; HEAD + ROW * other as usize];
        let said = load_in(&mut copy, file);
        must((said.number, said.retired) == (31, 0) && untouched(&copy), "load: a record of another size was not left alone")?;
        self.settings = settings_of(rules);
        self.clear(rules.state.capacity);
        let said = load_in(self.record(), file);
        must(said.retired < 2, "load: retired is a code that no answer has")?;
        Ok(Answer { number: small(said.number)?, retired: Some(said.retired == 1), ..Answer::default() })
    }

    /// Calls with a copy of the record in which bytes were set by hand: where it is not whole every call answers 32 and leaves it as
    /// it is; where it is, the rules say what its timer, its acceptance and its file are.
    fn broken(&mut self, changes: &[(usize, u8)]) -> Found<()> {
        let mut copy = self.record().to_vec();
        let places: Vec<(usize, u8)> = changes.iter().map(|(at, value)| (at % copy.len(), *value)).collect();
        places.iter().for_each(|(at, value)| copy[*at] = *value);
        self.pokes = places
            .iter()
            .map(|(at, value)| whole::poke(&copy, *at).unwrap_or_else(|| format!("# byte {at} of the record becomes {value}")))
            .collect();
        looked(&copy)?;
        // One byte less and one more than a record has, and less than one without places has.
        for other in [&copy[..copy.len() - 1], &[&copy[..], &[0]].concat(), &copy[..changes[0].0 % HEAD]] {
            looked(other)?;
            refused(other, self.wrong)?;
        }
        let Some(rules) = whole::whole(&copy) else { return refused(&copy, self.wrong) };
        unknown(&copy, changes[0].1, rules.state.stratum)?;
        let call = |copy: &[u8]| copy.to_vec();
        let local = [ReferenceId::from_bits(rules.state.refid)];
        let number = ffi::accept(&copy, 17, &local, 0);
        let expected = rules.accept(17, &[rules.state.refid], Bloom::None).number;
        must(number == expected as u32, &format!("accept: {number} on a record that is whole, expected {expected}"))?;
        let (mut after, mut timed) = (call(&copy), rules.clone());
        let expected = timed.timer(1000, 6, 1, &[1; 32]);
        let said = ffi::timer(&mut after, 1000, 6, 1, [1; 32], lend(&mut self.buffer, ROOM));
        must(said.number == expected.number as u32, &format!("timer: {} on a record that is whole", said.number))?;
        must(whole::whole(&after).as_ref() == Some(&timed), "timer: another record than the rule's")?;
        let (mut after, mut saved) = (call(&copy), rules.clone());
        let file = saved.save(handover::LONGEST).file.unwrap_or_default();
        // A buffer with a byte less than the file has: nothing is written, and the record stays.
        let (mut kept, mut short) = (call(&copy), rules);
        let expected = short.save(file.len() - 1).number;
        let said = ffi::save(&mut kept, lend(&mut self.buffer, file.len() - 1));
        must(
            said.number == expected as u32 && expected != 0,
            &format!("save: {} to a short buffer, expected {expected}", said.number),
        )?;
        must(kept == copy && untouched(&self.buffer), "save: to a short buffer, and bytes were written")?;
        let said = ffi::save(&mut after, lend(&mut self.buffer, file.len()));
        must(said.number == 0 && self.buffer[BESIDE..BESIDE + file.len()] == file, "save: another file than the rule's")?;
        must(whole::whole(&after).as_ref() == Some(&saved), "save: another record than the rule's")
    }

    /// The new cookies of a reply; where the crate decoded it they are the crate's, in a buffer that is just long enough.
    fn collect(&mut self, d: &driver::exec::Drawn) -> Found<Vec<u8>> {
        let of_crate = list(&d.cookies);
        let room = if d.decoded { of_crate.len() } else { d.plain.len() };
        let mut buffer = std::mem::take(&mut self.buffer);
        let said = ffi::collect(&d.plain, lend(&mut buffer, room));
        let length = said.length as usize;
        must(length <= room, "collect: the list is longer than the buffer")?;
        must(said.written == (said.number == 0) as u32, "collect: number and written do not go together")?;
        must(
            untouched(&buffer[..BESIDE]) && untouched(&buffer[BESIDE + length..]),
            "collect: bytes past the list were written",
        )?;
        let collected = buffer[BESIDE..BESIDE + length].to_vec();
        self.buffer = buffer;
        if d.decoded {
            must(
                said.number == 0 && collected == of_crate,
                &format!("collect: number {}, or other cookies than the crate's", said.number),
            )?;
        } else {
            let broken = driver::rules::collect(&d.plain).is_none();
            must(said.number == broken as u32, &format!("collect: number {} for fields the crate refused", said.number))?;
        }
        Ok(collected)
    }

    /// Settings and state by `look`, the cookies by the layout of the record that the header has.
    fn state(&mut self) -> Found<State> {
        let settings = self.settings;
        let size = self.bytes.len();
        must(
            untouched(&self.bytes[..BESIDE]) && untouched(&self.bytes[size - BESIDE..]),
            "bytes beside the record were written",
        )?;
        let record = self.record();
        must(record.len() == HEAD + ROW * settings.capacity as usize, "the record has a wrong size")?;
        let view = ffi::look(record);
        must(view.number == 0, &format!("look: number {}", view.number))?;
        must(view.settings == settings, &format!("look: the settings are {:?}", view.settings))?;
        let s = view.state;
        must(s.left == 0 && s.denial <= 1 && s.answered <= 1 && s.present <= 1, "look: a code that no record has")?;
        must(
            s.present == 1 || (s.id, s.deadline, s.uid) == (0, 0, [0; 32]),
            "look: a request that is not pending is not zero",
        )?;
        let version = [Version::V4, Version::UpgradedToV5, Version::V5].into_iter().find(|v| code(*v) == s.version);
        let (read, held, capacity) = (record[27] as usize, record[28] as usize, settings.capacity as usize);
        must(read < capacity && held <= capacity, "the stash's place or number is out of range")?;
        let mut cookies = vec![];
        for i in 0..capacity {
            let at = HEAD + ROW * ((read + i) % capacity);
            let row = &record[at..at + ROW];
            let length = u16::from_be_bytes([row[724], row[725]]) as usize;
            let kept = if length > STORED { 0 } else { length };
            must(row[kept..STORED].iter().all(|b| *b == 0), "a place of the stash is not zero past its cookie")?;
            must(i < held || length == 0, "a place of the stash that holds nothing has a length")?;
            if i < held {
                cookies.push((length, row[..kept].to_vec()));
            }
        }
        Ok(State {
            reach: s.reach,
            tries: s.tries,
            version: version.ok_or("look: an unknown version")?,
            last: s.last,
            remote: s.remote,
            pending: (s.present == 1).then_some((s.id, s.uid, s.deadline)),
            answered: s.answered == 1,
            unanswered: s.unanswered,
            denial: s.denial == 1,
            stratum: s.stratum,
            refid: s.refid,
            read,
            cookies,
            capacity: settings.capacity,
        })
    }
}

fn decoded(v: &driver::state::Decoded) -> Decoded {
    let group = |g: Option<bool>| match g {
        None => 0,
        Some(true) => 1,
        Some(false) => 2,
    };
    let [rate, deny, rstr, ntsn, any] = v.kiss.map(u8::from);
    Decoded {
        rootdelay: v.root_delay,
        rootdisp: v.root_dispersion,
        receive: v.receive,
        transmit: v.transmit,
        cookie: v.identifier,
        mode: v.response as u32,
        leap: v.leap,
        stratum: v.stratum,
        poll: v.poll,
        precision: v.precision,
        rate,
        deny,
        rstr,
        ntsn,
        any,
        authenticated: group(v.uid[0]),
        encrypted: group(v.uid[1]),
        untrusted: group(v.uid[2]),
    }
}

/// A timer on a record, with so many bytes lent for the cookie.
fn timed(
    record: &mut [u8],
    buffer: &mut Vec<u8>,
    room: usize,
    now: u64,
    desired: i8,
    id: u64,
    uid: &[u8; 32],
) -> Found<Answer> {
    let said = ffi::timer(record, now, desired, id, *uid, lend(buffer, room));
    let length = said.length as usize;
    let answer = if said.number == 20 {
        must(length <= room.min(STORED), "timer: the cookie is longer than the buffer or than a cookie may be")?;
        let kind = KINDS.get(said.kind as usize).ok_or("timer: an unknown kind")?;
        let cookie = buffer[BESIDE..BESIDE + length].to_vec();
        let sent = Sent { kind, poll: said.poll, cookie, asked: small(said.asked.into())? };
        Answer { number: 20, sent: Some(sent), ..Answer::default() }
    } else {
        let rest = (said.kind, said.poll, said.asked, length);
        must(rest == (0, 0, 0, 0), "timer: not all is zero behind a number that is not 20")?;
        Answer { number: small(said.number)?, ..Answer::default() }
    };
    let clean = untouched(&buffer[..BESIDE]) && untouched(&buffer[BESIDE + length..]);
    must(clean, "timer: bytes of the buffer past the cookie were written")?;
    Ok(answer)
}

fn replied(r: Replied) -> Found<Answer> {
    must(r.measured == (r.number == 0) as u8, "reply: number and measured do not go together")?;
    if r.number != 0 {
        let rest =
            (r.leap, r.stratum, r.precision, r.delay, r.offset, r.local, r.mono, r.rootdelay, r.rootdisp, r.dropped, r.lost);
        must(rest == (0, 0, 0, 0, 0, 0, 0, 0, 0, 0, 0), "reply: not all is zero behind a number that is not 0")?;
        return Ok(Answer { number: small(r.number)?, ..Answer::default() });
    }
    let measured = Measured {
        delay: r.delay,
        offset: r.offset,
        local: r.local,
        mono: r.mono,
        stratum: r.stratum,
        root_delay: r.rootdelay,
        root_dispersion: r.rootdisp,
        leap: r.leap,
        precision: r.precision,
    };
    Ok(Answer { measured: Some(measured), dropped: Some((r.dropped, r.lost)), ..Answer::default() })
}

/// What stands at an offset of a V4 packet, by part 7: 0 and a field, 0 and none at the end, 1 where it is broken.
pub fn field_of(packet: &[u8], at: usize) -> Field {
    let told = |number, found, kind, body, length, next| Field { number, found, kind, spare: 0, body, length, next };
    let end = told(0, 0, 0, 0, 0, 0);
    let broken = told(1, 0, 0, 0, 0, 0);
    let Some(rest) = packet.get(at..) else { return broken };
    if rest.len() <= 24 {
        return end;
    }
    let n = u16::from_be_bytes([rest[2], rest[3]]) as u64;
    if n < 16 || !n.is_multiple_of(4) || n > rest.len() as u64 {
        return broken;
    }
    let at = at as u64;
    told(0, 1, u16::from_be_bytes([rest[0], rest[1]]).into(), at + 4, n - 4, at + n)
}

/// The numbers of a field, for comparing.
pub fn told(f: &Field) -> [u64; 7] {
    [f.number.into(), f.found.into(), f.kind.into(), f.spare.into(), f.body, f.length, f.next]
}

/// The fields of a V4 packet, step by step: those of part 7's walk; and where the crate decodes the packet, the crate's, but for the
/// 0404 fields, which it does not keep.
fn fields(packet: &[u8], d: &Drawn, wrong: Option<Wrong>) -> Found<()> {
    let (mut at, mut found) = (48, vec![]);
    loop {
        let mut said = ffi::field_at(packet, at);
        if wrong == Some(Wrong::Field) && said.found == 1 {
            said.kind ^= 1;
        }
        must(told(&said) == told(&field_of(packet, at)), &format!("field_at: {:?} at {at}, not part 7's", told(&said)))?;
        if said.found == 0 {
            // A field of less than 16 bytes is broken by part 7, and read by the crate.
            let whole = rules::walk(packet, 48, 16, 24).is_some();
            let crates = d.fields.as_ref().filter(|_| whole);
            return must(crates.is_none_or(|fields| *fields == found), "field_at: other fields than the crate's");
        }
        if said.kind != 0x0404 {
            let body = &packet[said.body as usize..(said.body + said.length) as usize];
            found.push((said.kind as u16, body.to_vec()));
        }
        at = said.next as usize;
    }
}

/// `look` on any bytes: the numbers where they are a record's, else 32 and nothing.
fn looked(bytes: &[u8]) -> Found<()> {
    let view = ffi::look(bytes);
    let Some(n) = whole::shown(bytes) else {
        let zero = view.settings == Settings::default() && view.state == ffi::State::default();
        return must(view.number == 32 && zero, &format!("look: {} on bytes that are no record's", view.number));
    };
    let settings = Settings {
        window: n.window,
        upgrademark: n.mark,
        source: n.source,
        start: n.start.0.into(),
        nts: n.nts.into(),
        capacity: n.capacity,
        spare: 0,
        left: n.start.1,
        startup: n.startup,
        min: n.min,
        max: n.max,
    };
    let state = ffi::State {
        reach: n.reach,
        tries: n.tries,
        last: n.last,
        remote: n.remote,
        refid: n.refid,
        version: n.version.0.into(),
        left: n.version.1,
        stratum: n.stratum,
        denial: n.denial,
        unanswered: n.unanswered,
        id: n.id,
        deadline: n.deadline,
        uid: n.uid,
        answered: n.answered.into(),
        present: n.present.into(),
    };
    let same = view.number == 0 && view.settings == settings && view.state == state;
    must(same, &format!("look: {} {:?} {:?}, not what the bytes say", view.number, view.settings, view.state))
}

/// Every call answers 32 to bytes that are not a whole record, and changes nothing.
fn refused(bytes: &[u8], wrong: Option<Wrong>) -> Found<()> {
    let (mut copy, mut buffer) = (bytes.to_vec(), vec![]);
    let packet = [&[0x24, 2][..], &[0; 46]].concat();
    let mut timed = ffi::timer(&mut copy, 1000, 6, 1, [1; 32], lend(&mut buffer, ROOM));
    if wrong == Some(Wrong::Whole) {
        timed.number = 20;
    }
    let timer = if (timed.kind, timed.poll, timed.asked, timed.length) == (0, 0, 0, 0) { timed.number } else { 0 };
    let clean = untouched(&buffer);
    let reply = replied(ffi::reply(&mut copy, &packet, 48, &[], &[], 0, 0, 2000))?.number;
    let decoded = replied(ffi::reply_decoded(&mut copy, Decoded::default(), &[], 0, 0, 2000))?.number;
    let unknown = replied(ffi::reply_decoded(&mut copy, Decoded { mode: 9, ..Decoded::default() }, &[], 0, 0, 2000))?.number;
    let accept = ffi::accept(&copy, 17, &[], 0);
    let saved = ffi::save(&mut copy, lend(&mut buffer, handover::LONGEST));
    let save = if (saved.written, saved.length) == (0, 0) { saved.number } else { 0 };
    let numbers = [timer, reply.into(), decoded.into(), unknown.into(), accept, save];
    must(
        numbers == [32; 6],
        &format!("timer, reply, decoded reply, one of no kind, accept, save: {numbers:?} on a record that is not whole"),
    )?;
    must(clean && untouched(&buffer) && copy == bytes, "32, and bytes were written")
}

/// Codes of no kind, beside a record that is whole: 1 from a decoded reply, and 41 from an acceptance, unless our stratum is too low.
fn unknown(bytes: &[u8], code: u8, stratum: u8) -> Found<()> {
    let high = code | 8;
    let d = Decoded::default();
    let mut copy = bytes.to_vec();
    for d in [
        Decoded { mode: high.into(), ..d },
        Decoded { leap: high, ..d },
        Decoded { rate: high, ..d },
        Decoded { any: high, ..d },
        Decoded { authenticated: high, ..d },
        Decoded { untrusted: high, ..d },
    ] {
        let number = replied(ffi::reply_decoded(&mut copy, d, &[], 0, 0, 2000))?.number;
        must(number == 1 && copy == bytes, &format!("reply_decoded: {number} to a code of no kind, {high}"))?;
    }
    let (number, expected) = (ffi::accept(bytes, 255, &[], high.into()), if stratum == 255 { 40 } else { 41 });
    must(number == expected, &format!("accept: {number} to a Bloom word of no kind, {high}"))
}

/// The blank record is shown as no record and refused by every call.
pub fn blank(bytes: &mut [u8], again: bool, wrong: Option<Wrong>) -> Found<()> {
    looked(bytes)?;
    refused(bytes, wrong)?;
    if again {
        bytes.fill(FILL);
        must(ffi::blank(bytes) == 0 && bytes.iter().all(|b| *b == 0), "blank: the bytes are not zero")?;
    }
    Ok(())
}
