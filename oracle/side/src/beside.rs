//! Calls that leave no association behind: requests, settings that are taken or refused, fields and cookies of any bytes, and the tools.
//! What they answer is held to the crate where it writes requests, else to the rules in Rust.
use crate::ffi::{self, Settings};
use crate::library::*;
use driver::handover::{self, in_range};
use driver::random::Rng;
use driver::requests::{Expected, Request, Source};
use driver::rules::{self, Rules};
use driver::state::*;
use driver::{tools, whole};

/// What is asked; its command is a line of the drill.
pub enum Call {
    Request(Request, Expected),
    /// Settings and a first list, for a record of so many slots.
    Make {
        metered: bool,
        settings: Settings,
        list: Vec<u8>,
        slots: u8,
    },
    Fields {
        packet: Vec<u8>,
        at: usize,
    },
    Collect {
        plain: Vec<u8>,
        room: usize,
    },
    Compare {
        left: Vec<u8>,
        right: Vec<u8>,
        room: usize,
    },
    Salvage {
        list: Vec<u8>,
        room: usize,
    },
    Calendar {
        cap: u8,
        entries: Vec<(u16, u16)>,
    },
    Plan {
        cap: u8,
        repeats: Vec<u16>,
        room: usize,
    },
}

/// Which calls are made.
#[derive(Clone, Copy, PartialEq, Eq)]
pub enum Kind {
    Requests,
    Settings,
    Tools,
}

pub struct Maker {
    source: Source,
    kind: Kind,
    made: u64,
}

const MARK: [u8; 2] = [0xC0, 0x0E];

/// The cookies of a list; none where it is broken.
fn cookies_of(mut list: &[u8]) -> Option<Vec<Vec<u8>>> {
    let mut out = vec![];
    while !list.is_empty() {
        let head = list.get(..4).filter(|h| h[..2] == MARK)?;
        let end = 4 + u16::from_be_bytes([head[2], head[3]]) as usize;
        out.push(list.get(4..end)?.to_vec());
        list = &list[end..];
    }
    Some(out)
}

/// The order of `new` and of `metered`, but for the size of the record.
fn number_of(metered: bool, s: &Settings, list: &[u8]) -> u32 {
    let known = (s.start == 1 || s.start < 4 && s.left == 0) && s.nts < 2 && s.spare == 0;
    let cookies = if s.nts == 1 { cookies_of(list) } else { Some(vec![]) };
    let profile =
        [(34, s.min < 8), (35, s.startup > 3), (36, s.start == 1), (37, cookies.iter().flatten().any(|c| c.len() > 100))];
    if !known || !in_range(s.min, s.max, s.startup, s.window, s.capacity) {
        30
    } else if cookies.is_none() {
        33
    } else if metered {
        profile.iter().find(|rule| rule.1).map_or(0, |rule| rule.0)
    } else {
        if s.start == 1 {
            38
        } else {
            0
        }
    }
}

impl Maker {
    /// `seed` says where among the pairs of a cookie's length and a number asked the requests begin.
    pub fn new(r: Rng, kind: Kind, seed: u64) -> Self {
        Maker { source: Source::new(r, seed.wrapping_mul(1750), seed as usize % 725), kind, made: 0 }
    }

    pub fn ended(&self) -> bool {
        self.source.r.ended()
    }

    fn r(&mut self) -> &mut Rng {
        &mut self.source.r
    }

    pub fn next(&mut self) -> Call {
        self.made += 1;
        if self.r().literal() {
            return self.literal();
        }
        match self.kind {
            Kind::Requests => {
                let (request, expected) = self.source.request(self.made);
                Call::Request(request, expected)
            }
            Kind::Settings => self.settings(),
            Kind::Tools => match self.r().below(6) {
                0 => self.fields(),
                1 => self.collect(),
                2 => self.compare(),
                3 => self.salvage(),
                4 => self.calendar(),
                _ => self.plan(),
            },
        }
    }

    /// A call that the bytes say as it is; `corpus` writes it so.
    fn literal(&mut self) -> Call {
        let kind = self.kind;
        let r = self.r();
        let u16s = |r: &mut Rng, n: u8| (0..n % 72).map(|_| u16::from_be_bytes(r.raw())).collect::<Vec<u16>>();
        match kind {
            Kind::Requests => {
                let [kind, poll, asked] = r.raw();
                let (id, mark, uid) = (u64::from_be_bytes(r.raw()), u64::from_be_bytes(r.raw()), r.raw());
                let room = u16::from_be_bytes(r.raw()) as usize % 6145;
                let (kind, cookie) = (KINDS[1 + kind as usize % 5], r.blob(1000));
                let request = Request { kind, poll: poll as i8, id, mark, uid, cookie, asked, room };
                let expected = request.expected();
                Call::Request(request, expected)
            }
            Kind::Settings => {
                let [metered, min, max, startup, start, left, nts, capacity] = r.raw();
                let settings = Settings {
                    window: u64::from_be_bytes(r.raw()),
                    upgrademark: u64::from_be_bytes(r.raw()),
                    source: u32::from_be_bytes(r.raw()),
                    start: start.into(),
                    nts: nts.into(),
                    capacity,
                    spare: 0,
                    left,
                    startup,
                    min: min as i8,
                    max: max as i8,
                };
                let slots = if (1..=8).contains(&capacity) { capacity } else { 8 };
                Call::Make { metered: metered & 1 == 1, settings, list: r.blob(4096), slots }
            }
            Kind::Tools => {
                let [call, cap, count] = r.raw();
                match call % 6 {
                    0 => Call::Fields { at: count as usize, packet: r.blob(4096) },
                    1 => Call::Collect { room: u16::from_be_bytes(r.raw()) as usize % 4097, plain: r.blob(4096) },
                    2 => {
                        let (left, right) = (r.blob(8192), r.blob(8192));
                        Call::Compare { left, right, room: u16::from_be_bytes(r.raw()) as usize % 4097 }
                    }
                    3 => Call::Salvage { room: u16::from_be_bytes(r.raw()) as usize % 4097, list: r.blob(4096) },
                    4 => {
                        let (starts, repeats) = (u16s(r, count), u16s(r, count));
                        Call::Calendar { cap, entries: starts.into_iter().zip(repeats).collect() }
                    }
                    _ => {
                        let repeats = u16s(r, count);
                        Call::Plan { cap, room: repeats.len(), repeats }
                    }
                }
            }
        }
    }

    fn length(&mut self) -> usize {
        let r = self.r();
        if r.one_in(2) {
            r.below(40) as usize
        } else {
            r.pick(&[0, 99, 100, 101, 723, 724, 725, 900])
        }
    }

    /// A cookie list, now and then damaged by a byte, a cut or more behind it.
    fn list(&mut self, damaged: u64) -> Vec<u8> {
        let mut cookies = vec![];
        for _ in 0..self.r().below(11) {
            let n = self.length();
            cookies.push(self.r().bytes(n));
        }
        let mut out = list(&cookies);
        if self.r().one_in(damaged) {
            for _ in 0..1 + self.r().below(3) {
                let (at, kind) = (self.r().below(out.len() as u64 + 1) as usize, self.r().below(4));
                match kind {
                    0 if at < out.len() => out[at] = self.r().next() as u8,
                    1 => out.truncate(at),
                    2 => out.insert(at, self.r().pick(&[0, 0xC0, 0x0E, 255])),
                    _ if at < out.len() => drop(out.remove(at)),
                    _ => {}
                }
            }
        }
        out
    }

    fn settings(&mut self) -> Call {
        let list = self.list(4);
        let r = self.r();
        // Mostly one number is at an edge or past it, and the others are usual.
        let mut s = Settings {
            window: r.pick(&[1, 5_000_000_000, 60_000_000_000]),
            upgrademark: r.next(),
            source: r.next() as u32,
            start: r.pick(&[0, 0, 2, 3]),
            nts: r.below(2) as u16,
            capacity: 1 + r.below(8) as u8,
            startup: 1 + r.below(8) as u8,
            min: r.pick(&[4, 8, 10]),
            max: r.pick(&[10, 17]),
            ..Settings::default()
        };
        if r.one_in(2) {
            (s.min, s.startup) = (s.min.max(8), s.startup.min(3));
        }
        for _ in 0..r.below(3) {
            match r.below(10) {
                0 => s.window = r.pick(&[0, 60_000_000_001, u64::MAX]),
                1 => s.start = r.pick(&[1, 1, 4, 256, u32::MAX]),
                2 => s.nts = r.pick(&[2, 256, u16::MAX]),
                3 => s.capacity = r.pick(&[0, 9, 255]),
                4 => s.startup = r.pick(&[0, 3, 4, 9, 255]),
                5 => s.min = r.pick(&[-128, -1, 0, 7, 8, 11, 17, 18, 127]),
                6 => s.max = r.pick(&[-128, -1, 0, 3, 7, 8, 16, 17, 18, 127]),
                7 => s.left = r.pick(&[1, 8, 255]),
                8 => s.spare = r.pick(&[1, 255]),
                _ => (s.start, s.left) = (1, r.pick(&[0, 1, 8, 255])),
            }
        }
        let slots = if r.one_in(8) || !(1..=8).contains(&s.capacity) { 1 + r.below(8) as u8 } else { s.capacity };
        Call::Make { metered: r.one_in(2), settings: s, list, slots }
    }

    /// A packet of fields that mostly follow each other, and an offset in it or past it.
    fn fields(&mut self) -> Call {
        let r = self.r();
        let mut packet = r.bytes(48);
        for _ in 0..r.below(4) {
            let n: u16 = if r.one_in(3) { r.pick(&[0, 4, 12, 15, 16, 17, 20, 65535]) } else { 16 + 4 * r.below(8) as u16 };
            packet.extend(r.pick(&[0x0104u16, 0x0204, 0x0304, 0x0404, 0x1111]).to_be_bytes());
            packet.extend(n.to_be_bytes());
            let body = r.bytes((n as usize).clamp(4, 60) - 4);
            packet.extend(body);
        }
        let n = r.below(30) as usize;
        packet.extend(r.bytes(n));
        let length = packet.len();
        let at = if r.one_in(8) { r.pick(&[0, 47, length, length + 1, usize::MAX]) } else { r.below(length as u64) as usize };
        Call::Fields { packet, at }
    }

    fn collect(&mut self) -> Call {
        let mut plain = vec![];
        for _ in 0..self.r().below(5) {
            let n = self.length() / 4 * 4;
            let body = self.r().bytes(n);
            driver::random::field(&mut plain, self.r().pick(&[0x0204, 0x0204, 0x0104, 0x0304, 0x0404]), &body, 0);
        }
        let r = self.r();
        if r.one_in(4) && !plain.is_empty() {
            let at = r.below(plain.len() as u64) as usize;
            if r.one_in(2) {
                plain.truncate(at)
            } else {
                plain[at] ^= 1 << r.below(8)
            }
        }
        let room = match r.below(4) {
            0 => r.below(plain.len() as u64 + 1) as usize,
            1 => plain.len(),
            _ => rules::collect(&plain).map_or(0, |cookies| list(&cookies).len()),
        };
        Call::Collect { plain, room }
    }

    /// An association as a file may have it.
    fn association(&mut self) -> Rules {
        let (nts, capacity) = (!self.r().one_in(4), 1 + self.r().below(8) as u8);
        let mut cookies = vec![];
        if nts {
            for _ in 0..self.r().below(capacity as u64 + 1) {
                let n = self.length();
                cookies.push(self.r().bytes(n));
            }
        }
        let r = self.r();
        let (min, startup, source) = (r.below(11) as i8, 1 + r.below(8) as u8, r.next() as u32);
        let (start, version) = (
            r.pick(&[Version::V4, Version::UpgradedToV5, Version::V5]),
            r.pick(&[Version::V4, Version::UpgradedToV5, Version::V5]),
        );
        let mut made = Rules::new(nts, min, 10, startup, 5_000_000_000, start, source, &cookies, capacity);
        let s = &mut made.state;
        (s.version, s.reach, s.tries) = (version, r.next() as u8, r.next() as u8);
        s.unanswered = s.reach.trailing_zeros() as u8;
        (s.last, s.remote, s.stratum) = (r.next() as i8, r.next() as i8, r.next() as u8);
        (s.refid, s.denial) = (r.next() as u32, r.one_in(2));
        s.read = if nts { r.below(capacity as u64) as usize } else { 0 };
        made
    }

    fn compare(&mut self) -> Call {
        let left = self.association();
        let mut right = if self.r().one_in(2) { self.association() } else { left.clone() };
        let r = self.r();
        // A cookie with another byte, with more behind it, or of the same length over 724.
        for (length, bytes) in &mut right.state.cookies {
            match (r.below(9), bytes.len()) {
                (0, n) if n > 0 => bytes[r.below(n as u64) as usize] ^= 1,
                (1, n) if n < STORED && *length == n => {
                    bytes.push(r.next() as u8);
                    *length = bytes.len();
                }
                _ => {}
            }
        }
        let (mut left, mut right) = (handover::file(&left), handover::file(&right));
        for file in [&mut left, &mut right] {
            if r.one_in(8) {
                let at = r.below(file.len() as u64) as usize;
                file[at] = r.next() as u8;
            } else if r.one_in(12) {
                file.truncate(r.below(file.len() as u64) as usize);
            }
        }
        let needed = tools::compare(&left, &right).map_or(0, |list| list.len());
        let room = match r.below(8) {
            0 => needed,
            1 => needed.saturating_sub(1),
            2 => r.below(495) as usize,
            _ => 494,
        };
        Call::Compare { left, right, room }
    }

    /// A list with many gaps, at times more than are told: behind each record that is kept one that no mark follows.
    fn bitten_often(&mut self) -> Vec<u8> {
        let mut out = vec![];
        for _ in 0..self.r().below(60) {
            let (n, stray) = (self.r().below(6) as usize, self.r().next() as u8);
            out.extend(list(&[self.r().bytes(n), self.r().bytes(2)]));
            out.push(stray);
        }
        out
    }

    fn salvage(&mut self) -> Call {
        let mut list = if self.r().one_in(8) { self.bitten_often() } else { self.list(1) };
        for _ in 0..self.r().below(3) {
            let more = self.list(2);
            list.extend(more);
        }
        list.truncate(driver::random::HELD);
        let room = if self.r().one_in(8) { self.r().below(list.len() as u64 + 1) as usize } else { list.len() };
        Call::Salvage { list, room }
    }

    fn repeats(&mut self) -> Vec<u16> {
        let r = self.r();
        let most = if r.one_in(8) { 70 } else { 12 };
        (0..r.below(most))
            .map(|_| {
                if r.one_in(40) {
                    r.pick(&[0, 7, 1441, 65535])
                } else {
                    r.pick(&[1, 2, 3, 4, 5, 6, 8, 10, 12, 60, 96, 720, 1440])
                }
            })
            .collect()
    }

    fn calendar(&mut self) -> Call {
        // Now and then the polls meet in the last minute of the day, and in no other.
        let last = self.r().one_in(8);
        let repeats = if last { vec![1440, self.r().pick(&[60, 720, 1440])] } else { self.repeats() };
        let r = self.r();
        let mut start = |n: u16| match r.below(20) {
            0 => n,
            _ if last => n.saturating_sub(1),
            _ => r.below(n.max(1).into()) as u16,
        };
        let entries = repeats.iter().map(|n| (start(*n), *n)).collect();
        Call::Calendar { cap: r.pick(&[0, 1, 2, 3, 4, 8, 255]), entries }
    }

    fn plan(&mut self) -> Call {
        let repeats = self.repeats();
        let r = self.r();
        let room = if r.one_in(8) { r.below(repeats.len() as u64 + 1) as usize } else { repeats.len() };
        Call::Plan { cap: r.pick(&[0, 1, 2, 3, 4, 8, 255]), repeats, room }
    }
}

fn joined<T: ToString>(of: impl Iterator<Item = T>) -> String {
    let all: Vec<String> = of.map(|x| x.to_string()).collect();
    if all.is_empty() {
        "-".into()
    } else {
        all.join(",")
    }
}

impl Call {
    /// The command of the drill; a comment where the drill has none.
    pub fn command(&self) -> String {
        match self {
            Call::Request(request, _) => request.command(false),
            Call::Make { metered, settings: s, list, slots } => {
                let start = match s.start {
                    1 => format!("upgrading:{}", s.left),
                    code => ["v4", "", "upgraded", "v5"].get(code as usize).unwrap_or(&"unknown").to_string(),
                };
                format!(
                    "{}{} min={} max={} startup={} window={} mark={:016x} start={start} nts={} source={:08x} list={} capacity={}",
                    if s.nts > 1 || s.spare > 0 || s.start > 3 || *slots != s.capacity {
                        format!("# the drill has no nts={} spare={} start={} slots={slots}: ", s.nts, s.spare, s.start)
                    } else {
                        String::new()
                    },
                    if *metered { "metered" } else { "new" },
                    s.min,
                    s.max,
                    s.startup,
                    s.window,
                    s.upgrademark,
                    if s.nts == 1 { "yes" } else { "no" },
                    s.source,
                    bytes(list),
                    s.capacity
                )
            }
            Call::Fields { packet, at } => {
                format!("# reckonstile_field_at, which the drill has not: packet={} at={at}", bytes(packet))
            }
            Call::Collect { plain, room } => format!("collect plain={} room={room}", bytes(plain)),
            Call::Compare { left, right, room } => format!("compare left={} right={} room={room}", bytes(left), bytes(right)),
            Call::Salvage { list, room } => format!("salvage list={} room={room}", bytes(list)),
            Call::Calendar { cap, entries } => {
                format!("calendar cap={cap} entries={}", joined(entries.iter().map(|(s, n)| format!("{s}/{n}"))))
            }
            Call::Plan { cap, repeats, .. } => format!("plan cap={cap} repeats={}", joined(repeats.iter())),
        }
    }

    /// The reason for which the crate does otherwise here, where the call is one of the crate's.
    pub fn reason(&self) -> Option<&'static str> {
        match self {
            Call::Request(_, (_, _, reason)) => *reason,
            _ => None,
        }
    }

    /// Makes the call; says what differs.
    pub fn check(&self) -> Found<()> {
        let mut buffer = vec![];
        // What is written, from the start of a buffer of `room` bytes on, and nothing else.
        let wrote = |buffer: &[u8], expected: &[u8], what: &str| {
            let end = BESIDE + expected.len();
            must(buffer[BESIDE..end] == *expected, &format!("{what}: not what is expected, {}", bytes(expected)))?;
            must(untouched(&buffer[..BESIDE]) && untouched(&buffer[end..]), &format!("{what}: bytes past it were written"))
        };
        match self {
            Call::Request(q, (number, packet, _)) => {
                let kind = KINDS.iter().position(|k| *k == q.kind).unwrap_or(0) as u8;
                let lent = lend(&mut buffer, q.room);
                let said = ffi::write_request(kind, q.poll, q.id, q.mark, q.uid, &q.cookie, q.asked, lent);
                let expected = (*number as u32, (*number == 0) as u32, packet.len() as u64);
                must(
                    (said.number, said.written, said.length) == expected,
                    &format!("request: {} with length {}, expected {expected:?}", said.number, said.length),
                )?;
                wrote(&buffer, packet, "request")
            }
            Call::Make { metered, settings, list, slots } => make(*metered, *settings, list, *slots),
            Call::Fields { packet, at } => {
                let (said, expected) = (told(&ffi::field_at(packet, *at)), told(&field_of(packet, *at)));
                must(said == expected, &format!("field_at: {said:?}, expected {expected:?}"))
            }
            Call::Collect { plain, room } => {
                let cookies = rules::collect(plain).map(|cookies| list(&cookies));
                let (number, written) = match cookies {
                    None => (1, vec![]),
                    Some(list) if list.len() > *room => (31, vec![]),
                    Some(list) => (0, list),
                };
                let said = ffi::collect(plain, lend(&mut buffer, *room));
                must(
                    (said.number, said.written, said.length) == (number, (number == 0) as u32, written.len() as u64),
                    &format!("collect: {} with length {}, expected {number}", said.number, said.length),
                )?;
                wrote(&buffer, &written, "collect")
            }
            Call::Compare { left, right, room } => {
                let (number, side, written) = match tools::compare(left, right) {
                    Err((number, side)) => (number, side, vec![]),
                    Ok(list) if list.len() > *room => (71, 0, vec![]),
                    Ok(list) => (0, 0, list),
                };
                let said = ffi::compare(left, right, lend(&mut buffer, *room));
                let expected = (number as u32, side as u32, written.len() as u64 / 19);
                must(
                    (said.number, said.side, said.entries) == expected,
                    &format!("compare: {} side {} entries {}, expected {expected:?}", said.number, said.side, said.entries),
                )?;
                wrote(&buffer, &written, "compare")
            }
            Call::Salvage { list, room } => {
                let mut clean = tools::salvage(list);
                if *room < list.len() {
                    clean = tools::Salvaged::default();
                }
                let said = ffi::salvage(list, lend(&mut buffer, *room));
                let mut places = [0; 32];
                places.iter_mut().zip(&clean.gaps).for_each(|(place, gap)| *place = *gap);
                let gaps = clean.gaps.len();
                must(
                    said.number == if *room < list.len() { 70 } else { 0 }
                        && (said.kept, said.skipped, said.gaps) == (clean.kept, clean.skipped, gaps as u64)
                        && (said.told, said.length) == (gaps.min(32) as u32, clean.list.len() as u64)
                        && said.places == places,
                    &format!("salvage: {} kept {} gaps {}, expected {clean:?}", said.number, said.kept, said.gaps),
                )?;
                wrote(&buffer, &clean.list, "salvage")
            }
            Call::Calendar { cap, entries } => {
                let (starts, repeats): (Vec<u16>, Vec<u16>) = entries.iter().copied().unzip();
                let said = ffi::check_calendar(*cap, &starts, &repeats);
                let (number, place) = tools::calendar(*cap, entries);
                let expected = (number as u32, place.is_some() as u32, place.unwrap_or(0));
                must(
                    (said.number, said.named, said.place) == expected,
                    &format!("calendar: {} at {}, expected {expected:?}", said.number, said.place),
                )
            }
            Call::Plan { cap, repeats, room } => {
                let mut starts = vec![0xA5A5; *room];
                let said = ffi::plan_calendar(*cap, repeats, &mut starts);
                let (number, place, planned) = match tools::plan(*cap, repeats) {
                    Err((number, place)) => (number, place, vec![]),
                    Ok(plan) if plan.len() > *room => (31, None, vec![]),
                    Ok(plan) => (0, None, plan),
                };
                let expected = (number as u32, place.is_some() as u32, place.unwrap_or(0));
                let rest = starts.iter().skip(planned.len()).all(|s| *s == 0xA5A5);
                must(
                    (said.number, said.named, said.place) == expected && starts[..planned.len()] == planned && rest,
                    &format!("plan: {} at {}, starts {starts:?}, expected {expected:?} {planned:?}", said.number, said.place),
                )
            }
        }
    }
}

/// `new` or `metered` over a record of so many slots, and `profile` beside it.
fn make(metered: bool, s: Settings, list: &[u8], slots: u8) -> Found<()> {
    let number = number_of(metered, &s, list);
    let profile = ffi::profile(s, list);
    let of_profile = number_of(true, &s, list);
    must(profile == of_profile, &format!("profile: {profile}, expected {of_profile}"))?;
    let mut buffer = vec![];
    let record = lend(&mut buffer, whole::HEAD + whole::ROW * slots as usize);
    let said = make_in(record, metered, s, list);
    let number = if number == 0 && slots != s.capacity { 31 } else { number };
    let record = &buffer[BESIDE..buffer.len() - BESIDE];
    let (before, after) = (&buffer[..BESIDE], &buffer[buffer.len() - BESIDE..]);
    must(untouched(before) && untouched(after), "new: bytes beside the record were written")?;
    must(said.number == number, &format!("new: {}, expected {number}", said.number))?;
    if number > 0 {
        must((said.made, said.dropped, said.lost) == (0, 0, 0), "new: not all is zero behind a number that is not 0")?;
        must(
            if number == 31 { untouched(record) } else { record.iter().all(|b| *b == 0) },
            "new: refused, and the record is not blank",
        )?;
        return if number == 31 { Ok(()) } else { blank(&mut record.to_vec(), false, None) };
    }
    let start = [Version::V4, Version::V4, Version::UpgradedToV5, Version::V5][s.start as usize];
    let cookies = cookies_of(list).unwrap_or_default();
    let mut rules = Rules::new(s.nts == 1, s.min, s.max, s.startup, s.window, start, s.source, &cookies, s.capacity);
    rules.mark = s.upgrademark;
    must((said.made, said.dropped, said.lost) == (1, rules.first.0, rules.first.1), "new: other cookies fell out")?;
    rules.first = (0, 0);
    must(whole::whole(record).as_ref() == Some(&rules), "new: another record than the rule's")
}
