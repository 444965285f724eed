//! The rules (RULES) in Rust, set against the crate step by step. They only decide where a difference is listed.
use crate::handover;
use crate::state::*;

#[derive(Debug, Clone, PartialEq, Eq)]
pub struct Rules {
    pub min: i8,
    pub max: i8,
    pub startup: u8,
    pub window: u64,
    pub mark: u64,
    pub start: Version,
    pub nts: bool,
    pub source: u32,
    /// What fell out of the first list.
    pub first: (u64, u64),
    pub state: State,
}

fn name(s: &[u8; 4]) -> u32 {
    u32::from_be_bytes(*s)
}

/// Fields as type, start and body, and where the walk ended.
type Walk<'a> = (Vec<(u16, usize, &'a [u8])>, usize);

/// Part 7's walk with a least field length and a longest tail; none if broken.
pub fn walk(b: &[u8], from: usize, least: usize, tail: usize) -> Option<Walk<'_>> {
    let mut at = from;
    let mut out = vec![];
    loop {
        let rest = b.get(at..)?;
        if rest.len() <= tail {
            return Some((out, at));
        }
        if rest.len() < 4 {
            return None;
        }
        let n = u16::from_be_bytes([rest[2], rest[3]]) as usize;
        if n < least || !n.is_multiple_of(4) || n > rest.len() {
            return None;
        }
        out.push((u16::from_be_bytes([rest[0], rest[1]]), at, &rest[4..n]));
        at += n;
    }
}

/// Part 7's collector, without its limit.
pub fn collect(plain: &[u8]) -> Option<Vec<Vec<u8>>> {
    let (fields, _) = walk(plain, 0, 4, 0)?;
    Some(fields.into_iter().filter(|f| f.0 == 0x0204).map(|f| f.2.to_vec()).collect())
}

/// Part 8's state of one group: absent, agree or disagree.
fn uid_group<'a>(bodies: impl Iterator<Item = &'a [u8]>, uid: &[u8; 32]) -> Option<bool> {
    bodies.fold(None, |s, b| Some(s != Some(false) && b.starts_with(uid)))
}

impl Rules {
    #[expect(clippy::too_many_arguments)]
    pub fn new(
        nts: bool,
        min: i8,
        max: i8,
        startup: u8,
        window: u64,
        start: Version,
        source: u32,
        list: &[Vec<u8>],
        capacity: u8,
    ) -> Rules {
        let state = State {
            reach: 0,
            tries: 0,
            version: start,
            last: min,
            remote: min,
            pending: None,
            answered: false,
            unanswered: 8,
            denial: false,
            stratum: 16,
            refid: name(b"XNON"),
            read: 0,
            cookies: vec![],
            capacity,
        };
        let mut r = Rules { min, max, startup, window, mark: UPGRADE_MARK, start, nts, source, first: (0, 0), state };
        if nts {
            r.first = r.store(list);
        }
        r
    }

    /// RULES, part 3, over the capacity (No. 12), and No. 5 for what it gives: how many cookies fell out, and their lengths summed.
    fn store(&mut self, list: &[Vec<u8>]) -> (u64, u64) {
        let s = &mut self.state;
        let capacity = s.capacity as usize;
        let mut fallen = (0, 0);
        for c in list {
            if s.cookies.len() == capacity {
                let oldest = s.cookies.remove(0);
                s.read = (s.read + 1) % capacity;
                fallen = (fallen.0 + 1, fallen.1 + oldest.0 as u64);
            }
            s.cookies.push(stored(c));
        }
        fallen
    }

    /// RULES, part 10.
    pub fn timer(&mut self, now: u64, desired: i8, id: u64, uid: &[u8; 32]) -> Answer {
        let number = |number| Answer { number, ..Answer::default() };
        let s = &mut self.state;
        if s.reach == 0 && s.tries >= self.startup {
            return number(if s.denial { 22 } else { 21 });
        }
        // By the number in the record (No. 8).
        if s.version == Version::UpgradedToV5 && s.unanswered >= 2 {
            s.version = Version::V4;
        }
        s.reach <<= 1;
        s.unanswered = (s.unanswered + 1).min(8);
        s.tries = s.tries.saturating_add(1);
        let (mut kind, mut cookie, mut asked) = (if s.version == Version::V4 { "v4" } else { "v5" }, vec![], 0);
        if self.nts {
            if s.cookies.is_empty() {
                return number(23);
            }
            let (length, bytes) = s.cookies.remove(0);
            let capacity = s.capacity as usize;
            s.read = (s.read + 1) % capacity;
            asked = (capacity - s.cookies.len()).min(724 / length.max(1)).min(255) as u8;
            if asked == 0 {
                return number(24);
            }
            cookie = bytes;
            kind = if s.version == Version::V4 { "nts-v4" } else { "nts-v5" };
        }
        s.pending = Some((id, if self.nts { *uid } else { [0; 32] }, now.saturating_add(self.window)));
        s.answered = false;
        s.last = desired.max(s.remote);
        Answer { number: 20, sent: Some(Sent { kind, poll: s.last, cookie, asked }), ..Answer::default() }
    }

    /// RULES, part 11, byte form.
    #[expect(clippy::too_many_arguments)]
    pub fn reply(&mut self, p: &[u8], auth: usize, plain: &[u8], list: &[Vec<u8>], t1: u64, t4: u64, now: u64) -> Answer {
        match self.read(p, auth, plain) {
            None => Answer { number: 1, ..Answer::default() },
            Some(d) => {
                let v = (p[0] >> 3) & 7;
                let refid = u32::from_be_bytes(p[12..16].try_into().unwrap());
                self.matched(v, refid, &d, list, t1, t4, now)
            }
        }
    }

    /// Rules 6, 7, 8 and 9: what a V3 or V4 packet says; none if undecodable.
    fn read(&self, p: &[u8], auth: usize, plain: &[u8]) -> Option<Decoded> {
        let v = p.first().map(|b| (b >> 3) & 7)?;
        if p.len() < 48 || (v != 3 && v != 4) {
            return None;
        }
        let (fields, end) = if v == 4 { walk(p, 48, 16, 24)? } else { (vec![], 48) };
        if auth != 48 && auth != end && !fields.iter().any(|f| f.1 == auth) {
            return None;
        }
        let decrypted = if self.nts { walk(plain, 0, 4, 0)?.0 } else { vec![] };
        let uid = self.state.pending.map_or([0; 32], |p| p.1);
        let group = |f: &dyn Fn(usize) -> bool| uid_group(fields.iter().filter(|x| x.0 == 0x0104 && f(x.1)).map(|x| x.2), &uid);
        let u64at = |i: usize| u64::from_be_bytes(p[i..i + 8].try_into().unwrap());
        let u32at = |i: usize| u32::from_be_bytes(p[i..i + 4].try_into().unwrap());
        let kiss = |n: &[u8; 4]| p[1] == 0 && u32at(12) == name(n);
        Some(Decoded {
            leap: [0, 1, 2, 4][(p[0] >> 6) as usize],
            response: p[0] & 7 == 4,
            stratum: p[1],
            poll: p[2] as i8,
            precision: p[3] as i8,
            root_delay: u32at(4) as i64 * 65536,
            root_dispersion: u32at(8) as i64 * 65536,
            receive: u64at(32),
            transmit: u64at(40),
            identifier: u64at(24),
            kiss: [kiss(b"RATE"), kiss(b"DENY"), kiss(b"RSTR"), kiss(b"NTSN"), p[1] == 0],
            uid: [
                group(&|at| at < auth),
                uid_group(decrypted.iter().filter(|x| x.0 == 0x0104).map(|x| x.2), &uid),
                group(&|at| at >= auth),
            ],
        })
    }

    /// RULES, part 11, decoded form; the reference identifier stays XNON, as in the crate.
    pub fn reply5(&mut self, d: &Decoded, list: &[Vec<u8>], t1: u64, t4: u64, now: u64) -> Answer {
        self.matched(5, name(b"XNON"), d, list, t1, t4, now)
    }

    #[expect(clippy::too_many_arguments)]
    fn matched(&mut self, v: u8, refid: u32, d: &Decoded, list: &[Vec<u8>], t1: u64, t4: u64, now: u64) -> Answer {
        let number = |number| Answer { number, ..Answer::default() };
        let s = &mut self.state;
        let expected: &[u8] = if s.version == Version::V4 { &[3, 4] } else { &[5] };
        if !expected.contains(&v) {
            return number(2);
        }
        let Some((id, _, deadline)) = s.pending else { return number(if s.answered { 13 } else { 12 }) };
        if deadline < now {
            return number(14);
        }
        let [rate, deny, rstr, ntsn, any] = d.kiss;
        let mut groups = d.uid[..2].to_vec();
        if ntsn {
            groups.push(d.uid[2]);
        }
        let uid_agrees = !groups.contains(&Some(false)) && groups.contains(&Some(true));
        if d.identifier != id || (self.nts && !uid_agrees) {
            return number(4);
        }
        if s.version == Version::UpgradedToV5 {
            s.version = Version::V5;
        }
        if rate {
            let more = (s.remote as i32 + 1).min(self.max as i32) as i8;
            s.remote = s.remote.max(more).max(s.last);
            return number(5);
        }
        if deny || rstr {
            if self.nts {
                return number(7);
            }
            s.denial = true;
            return number(6);
        }
        if ntsn {
            return number(8);
        }
        if any {
            return number(9);
        }
        if d.stratum > 16 {
            return number(10);
        }
        if !d.response {
            return number(11);
        }
        s.reach |= 1;
        s.unanswered = 0;
        s.denial = false;
        s.pending = None;
        s.answered = true;
        s.stratum = d.stratum;
        s.refid = refid;
        if v == 5 {
            s.remote = s.remote.max(d.poll);
        }
        let dropped = if self.nts { self.store(list) } else { (0, 0) };
        let diff = |x: u64, y: u64| x.wrapping_sub(y) as i64;
        let (t2, t3) = (d.receive, d.transmit);
        let measured = Measured {
            delay: diff(t4, t1).saturating_sub(diff(t3, t2)),
            offset: diff(t2, t1).saturating_add(diff(t3, t4)) / 2,
            local: t1.wrapping_add((diff(t4, t1) / 2) as u64),
            mono: now,
            stratum: d.stratum,
            root_delay: d.root_delay,
            root_dispersion: d.root_dispersion,
            leap: d.leap,
            precision: d.precision,
        };
        Answer { measured: Some(measured), dropped: Some(dropped), ..Answer::default() }
    }

    /// RULES, part 12, with No. 2: the reported identifier is compared too, from stratum 2 up.
    pub fn accept(&self, stratum: u8, local: &[u32], bloom: Bloom) -> Answer {
        let s = &self.state;
        let is_ours = s.stratum != 1 && local.contains(&self.source);
        let served_by_us = s.stratum >= 2 && local.contains(&s.refid);
        let number = if s.stratum >= stratum {
            40
        } else if is_ours || served_by_us || bloom == Bloom::Present {
            41
        } else if s.reach == 0 {
            42
        } else {
            0
        };
        Answer { number, ..Answer::default() }
    }

    /// RULES, No. 6, writing: the file has the cookies then.
    pub fn save(&mut self, room: usize) -> Answer {
        let file = handover::file(self);
        if room < file.len() {
            return Answer { number: 60, ..Answer::default() };
        }
        self.state.cookies.clear();
        Answer { file: Some(file), ..Answer::default() }
    }

    /// Numbers set by hand.
    pub fn poke(&mut self, pairs: &[(&'static str, i64)]) -> Answer {
        let s = &mut self.state;
        for (key, value) in pairs {
            match *key {
                "reach" => s.reach = *value as u8,
                "tries" => s.tries = *value as u8,
                "stratum" => s.stratum = *value as u8,
                "last" => s.last = *value as i8,
                "answered" => s.answered = *value != 0,
                "unanswered" => s.unanswered = *value as u8,
                _ => s.remote = *value as i8,
            }
        }
        Answer::default()
    }
}
