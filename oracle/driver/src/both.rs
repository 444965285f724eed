//! One step on the crate and on the rules, and the list of the reasons for which they may differ.
use crate::exec::{Drawn, Exec};
use crate::handover;
use crate::rules::{self, Rules};
use crate::state::*;
use ntp_proto::tls_utils::identifier_of;

/// RULES over the crate, by the name that a log's reasons carry.
pub const REASONS: [(&str, &str); 7] = [
    ("field-under-16", "a V4 field of length 4, 8 or 12: broken by part 7 (RFC 7822), read by the crate"),
    ("placeholder-not-zero", "a 0304 field whose body is not all zero: part 7 looks at no body, the crate refuses it"),
    ("0404-decrypted", "a 0404 field among the decrypted ones: part 7 looks at no type, the crate refuses it"),
    ("rate-at-127", "RATE at the remote minimum 127: part 11's sum never wraps, the crate's wraps to -128"),
    ("served-by-us", "a source of stratum 2 or more that reports one of our identifiers: 41 by No. 2, no loop to the crate"),
    ("rate-falls", "RATE above the limit and the last poll: the remote minimum stays (No. 7), the crate's falls"),
    ("smaller-stash", "a capacity below 8: full, gap and wrap follow it (No. 12), the crate's stash has eight slots"),
];

pub struct Step {
    /// What the crate answered and holds, and what the rules do.
    pub of_crate: (Answer, State),
    pub of_rules: (Answer, State),
    pub drawn: Option<Drawn>,
    /// The association's version when the step was made; of a new one, that which it starts with.
    pub version: Version,
    /// Why the two may differ here, if they do.
    pub reason: Option<&'static str>,
    /// They differ and no reason is listed.
    pub failed: bool,
    /// A V5 packet that the crate could not decode: it has no decoded form, so no log can hold it.
    pub left_out: bool,
    /// What the crate sent, up to its 0404 field.
    pub packet: Option<Vec<u8>>,
    /// Settings and record of a file that was loaded.
    pub loaded: Option<Rules>,
}

pub struct Both {
    pub exec: Exec,
    rules: Option<Rules>,
}

impl Both {
    pub fn new() -> Self {
        Both { exec: Exec::new(), rules: None }
    }

    /// What the crate knows nothing of: the rules alone answer, and the crate goes on with the record that they leave.
    fn of_rules(&mut self, op: &Op) -> Step {
        let rules = self.rules.as_mut().unwrap();
        let version = rules.state.version;
        let mut loaded = None;
        let answer = match op {
            Op::Load { file } => match handover::load(file) {
                Err(number) => Answer { number, ..Answer::default() },
                Ok((new, retired)) => {
                    self.exec.load(&new);
                    *rules = new.clone();
                    loaded = Some(new);
                    Answer { retired: Some(retired), ..Answer::default() }
                }
            },
            Op::Save { room } => {
                let answer = rules.save(room.map_or(handover::LONGEST, usize::from));
                self.exec.follow(&rules.state);
                answer
            }
            _ => Answer::default(),
        };
        let (of_crate, of_rules) = ((answer.clone(), self.exec.state()), (answer, rules.state.clone()));
        let failed = of_crate != of_rules;
        Step { of_crate, of_rules, drawn: None, version, reason: None, failed, left_out: false, packet: None, loaded }
    }

    pub fn step(&mut self, op: &Op) -> Step {
        if matches!(op, Op::Save { .. } | Op::Load { .. } | Op::Break(_)) {
            return self.of_rules(op);
        }
        let before = self.rules.as_ref().map(|r| r.state.clone());
        let (answer, drawn) = self.exec.run(op);
        let of_crate = (answer, self.exec.state());
        if let Op::New { nts, min, max, startup, window, start, source, cookies, capacity } = op {
            let source = identifier_of(*source);
            self.rules = Some(Rules::new(*nts, *min, *max, *startup, *window, *start, source, cookies, *capacity));
        }
        let rules = self.rules.as_mut().unwrap();
        let mut left_out = false;
        let answer = match op {
            Op::New { .. } => Answer { dropped: Some(rules.first), ..Answer::default() },
            Op::Timer { now, desired, id, uid, .. } => rules.timer(*now, *desired, *id, uid),
            Op::Reply { now, t1, t4, packet, .. } => {
                let d = drawn.as_ref().unwrap();
                match &d.v5 {
                    Some(v5) => rules.reply5(v5, &d.cookies, *t1, *t4, *now),
                    None => {
                        left_out = d.version == 5;
                        let list = rules::collect(&d.plain).unwrap_or_default();
                        rules.reply(packet, d.auth, &d.plain, &list, *t1, *t4, *now)
                    }
                }
            }
            Op::Accept { stratum, local, bloom } => {
                let local: Vec<u32> = local.iter().map(|ip| identifier_of(*ip)).collect();
                rules.accept(*stratum, &local, *bloom)
            }
            Op::Poke(pairs) => rules.poke(pairs),
            Op::Save { .. } | Op::Load { .. } | Op::Break(_) => panic!("answered above"),
        };
        let of_rules = (answer, rules.state.clone());
        let version = before.as_ref().filter(|_| !matches!(op, Op::New { .. })).map_or(of_rules.1.version, |b| b.version);
        let collected = drawn
            .as_ref()
            .is_none_or(|d| !d.decoded || d.v5.is_some() || rules::collect(&d.plain).is_some_and(|list| list == d.cookies));
        let packet = self.exec.packet.take();
        let mut step =
            Step { of_crate, of_rules, drawn, version, reason: None, failed: !collected, left_out, packet, loaded: None };
        if step.of_crate != step.of_rules {
            step.reason = before.as_ref().and_then(|before| match op {
                Op::Reply { packet, .. } => listed_reply(packet, &step, before, rules.max),
                Op::Accept { stratum, local, bloom } => {
                    let local: Vec<u32> = local.iter().map(|ip| identifier_of(*ip)).collect();
                    listed_accept(*stratum, &local, *bloom, rules.source, &step, before)
                }
                _ => None,
            });
            step.reason = step.reason.or_else(|| listed_stash(self.exec.nts, &step));
            step.failed |= step.reason.is_none();
        }
        match step.reason {
            Some(_) => self.exec.follow(&step.of_rules.1),
            None => rules.state = step.of_crate.1.clone(),
        }
        step
    }
}

/// The listed reason for a reply on which crate and rules differ, recognised by its cause and by its effect.
fn listed_reply(packet: &[u8], step: &Step, before: &State, max: i8) -> Option<&'static str> {
    let d = step.drawn.as_ref()?;
    let ((of_crate, after_crate), (of_rules, after_rules)) = (&step.of_crate, &step.of_rules);
    let refused = of_crate.number == 1 && after_crate == before;
    let fields = || rules::walk(packet, 48, 16, 24).into_iter().chain(rules::walk(&d.plain, 0, 4, 0)).flat_map(|w| w.0);
    if d.version == 4
        && d.decoded
        && of_rules.number == 1
        && after_rules == before
        && rules::walk(packet, 48, 16, 24).is_none()
        && rules::walk(packet, 48, 4, 24).is_some()
    {
        return Some(REASONS[0].0);
    }
    if refused
        && d.version == 4
        && d.error == "MalformedCookiePlaceholder"
        && fields().any(|(ty, _, body)| ty == 0x0304 && body.iter().any(|b| *b != 0))
    {
        return Some(REASONS[1].0);
    }
    if refused
        && d.version == 4
        && d.error == "MalformedNtsExtensionFields"
        && rules::walk(&d.plain, 0, 4, 0).is_some_and(|w| w.0.iter().any(|f| f.0 == 0x0404))
    {
        return Some(REASONS[2].0);
    }
    let kept = after_rules.remote == before.remote && (State { remote: before.remote, ..after_crate.clone() }) == *after_rules;
    if of_crate.number == 5 && of_rules.number == 5 && before.remote > before.last && kept {
        if before.remote == 127 && after_crate.remote == before.last {
            return Some(REASONS[3].0);
        }
        if before.remote > max && after_crate.remote == max.max(before.last) {
            return Some(REASONS[5].0);
        }
    }
    None
}

/// The same for an acceptance: the source reports one of our identifiers and nothing else makes it a loop, so the crate's
/// answer hangs on reach alone; ours is 41, and neither changes the record.
fn listed_accept(stratum: u8, local: &[u32], bloom: Bloom, source: u32, step: &Step, before: &State) -> Option<&'static str> {
    let ((of_crate, after_crate), (of_rules, after_rules)) = (&step.of_crate, &step.of_rules);
    let cause = (2..stratum).contains(&before.stratum)
        && local.contains(&before.refid)
        && !local.contains(&source)
        && bloom != Bloom::Present;
    let effect = of_crate.number == if before.reach == 0 { 42 } else { 0 } && of_rules.number == 41;
    (cause && effect && after_crate == before && after_rules == before).then_some(REASONS[4].0)
}

/// The same for a stash of a smaller capacity. The crate's, of eight slots, may hold more and ask for more; what it holds
/// newest is what ours holds, what it holds beyond that fell out of ours, and all else is the same.
fn listed_stash(nts: bool, step: &Step) -> Option<&'static str> {
    let ((of_crate, after_crate), (of_rules, after_rules)) = (&step.of_crate, &step.of_rules);
    let capacity = after_rules.capacity as usize;
    let (theirs, ours) = (&after_crate.cookies, &after_rules.cookies);
    let more = theirs.len().checked_sub(ours.len())?;
    let cause = nts && capacity < 8;
    let newest = theirs[more..] == ours[..] && (more == 0 || ours.len() == capacity);
    let beyond: usize = theirs[..more].iter().map(|c| c.0).sum();
    let dropped = of_crate.dropped.map(|(count, sum)| (count + more as u64, sum + beyond as u64)) == of_rules.dropped;
    // Ours asks for what the crate would ask for, held at the gap.
    let asked = match (&of_crate.sent, &of_rules.sent) {
        (Some(c), Some(r)) => {
            let asked = c.asked.min((capacity - ours.len()) as u8);
            (Sent { asked, ..c.clone() }) == *r
        }
        (c, r) => c == r,
    };
    let rest = Answer { sent: None, dropped: None, ..of_crate.clone() }
        == Answer { sent: None, dropped: None, ..of_rules.clone() }
        && State { cookies: vec![], read: 0, ..after_crate.clone() }
            == State { cookies: vec![], read: 0, ..after_rules.clone() };
    (cause && newest && dropped && asked && rest).then_some(REASONS[6].0)
}

#[cfg(test)]
mod tests {
    use super::*;
    use std::net::{IpAddr, Ipv4Addr};

    const SOURCE: u32 = 0xc0000201;
    const XNON: u32 = u32::from_be_bytes(*b"XNON");

    fn address(identifier: u32) -> IpAddr {
        IpAddr::V4(Ipv4Addr::from(identifier))
    }

    /// The numbers of the crate and of the rules for a source that reports XNON, and the reason.
    fn told(stratum: u8, reach: u8, local: &[u32], bloom: Bloom) -> (u8, u8, Option<&'static str>) {
        let mut both = Both::new();
        let source = address(SOURCE);
        both.step(&Op::New {
            nts: false,
            min: 4,
            max: 10,
            startup: 3,
            window: 5000,
            start: Version::V4,
            source,
            cookies: vec![],
            capacity: 8,
        });
        let [reach, unanswered] = super::reach(reach);
        both.step(&Op::Poke(vec![("stratum", stratum as i64), reach, unanswered]));
        let local = local.iter().map(|i| address(*i)).collect();
        let step = both.step(&Op::Accept { stratum: 17, local, bloom });
        assert!(!step.failed);
        (step.of_crate.0.number, step.of_rules.0.number, step.reason)
    }

    #[test]
    fn the_crate_accepts_a_source_that_we_serve() {
        let reason = Some("served-by-us");
        assert_eq!(told(2, 1, &[XNON], Bloom::None), (0, 41, reason));
        assert_eq!(told(16, 0, &[1, XNON], Bloom::Absent), (42, 41, reason));
        assert_eq!(told(0, 1, &[XNON], Bloom::None), (0, 0, None));
        assert_eq!(told(1, 1, &[XNON, SOURCE], Bloom::None), (0, 0, None));
        assert_eq!(told(2, 1, &[XNON, SOURCE], Bloom::None), (41, 41, None));
        assert_eq!(told(2, 1, &[XNON], Bloom::Present), (41, 41, None));
        assert_eq!(told(17, 1, &[XNON], Bloom::None), (40, 40, None));
    }

    /// The crate ignores a reply without a live request, whatever the reason; its record and its actions tell the three apart.
    #[test]
    fn one_event_of_the_crate_is_three_numbers() {
        let mut both = Both::new();
        let source = address(SOURCE);
        let new = Op::New {
            nts: false,
            min: 4,
            max: 10,
            startup: 3,
            window: 5000,
            start: Version::V4,
            source,
            cookies: vec![],
            capacity: 8,
        };
        let timer = Op::Timer { now: 1000, desired: 6, id: 7, uid: [0; 32], room: None };
        let mut packet = vec![0; 48];
        packet[..2].copy_from_slice(&[0x24, 2]);
        packet[31] = 7;
        let reply = |now| Op::Reply { now, t1: 0, t4: 0, packet: packet.clone(), fail: false };
        let steps = [
            (new, 0, false),
            (reply(0), 12, false),
            (timer, 20, false),
            (reply(6001), 14, false),
            (reply(6000), 0, true),
            (reply(6000), 13, true),
            (reply(6001), 13, true),
        ];
        for (op, number, answered) in steps {
            let step = both.step(&op);
            assert!(!step.failed && step.reason.is_none());
            for (answer, state) in [&step.of_crate, &step.of_rules] {
                assert_eq!((answer.number, state.answered), (number, answered));
            }
        }
    }

    /// The crate says nothing of cookies that do not fit; its stash before and after tells how many they are, and how long.
    #[test]
    fn what_falls_out_of_the_crates_stash_is_counted() {
        for (nts, given, dropped) in [(true, 8, (0, 0)), (true, 9, (1, 1)), (true, 11, (3, 6)), (false, 9, (0, 0))] {
            let cookies = (1..=given).map(|n| vec![0; n]).collect();
            let source = address(SOURCE);
            let new =
                Op::New { nts, min: 4, max: 10, startup: 3, window: 5000, start: Version::V4, source, cookies, capacity: 8 };
            let step = Both::new().step(&new);
            assert!(!step.failed);
            assert_eq!((step.of_crate.0.dropped, step.of_rules.0.dropped), (Some(dropped), Some(dropped)));
        }
    }

    /// With a smaller capacity the crate holds more and asks for more. Nothing else passes for that.
    #[test]
    fn a_smaller_stash_is_told_from_the_crates() {
        let mut both = Both::new();
        let (source, cookies) = (address(SOURCE), (1..=9).map(|n| vec![0; n]).collect());
        let (start, capacity) = (Version::V4, 4);
        let new = Op::New { nts: true, min: 4, max: 10, startup: 3, window: 5000, start, source, cookies, capacity };
        let timer = Op::Timer { now: 1000, desired: 6, id: 7, uid: [1; 32], room: None };
        let step = both.step(&new);
        assert_eq!((step.of_crate.0.dropped, step.of_rules.0.dropped), (Some((1, 1)), Some((5, 15))));
        assert_eq!(step.reason, Some("smaller-stash"));
        let mut step = both.step(&timer);
        let asked = |a: &(Answer, State)| a.0.sent.as_ref().unwrap().asked;
        assert_eq!((asked(&step.of_crate), asked(&step.of_rules), step.reason), (5, 1, Some("smaller-stash")));
        assert!(listed_stash(true, &step).is_some() && listed_stash(false, &step).is_none());
        // Another number asked for, another cookie, another number of the record, and a capacity that is the crate's.
        let right = step.of_rules.clone();
        let wrong = |change: &dyn Fn(&mut (Answer, State))| {
            let mut of_rules = right.clone();
            change(&mut of_rules);
            of_rules
        };
        for of_rules in [
            wrong(&|r| r.0.sent.as_mut().unwrap().asked = 2),
            wrong(&|r| r.0.sent.as_mut().unwrap().poll = 5),
            wrong(&|r| r.0.number = 24),
            wrong(&|r| r.0.dropped = Some((0, 0))),
            wrong(&|r| r.1.cookies[2].1[0] = 1),
            wrong(&|r| r.1.reach = 1),
            wrong(&|r| r.1.capacity = 8),
        ] {
            step.of_rules = of_rules;
            assert!(listed_stash(true, &step).is_none());
        }
    }

    /// Another cause, another effect and a changed record have no reason.
    #[test]
    fn nothing_else_passes_for_a_source_that_we_serve() {
        let before = Rules::new(false, 4, 10, 3, 5000, Version::V4, SOURCE, &[], 8).state;
        let listed = |stratum, local: &[u32], bloom, numbers: (u8, u8), after: &State| {
            let side = |number| (Answer { number, ..Answer::default() }, after.clone());
            let (of_crate, of_rules) = (side(numbers.0), side(numbers.1));
            let version = before.version;
            let step = Step {
                of_crate,
                of_rules,
                drawn: None,
                version,
                reason: None,
                failed: false,
                left_out: false,
                packet: None,
                loaded: None,
            };
            listed_accept(stratum, local, bloom, SOURCE, &step, &before)
        };
        // A new association: stratum 16, XNON, not reached.
        assert!(listed(17, &[XNON], Bloom::None, (42, 41), &before).is_some());
        assert!(listed(16, &[XNON], Bloom::None, (42, 41), &before).is_none());
        assert!(listed(17, &[SOURCE, XNON], Bloom::None, (42, 41), &before).is_none());
        assert!(listed(17, &[1], Bloom::None, (42, 41), &before).is_none());
        assert!(listed(17, &[XNON], Bloom::Present, (42, 41), &before).is_none());
        for numbers in [(0, 41), (40, 41), (42, 0), (42, 40)] {
            assert!(listed(17, &[XNON], Bloom::None, numbers, &before).is_none());
        }
        let touched = State { reach: 1, ..before.clone() };
        assert!(listed(17, &[XNON], Bloom::None, (42, 41), &touched).is_none());
    }
}
