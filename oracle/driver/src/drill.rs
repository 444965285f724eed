//! The drill's language: commands, the answers to them, and a log of both.
use crate::both::{Both, Step};
use crate::exec::BROKEN_LIST;
use crate::random::HELD;
use crate::rules;
use crate::state::*;
use ntp_proto::tls_utils::identifier_of;
use std::collections::BTreeMap;
use std::fmt::Write as _;
use std::fs::File;
use std::io::{BufWriter, Write};
use std::path::{Path, PathBuf};

pub fn version(v: Version) -> &'static str {
    match v {
        Version::V4 => "v4",
        Version::UpgradedToV5 => "upgraded",
        Version::V5 => "v5",
        Version::V4UpgradingToV5 { .. } => panic!("upgrading is retired (RULES, No. 14)"),
    }
}

/// The command of an operation; a poke has several, one for each number, and a V5 reply is given in decoded form.
pub fn commands(op: &Op, step: &Step) -> Vec<String> {
    vec![match op {
        Op::New { nts, min, max, startup, window, start, source, cookies, capacity } => format!(
            "new min={min} max={max} startup={startup} window={window} mark={UPGRADE_MARK:016x} start={} nts={} source={:08x} list={}{}",
            version(*start),
            if *nts { "yes" } else { "no" },
            identifier_of(*source),
            held(&list(cookies)),
            if *capacity == 8 { String::new() } else { format!(" capacity={capacity}") }
        ),
        Op::Timer { now, desired, id, uid, room } => format!(
            "timer now={now} desired={desired} id={id:016x} uid={}{}",
            uid_text(uid),
            room.map_or(String::new(), |r| format!(" room={r}"))
        ),
        Op::Reply { now, t1, t4, packet, .. } => {
            let d = step.drawn.as_ref().unwrap();
            match &d.v5 {
                None => format!(
                    "reply now={now} t1={t1} t4={t4} packet={} auth={} plain={} list={}",
                    held(packet),
                    d.auth,
                    held(&d.plain),
                    if d.broken_list { bytes(&BROKEN_LIST) } else { "collect".into() }
                ),
                Some(v) => {
                    let list = if d.broken_list { BROKEN_LIST.to_vec() } else { list(&d.cookies) };
                    reply5(*now, *t1, *t4, v, &list)
                }
            }
        }
        Op::Accept { stratum, local, bloom } => {
            let local: Vec<String> = local.iter().map(|ip| format!("{:08x}", identifier_of(*ip))).collect();
            format!(
                "accept stratum={stratum} local={} bloom={}",
                if local.is_empty() { "-".into() } else { local.join(",") },
                match bloom {
                    Bloom::None => "none",
                    Bloom::Absent => "absent",
                    Bloom::Present => "present",
                }
            )
        }
        Op::Save { room } => format!("save{}", room.map_or(String::new(), |r| format!(" room={r}"))),
        Op::Load { file } => format!("load file={}", bytes(file)),
        // Which commands these are hangs on the record.
        Op::Break(_) => return vec![],
        Op::Poke(pairs) => return pairs.iter().map(|(k, v)| format!("poke key={k} value={v}")).collect(),
    }]
}

/// Bytes of a command, of which the drill holds so many.
fn held(b: &[u8]) -> String {
    assert!(b.len() <= HELD, "the drill holds {HELD} bytes");
    bytes(b)
}

pub fn uid_text(uid: &[u8; 32]) -> String {
    if *uid == [0; 32] { "-".into() } else { hex(uid) }
}

fn reply5(now: u64, t1: u64, t4: u64, v: &Decoded, list: &[u8]) -> String {
    let kiss: Vec<&str> =
        ["rate", "deny", "rstr", "ntsn", "any"].into_iter().zip(v.kiss).filter(|k| k.1).map(|k| k.0).collect();
    let group = |g: Option<bool>| match g {
        None => "absent",
        Some(true) => "agree",
        Some(false) => "disagree",
    };
    format!(
        "reply5 now={now} t1={t1} t4={t4} leap={} mode={} stratum={} poll={} precision={} rootdelay={} rootdisp={} receive={} transmit={} cookie={:016x} kiss={} auth={} enc={} untrusted={} list={}",
        v.leap,
        if v.response { 4 } else { 3 },
        v.stratum,
        v.poll,
        v.precision,
        v.root_delay,
        v.root_dispersion,
        v.receive,
        v.transmit,
        v.identifier,
        if kiss.is_empty() { "-".into() } else { kiss.join(",") },
        group(v.uid[0]),
        group(v.uid[1]),
        group(v.uid[2]),
        held(list)
    )
}

/// The answer to the command that begins with `word`.
pub fn answer(word: &str, a: &Answer) -> String {
    if word == "poke" {
        return "poke".into();
    }
    let mut s = format!("{word} {}", a.number);
    if let Some(t) = &a.sent {
        write!(s, " send={} poll={} cookie={} asked={}", t.kind, t.poll, bytes(&t.cookie), t.asked).unwrap();
    }
    if let Some(m) = &a.measured {
        write!(
            s,
            " delay={} offset={} local={} mono={} stratum={} rootdelay={} rootdisp={} leap={} precision={}",
            m.delay, m.offset, m.local, m.mono, m.stratum, m.root_delay, m.root_dispersion, m.leap, m.precision
        )
        .unwrap();
    }
    if let Some((count, sum)) = a.dropped {
        write!(s, " dropped={count} lost={sum}").unwrap();
    }
    if let Some(file) = &a.file {
        write!(s, " len={} file={}", file.len(), bytes(file)).unwrap();
    }
    if let Some(retired) = a.retired {
        write!(s, " retired={}", if retired { "yes" } else { "no" }).unwrap();
    }
    s
}

pub fn show(s: &State) -> String {
    let pending = match &s.pending {
        None => "-".into(),
        Some((id, uid, deadline)) => format!("{id:016x}/{}/{deadline}", hex(uid)),
    };
    let mut lens = [0; 8];
    for (i, c) in s.cookies.iter().enumerate() {
        lens[(s.read + i) % s.capacity as usize] = c.0;
    }
    format!(
        "record reach={} tries={} version={} last={} remote={} pending={pending} denial={} stratum={} refid={:08x} read={} held={} lens={} answered={} unanswered={} capacity={}",
        s.reach,
        s.tries,
        version(s.version),
        s.last,
        s.remote,
        if s.denial { "yes" } else { "no" },
        s.stratum,
        s.refid,
        s.read,
        s.cookies.len(),
        lens.map(|n: usize| n.to_string()).join(","),
        if s.answered { "yes" } else { "no" },
        s.unanswered,
        s.capacity
    )
}

pub fn cookies(s: &State) -> String {
    let all: Vec<String> = s.cookies.iter().map(|c| bytes(&c.1)).collect();
    match all.len() {
        0 => "cookies 0".into(),
        n => format!("cookies {n} {}", all.join(",")),
    }
}

/// A log in the drill's language, its expected answers, and the lines whose answer is the rule's and not the crate's.
pub struct Log {
    drill: BufWriter<File>,
    expected: BufWriter<File>,
    reasons: BufWriter<File>,
    line: u64,
    steps: u64,
    /// The record is shown after one step in so many, and the cookies after another.
    pub shown: (u64, u64),
    /// `metered` makes the associations: the record that it gives is the one that `new` makes.
    pub metered: bool,
    /// How often each command and number is there.
    pub numbers: BTreeMap<String, u64>,
    /// How many steps, and of which version the association was then.
    versions: BTreeMap<&'static str, u64>,
    failures: u64,
}

impl Log {
    /// The third file stands beside the expected answers and ends with `.reasons`.
    pub fn create(drill: &str, expected: &str) -> std::io::Result<Log> {
        let reasons: PathBuf = Path::new(expected).with_extension("reasons");
        let file = |p: &Path| File::create(p).map(BufWriter::new);
        Ok(Log {
            drill: file(Path::new(drill))?,
            expected: file(Path::new(expected))?,
            reasons: file(&reasons)?,
            line: 0,
            steps: 0,
            shown: (1, 1),
            metered: false,
            numbers: BTreeMap::new(),
            versions: BTreeMap::new(),
            failures: 0,
        })
    }

    pub fn comment(&mut self, text: &str) {
        self.line += 1;
        writeln!(self.drill, "# {text}").unwrap();
    }

    /// A command with an answer that stands in RULES alone.
    pub fn own(&mut self, command: &str, answer: &str) {
        self.put(command, answer, answer, None);
    }

    /// A command with the crate's answer and the rule's; where there is a reason the rule's is expected.
    pub fn put(&mut self, command: &str, of_crate: &str, of_rules: &str, reason: Option<&'static str>) {
        assert!(command.len() <= 32_768, "a line has at most 32,768 characters");
        self.line += 1;
        writeln!(self.drill, "{command}").unwrap();
        writeln!(self.expected, "{}", if reason.is_some() { of_rules } else { of_crate }).unwrap();
        if let Some(reason) = reason
            && of_crate != of_rules
        {
            writeln!(self.reasons, "{} {reason}", self.line).unwrap();
        }
        let key: Vec<&str> = of_rules.split(' ').take(2).filter(|w| !w.contains('=')).collect();
        *self.numbers.entry(if key[0] == "cookies" { "cookies".into() } else { key.join(" ") }).or_default() += 1;
    }

    /// Runs an operation and writes it down with the record and the cookies after it.
    pub fn step(&mut self, both: &mut Both, op: &Op) -> Step {
        let step = both.step(op);
        if step.failed {
            self.failures += 1;
            eprintln!("crate and rules differ, no reason listed:\n{}", explain(op, &step));
        }
        if step.left_out {
            return step;
        }
        let (c, r) = (&step.of_crate, &step.of_rules);
        for mut command in commands(op, &step) {
            if self.metered && matches!(op, Op::New { .. }) {
                command = command.replacen("new", "metered", 1);
            }
            let word = command.split(' ').next().unwrap();
            self.put(&command, &answer(word, &c.0), &answer(word, &r.0), step.reason);
        }
        if self.steps.is_multiple_of(self.shown.0) {
            self.put("show", &show(&c.1), &show(&r.1), step.reason);
        }
        if self.steps.is_multiple_of(self.shown.1) && both.exec.nts {
            self.put("cookies", &cookies(&c.1), &cookies(&r.1), step.reason);
        }
        self.steps += 1;
        *self.versions.entry(version(step.version)).or_default() += 1;
        step
    }

    /// The collector over the decrypted bytes of a reply, where the crate's answer to it can be seen: its new cookies, or
    /// that decrypted fields are broken.
    pub fn collect(&mut self, step: &Step) {
        let Some(d) = step.drawn.as_ref().filter(|d| d.version == 4 && !d.plain.is_empty()) else { return };
        let room = |list: &[u8]| if d.auth.is_multiple_of(8) { format!(" room={}", list.len()) } else { String::new() };
        if d.decoded {
            let list = list(&d.cookies);
            let answer = format!("collect 0 list={}", bytes(&list));
            self.put(&format!("collect plain={}{}", bytes(&d.plain), room(&list)), &answer, &answer, None);
        } else if d.error == "IncorrectLength" && rules::collect(&d.plain).is_none() {
            self.put(&format!("collect plain={}", bytes(&d.plain)), "collect 1", "collect 1", None);
        }
    }

    /// Ends the log, says how many steps there are of each version, and gives the number of those where crate and rules differ for
    /// no listed reason.
    pub fn finish(mut self) -> u64 {
        for (version, count) in &self.versions {
            println!("steps {version}: {count}");
        }
        for f in [&mut self.drill, &mut self.expected, &mut self.reasons] {
            f.flush().unwrap();
        }
        self.failures
    }
}

/// A step in full, for a reader.
pub fn explain(op: &Op, step: &Step) -> String {
    let packet = match op {
        Op::Reply { packet, fail, .. } => format!("\n  packet {} fail {fail}", bytes(packet)),
        _ => String::new(),
    };
    let side = |name: &str, (a, s): &(Answer, State)| {
        format!("\n  {name} {}\n  {name} {}\n  {name} {}", answer("answer", a), show(s), cookies(s))
    };
    format!(
        "  {}{packet}\n  drawn {:?}{}{}",
        commands(op, step).join("\n  "),
        step.drawn,
        side("crate", &step.of_crate),
        side("rules", &step.of_rules)
    )
}
