//! Answers the drill's language (docs/DRILL.md) through this crate: `tests/embed` compares its answers with the drill's, and `tests/live` polls a server with
//! it. It reads logs without bad lines from standard input and answers a line at a time. It also checks what the drill does not show: a refusal leaves record
//! and buffer unchanged, nothing is written past what is returned, `look` says what the bytes say, and `Settings::check` finds a fault exactly if there is a
//! 30. If not, the answer ends with `CHANGED`.
use reckonstile::{
    check_calendar, collect, compare, plan_calendar, salvage, write_request, Association, Bloom, CheckRefused, CompareRefused,
    DecodedReply, Difference, Kisses, LoadRefused, Measurement, NtpDuration, NtpInstant, NtpLeapIndicator, NtpTimestamp,
    Opened, PlanRefused, PollInterval, PollIntervalLimits, ProtocolVersion, ReferenceId, SendKind, Settings, Times, Uid, View,
    NO_COOKIE,
};
use std::collections::HashMap;
use std::fmt::Write as _;
use std::io::{BufRead, Write as _};
use std::time::Duration;

const FILL: u8 = 0xAA;

// tools/numbers: changes timer reply
/// Numbers of `timer` after which the record may be another.
const TIMER_CHANGES: [u32; 3] = [20, 23, 24];
/// Numbers of `reply` after which the record may be another.
const REPLY_CHANGES: [u32; 8] = [0, 5, 6, 7, 8, 9, 10, 11];
// tools/numbers: end

/// A line's pairs.
struct Pairs<'a>(HashMap<&'a str, &'a str>);

impl<'a> Pairs<'a> {
    fn text(&self, key: &str) -> &'a str {
        self.or(key, "")
    }

    fn or(&self, key: &str, default: &'a str) -> &'a str {
        self.0.get(key).copied().unwrap_or(default)
    }

    fn number<T: std::str::FromStr>(&self, key: &str) -> T {
        number(self.text(key))
    }

    fn bytes(&self, key: &str) -> Vec<u8> {
        bytes(self.or(key, "-"))
    }

    fn bits(&self, key: &str) -> u64 {
        bits(self.or(key, "0"))
    }

    fn uid(&self) -> [u8; 32] {
        uid(self.or("uid", "-"))
    }

    fn group(&self, key: &str) -> Uid {
        match self.or(key, "absent") {
            "agree" => Uid::Agree,
            "disagree" => Uid::Disagree,
            _ => Uid::Absent,
        }
    }

    fn times(&self) -> Times {
        Times {
            t1: NtpTimestamp::from_bits(self.number("t1")),
            t4: NtpTimestamp::from_bits(self.number("t4")),
            time: NtpInstant::from_nanos(self.number("now")),
        }
    }
}

fn number<T: std::str::FromStr>(text: &str) -> T {
    text.parse().unwrap_or_else(|_| panic!("no number: {text}"))
}

fn bits(text: &str) -> u64 {
    u64::from_str_radix(text, 16).expect("hexadecimal digits")
}

fn bytes(text: &str) -> Vec<u8> {
    if text == "-" {
        return Vec::new();
    }
    (0..text.len() / 2).map(|i| u8::from_str_radix(&text[2 * i..2 * i + 2], 16).expect("hexadecimal digits")).collect()
}

fn uid(text: &str) -> [u8; 32] {
    bytes(text).try_into().unwrap_or([0; 32])
}

fn hex(bytes: &[u8]) -> String {
    if bytes.is_empty() {
        return "-".into();
    }
    bytes.iter().fold(String::new(), |mut out, b| {
        let _ = write!(out, "{b:02x}");
        out
    })
}

/// A version's code and its tries, as a record has them.
fn version_codes(text: &str) -> (u8, u8) {
    match text {
        "v4" => (0, 0),
        "upgraded" => (2, 0),
        "v5" => (3, 0),
        upgrading => (1, number(&upgrading["upgrading:".len()..])),
    }
}

fn kind_of(text: &str) -> SendKind {
    match text {
        "v4" => SendKind::V4,
        "v4-upgrade" => SendKind::V4Upgrade,
        "v5" => SendKind::V5,
        "nts-v4" => SendKind::NtsV4,
        _ => SendKind::NtsV5,
    }
}

fn kind_name(kind: SendKind) -> &'static str {
    match kind {
        SendKind::V4 => "v4",
        SendKind::V4Upgrade => "v4-upgrade",
        SendKind::V5 => "v5",
        SendKind::NtsV4 => "nts-v4",
        SendKind::NtsV5 => "nts-v5",
        _ => "of another version of the crate",
    }
}

/// `CHANGED` if something is not as it was.
fn kept(same: bool) -> &'static str {
    if same {
        ""
    } else {
        " CHANGED"
    }
}

fn filled(bytes: &[u8]) -> bool {
    bytes.iter().all(|b| *b == FILL)
}

/// A field that differs, as the drill prints it.
fn difference(d: &Difference) -> String {
    let name = match d.code {
        1 => "min",
        2 => "max",
        3 => "startup",
        4 => "window",
        5 => "mark",
        6 => "start",
        7 => "nts",
        8 => "source",
        9 => "capacity",
        16 => "read",
        48 => "reach",
        49 => "tries",
        50 => "version",
        51 => "last",
        52 => "remote",
        53 => "stratum",
        54 => "refid",
        55 => "denial",
        _ => "cookie",
    };
    let reading = |n: u64| match name {
        "min" | "max" | "last" | "remote" => i64::from_be_bytes(n.to_be_bytes()).to_string(),
        "mark" => format!("{n:016x}"),
        "source" | "refid" => format!("{n:08x}"),
        "nts" | "denial" => if n == 1 { "yes" } else { "no" }.into(),
        "start" | "version" => match n / 256 {
            0 => "v4".into(),
            1 => format!("upgrading:{}", n % 256),
            2 => "upgraded".into(),
            _ => "v5".into(),
        },
        "cookie" if n == NO_COOKIE => "-".into(),
        _ => n.to_string(),
    };
    let (left, right) = (reading(d.left), reading(d.right));
    if name == "cookie" {
        return format!(" cookie{}:{left}/{right}@{}", d.code.wrapping_sub(32), d.place);
    }
    format!(" {name}:{left}/{right}")
}

/// The bytes of a record with eight slots.
const MOST: usize = Association::<8>::BYTES;

/// The association type of a capacity: `of!(capacity, N => expression)`.
macro_rules! of {
    ($capacity:expr, $slots:ident => $body:expr) => {
        match $capacity {
            1 => {
                const $slots: usize = 1;
                $body
            }
            2 => {
                const $slots: usize = 2;
                $body
            }
            3 => {
                const $slots: usize = 3;
                $body
            }
            4 => {
                const $slots: usize = 4;
                $body
            }
            5 => {
                const $slots: usize = 5;
                $body
            }
            6 => {
                const $slots: usize = 6;
                $body
            }
            7 => {
                const $slots: usize = 7;
                $body
            }
            _ => {
                const $slots: usize = 8;
                $body
            }
        }
    };
}

/// A call on the record: it gets as many bytes as the capacity has.
macro_rules! on {
    ($drill:expr, $a:ident => $body:expr) => {
        of!($drill.capacity(), N => {
            let $a = Association::<N>::from_bytes(&mut $drill.image[..Association::<N>::BYTES]).expect("as many bytes as the type has");
            $body
        })
    };
}

struct Drill {
    /// The record, with room for eight slots.
    image: Vec<u8>,
    /// Numbers of `read` and `held` that were poked and do not fit into a byte: 255 replaces them, which is not whole either.
    far: [u64; 2],
}

impl Drill {
    /// The capacity, if it is valid and nothing is past its slots. Else there is no such record: then all eight slots are lent, and must be rejected.
    fn capacity(&self) -> usize {
        let named = usize::from(self.image[26]);
        let past = self.image.get(92 + 726 * named..).is_some_and(|past| past.iter().all(|byte| *byte == 0));
        if (1..=8).contains(&named) && past {
            named
        } else {
            8
        }
    }

    fn number_at(&self, at: usize, bytes: usize) -> u64 {
        self.image[at..at + bytes].iter().fold(0, |n, byte| n << 8 | u64::from(*byte))
    }

    fn row(&self, k: usize) -> (&[u8], u16) {
        let row = &self.image[92 + 726 * k..][..726];
        (&row[..724], u16::from_be_bytes([row[724], row[725]]))
    }

    /// What is made or loaded; nothing if that was rejected.
    fn becomes(&mut self, bytes: &[u8]) {
        self.image = vec![0; MOST];
        self.image[..bytes.len()].copy_from_slice(bytes);
        self.far = [0; 2];
    }

    fn settings(p: &Pairs) -> Settings {
        let version = match p.text("start") {
            "v4" => ProtocolVersion::V4,
            "upgraded" => ProtocolVersion::UpgradedToV5,
            "v5" => ProtocolVersion::V5,
            other => panic!("settings cannot name the version {other}"),
        };
        Settings {
            poll_interval_limits: PollIntervalLimits {
                min: PollInterval::new(p.number("min")),
                max: PollInterval::new(p.number("max")),
            },
            startup_tries: p.number("startup"),
            poll_window: Duration::from_nanos(p.number("window")),
            upgrade_mark: p.bits("mark"),
            version,
            nts: p.text("nts") == "yes",
            source: ReferenceId::from_bits(p.bits("source") as u32),
        }
    }

    fn slots(p: &Pairs) -> usize {
        match number(p.or("capacity", "8")) {
            slots @ 1..=8 => slots,
            other => panic!("no type has {other} slots"),
        }
    }

    fn made(&mut self, p: &Pairs) -> String {
        let (settings, list) = (Self::settings(p), p.bytes("list"));
        of!(Self::slots(p), N => match Association::<N>::new(&settings, &list) {
            Ok((a, d)) => {
                self.becomes(a.as_bytes());
                format!("new 0 dropped={} lost={}{}", d.count, d.bytes, kept(settings.check().is_ok()))
            }
            Err(refused) => {
                self.becomes(&[]);
                format!("new {}{}", refused.number(), kept((refused.number() == 30) == settings.check().is_err()))
            }
        })
    }

    fn metered(&mut self, p: &Pairs) -> String {
        let (settings, list) = (Self::settings(p), p.bytes("list"));
        of!(Self::slots(p), N => match Association::<N>::metered(&settings, &list) {
            Ok((a, d)) => {
                self.becomes(a.as_bytes());
                format!("metered 0 dropped={} lost={}{}", d.count, d.bytes, kept(settings.check().is_ok()))
            }
            Err(refused) => {
                self.becomes(&[]);
                format!("metered {}{}", refused.number(), kept((refused.number() == 30) == settings.check().is_err()))
            }
        })
    }

    fn profile(p: &Pairs) -> String {
        let (settings, list) = (Self::settings(p), p.bytes("list"));
        let said = of!(Self::slots(p), N => Association::<N>::profile(&settings, &list));
        format!("profile {}", said.map_or_else(|refused| refused.number(), |()| 0))
    }

    fn timer(&mut self, p: &Pairs) -> String {
        let before = self.image.clone();
        let mut buffer = vec![FILL; number(p.or("room", "1024"))];
        let (time, desired) = (NtpInstant::from_nanos(p.number("now")), PollInterval::new(p.number("desired")));
        let said = on!(self, a => a.timer(time, desired, p.bits("id"), p.uid(), &mut buffer));
        match said {
            Ok(poll) => {
                let len = poll.cookie.len();
                let line = format!(
                    "timer 20 send={} poll={} cookie={} asked={}",
                    kind_name(poll.kind),
                    poll.poll.as_log(),
                    hex(poll.cookie),
                    poll.asked
                );
                line + kept(filled(&buffer[len..]))
            }
            Err(refused) => {
                let number = refused.number();
                let untouched = TIMER_CHANGES.contains(&number) || before == self.image;
                format!("timer {number}{}", kept(filled(&buffer) && untouched))
            }
        }
    }

    fn measured(&self, word: &str, before: &[u8], said: Result<Measurement, reckonstile::ReplyRefused>) -> String {
        match said {
            Ok(m) => format!(
                "{word} 0 delay={} offset={} local={} mono={} stratum={} rootdelay={} rootdisp={} leap={} precision={} dropped={} lost={}",
                m.delay.to_bits(),
                m.offset.to_bits(),
                m.localtime.to_bits(),
                m.monotime.as_nanos(),
                m.stratum,
                m.root_delay.to_bits(),
                m.root_dispersion.to_bits(),
                m.leap.code(),
                m.precision,
                m.dropped.count,
                m.dropped.bytes
            ),
            Err(refused) => {
                let number = refused.number();
                let untouched = REPLY_CHANGES.contains(&number) || before == self.image;
                format!("{word} {number}{}", kept(untouched))
            }
        }
    }

    fn reply(&mut self, p: &Pairs) -> String {
        let before = self.image.clone();
        let (packet, decrypted) = (p.bytes("packet"), p.bytes("plain"));
        let list = match p.or("list", "-") {
            "collect" => {
                let mut out = vec![FILL; 4096];
                let length = collect(&decrypted, &mut out).unwrap_or(0);
                out.truncate(length);
                out
            }
            list => bytes(list),
        };
        let opened = Opened::replayed(&packet, number(p.or("auth", "48")), &decrypted, &list);
        let said = on!(self, a => a.reply(&opened, p.times()));
        self.measured("reply", &before, said)
    }

    fn reply5(&mut self, p: &Pairs) -> String {
        let before = self.image.clone();
        let kiss: Vec<&str> = p.or("kiss", "-").split(',').collect();
        let has = |name: &str| kiss.contains(&name);
        let leap = match p.number("leap") {
            0 => NtpLeapIndicator::NoWarning,
            1 => NtpLeapIndicator::Leap61,
            2 => NtpLeapIndicator::Leap59,
            3 => NtpLeapIndicator::Unknown,
            _ => NtpLeapIndicator::Unsynchronized,
        };
        let d = DecodedReply {
            leap,
            response: p.text("mode") == "4",
            stratum: p.number("stratum"),
            poll: PollInterval::new(p.number("poll")),
            precision: p.number("precision"),
            root_delay: NtpDuration::from_bits(p.number("rootdelay")),
            root_dispersion: NtpDuration::from_bits(p.number("rootdisp")),
            receive: NtpTimestamp::from_bits(p.number("receive")),
            transmit: NtpTimestamp::from_bits(p.number("transmit")),
            cookie: p.bits("cookie"),
            kisses: Kisses { rate: has("rate"), deny: has("deny"), rstr: has("rstr"), ntsn: has("ntsn"), any: has("any") },
            authenticated: p.group("auth"),
            encrypted: p.group("enc"),
            untrusted: p.group("untrusted"),
        };
        let said = on!(self, a => a.reply_decoded(&d, &p.bytes("list"), p.times()));
        self.measured("reply5", &before, said)
    }

    fn accept(&mut self, p: &Pairs) -> String {
        let before = self.image.clone();
        let local: Vec<ReferenceId> = match p.or("local", "-") {
            "-" => Vec::new(),
            list => list.split(',').map(|id| ReferenceId::from_bits(bits(id) as u32)).collect(),
        };
        let bloom = match p.or("bloom", "none") {
            "absent" => Bloom::Absent,
            "present" => Bloom::Present,
            _ => Bloom::NoFilter,
        };
        let said = on!(self, a => a.accept(p.number("stratum"), &local, bloom));
        format!("accept {}{}", said.map_or_else(|refused| refused.number(), |()| 0), kept(before == self.image))
    }

    fn collect(p: &Pairs) -> String {
        let mut out = vec![FILL; number(p.or("room", "4096"))];
        match collect(&p.bytes("plain"), &mut out) {
            Ok(n) => format!("collect 0 list={}{}", hex(&out[..n]), kept(filled(&out[n..]))),
            Err(refused) => format!("collect {}{}", refused.number(), kept(filled(&out))),
        }
    }

    fn request(p: &Pairs) -> String {
        let mut out = vec![FILL; number(p.or("room", "6144"))];
        let poll = PollInterval::new(p.number("poll"));
        let said = write_request(
            kind_of(p.text("kind")),
            poll,
            p.bits("id"),
            p.bits("mark"),
            p.uid(),
            &p.bytes("cookie"),
            number(p.or("asked", "0")),
            &mut out,
        );
        match said {
            Ok(n) => format!("request 0 len={n} packet={}{}", hex(&out[..n]), kept(filled(&out[n..]))),
            Err(refused) => format!("request {}{}", refused.number(), kept(filled(&out))),
        }
    }

    fn save(&mut self, p: &Pairs) -> String {
        let before = self.image.clone();
        let mut out = vec![FILL; number(p.or("room", "8192"))];
        match on!(self, a => a.save(&mut out)) {
            Ok(n) => {
                // Only the stash changes: it is empty, at the same reading place.
                let mut emptied = before;
                emptied[28] = 0;
                emptied[92..].fill(0);
                let same = filled(&out[n..]) && emptied == self.image;
                format!("save 0 len={n} file={}{}", hex(&out[..n]), kept(same))
            }
            Err(refused) => format!("save {}{}", refused.number(), kept(filled(&out) && before == self.image)),
        }
    }

    fn load(&mut self, p: &Pairs) -> String {
        let file = p.bytes("file");
        let capacity = if file.get(3) == Some(&27) { file.get(30).copied().unwrap_or(8) } else { 8 };
        of!(capacity, N => match Association::<N>::load(&file) {
            Ok((a, retired)) => {
                self.becomes(a.as_bytes());
                // The same file is not one of another type.
                let other = of!(N % 8 + 1, M => Association::<M>::load(&file).map(|_| ()));
                let other = kept(other == Err(LoadRefused::WrongSize));
                format!("load 0 retired={}{other}", if retired { "yes" } else { "no" })
            }
            Err(refused) => {
                self.becomes(&[]);
                format!("load {}", refused.number())
            }
        })
    }

    fn compare(p: &Pairs) -> String {
        let mut out = vec![FILL; number(p.or("room", "4096"))];
        let (line, length) = match compare(&p.bytes("left"), &p.bytes("right"), &mut out) {
            Ok(differ) => {
                let words: String = differ.iter().map(|d| difference(&d)).collect();
                (format!("compare 0 {}{words}", differ.len()), differ.list.len())
            }
            Err(refused) => {
                let side = match refused {
                    CompareRefused::Left(_) => " side=left",
                    CompareRefused::Right(_) => " side=right",
                    _ => "",
                };
                (format!("compare {}{side}", refused.number()), 0)
            }
        };
        line + kept(filled(&out[length..]))
    }

    fn salvage(p: &Pairs) -> String {
        let mut out = vec![FILL; number(p.or("room", "4096"))];
        let said = match salvage(&p.bytes("list"), &mut out) {
            Ok(s) => {
                let places: Vec<String> = s.places().iter().map(ToString::to_string).collect();
                let at = if places.is_empty() { "-".into() } else { places.join(",") };
                let line =
                    format!("salvage 0 kept={} skipped={} gaps={} at={at} list={}", s.kept, s.skipped, s.gaps, hex(s.list));
                Ok((line, s.list.len()))
            }
            Err(refused) => Err(refused.number()),
        };
        match said {
            Ok((line, length)) => line + kept(filled(&out[length..])),
            Err(number) => format!("salvage {number}{}", kept(filled(&out))),
        }
    }

    fn calendar(p: &Pairs) -> String {
        let (starts, repeats): (Vec<u16>, Vec<u16>) = match p.text("entries") {
            "-" => Default::default(),
            entries => entries
                .split(',')
                .map(|entry| entry.split_once('/').expect("a stroke"))
                .map(|(start, repeat)| (number::<u16>(start), number::<u16>(repeat)))
                .unzip(),
        };
        match check_calendar(p.number("cap"), &starts, &repeats) {
            Ok(()) => "calendar 0".into(),
            Err(refused) => {
                let place = match refused {
                    CheckRefused::BadRepeat { entry } | CheckRefused::LateStart { entry } => format!(" entry={entry}"),
                    CheckRefused::OverCap { minute } => format!(" minute={minute}"),
                    _ => String::new(),
                };
                format!("calendar {}{place}", refused.number())
            }
        }
    }

    fn plan(p: &Pairs) -> String {
        let repeats: Vec<u16> = match p.text("repeats") {
            "-" => Vec::new(),
            repeats => repeats.split(',').map(number).collect(),
        };
        // One start more than there are repeats: the last must stay unchanged.
        let mut buffer = vec![u16::MAX; repeats.len() + 1];
        let said = match plan_calendar(p.number("cap"), &repeats, &mut buffer) {
            Ok(starts) => {
                let starts: Vec<String> = starts.iter().map(ToString::to_string).collect();
                let line = format!("plan 0 starts={}", if starts.is_empty() { "-".into() } else { starts.join(",") });
                Ok((line, starts.len()))
            }
            Err(refused) => {
                let place = match refused {
                    PlanRefused::BadRepeat { entry } | PlanRefused::NoFit { entry } => format!(" entry={entry}"),
                    _ => String::new(),
                };
                Err(format!("plan {}{place}", refused.number()))
            }
        };
        match said {
            Ok((line, count)) => line + kept(buffer[count..].iter().all(|start| *start == u16::MAX)),
            Err(line) => line + kept(buffer.iter().all(|start| *start == u16::MAX)),
        }
    }

    /// Whether `look` says what the bytes say.
    fn looked(&self, view: &View) -> bool {
        let (settings, state) = (&view.settings, &view.state);
        let numbers = [
            (0, 1, u64::from(settings.min.to_be_bytes()[0])),
            (1, 1, u64::from(settings.max.to_be_bytes()[0])),
            (2, 1, settings.startup.into()),
            (3, 8, settings.window),
            (11, 8, settings.upgrademark),
            (19, 1, settings.start.into()),
            (20, 1, settings.left.into()),
            (21, 1, settings.nts.into()),
            (22, 4, settings.source.into()),
            (26, 1, settings.capacity.into()),
            (29, 1, state.reach.into()),
            (30, 1, state.tries.into()),
            (31, 1, state.unanswered.into()),
            (32, 1, state.version.into()),
            (33, 1, state.left.into()),
            (34, 1, u64::from(state.last.to_be_bytes()[0])),
            (35, 1, u64::from(state.remote.to_be_bytes()[0])),
            (36, 1, state.stratum.into()),
            (37, 4, state.refid.into()),
            (41, 1, state.denial.into()),
            (42, 1, state.present.into()),
            (43, 1, state.answered.into()),
            (44, 8, state.id),
            (52, 8, state.deadline),
        ];
        numbers.iter().all(|(at, bytes, number)| self.number_at(*at, *bytes) == *number) && self.image[60..92] == state.uid
    }

    fn show(&mut self) -> String {
        let byte = |at: usize| self.image[at];
        let signed = |at: usize| i8::from_be_bytes([byte(at)]);
        let yes = |at: usize| if byte(at) == 1 { "yes" } else { "no" };
        let version = match byte(32) {
            0 => "v4".into(),
            1 => format!("upgrading:{}", byte(33)),
            2 => "upgraded".into(),
            _ => String::from("v5"),
        };
        let pending = match byte(42) {
            1 => format!("{:016x}/{}/{}", self.number_at(44, 8), hex(&self.image[60..92]), self.number_at(52, 8)),
            _ => "-".into(),
        };
        let lens: Vec<String> = (0..8).map(|k| self.row(k).1.to_string()).collect();
        let far = |k: usize| if self.far[k] > 0 { self.far[k] } else { byte(27 + k).into() };
        let line = format!(
            "record reach={} tries={} version={version} last={} remote={} pending={pending} denial={} stratum={} refid={:08x} read={} held={} lens={} answered={} unanswered={} capacity={}",
            byte(29),
            byte(30),
            signed(34),
            signed(35),
            yes(41),
            byte(36),
            self.number_at(37, 4),
            far(0),
            far(1),
            lens.join(","),
            yes(43),
            byte(31),
            byte(26)
        );
        // As many bytes as the capacity has, and no unknown code; the numbers may still contradict each other.
        let version = |at: usize| byte(at) <= 3 && (byte(at) == 1 || byte(at + 1) == 0);
        let codes = version(19) && version(32) && [21, 41, 42, 43].into_iter().all(|at| byte(at) <= 1);
        let readable = codes && self.capacity() == usize::from(byte(26));
        let view = on!(self, a => a.look());
        line + kept(view.map_or(!readable, |view| readable && self.looked(&view)))
    }

    fn cookies(&mut self) -> String {
        // A record that is not whole shows no cookies.
        let held = usize::from(self.image[28]);
        if held == 0 || on!(self, a => a.accept(0, &[], Bloom::NoFilter)).is_err_and(|refused| refused.number() == 32) {
            return "cookies 0".into();
        }
        let cookies: Vec<String> = (0..held)
            .map(|k| {
                let (bytes, length) = self.row((usize::from(self.image[27]) + k) % usize::from(self.image[26]));
                hex(bytes.get(..length.into()).unwrap_or(&[]))
            })
            .collect();
        format!("cookies {held} {}", cookies.join(","))
    }

    fn poke(&mut self, p: &Pairs) -> String {
        let value = p.text("value");
        let signed = || number::<i8>(value).to_be_bytes().to_vec();
        let near = |n: u64| vec![u8::try_from(n).unwrap_or(255)];
        let far = |n: u64| if n > 255 { n } else { 0 };
        let (at, bytes) = match p.text("key") {
            "min" => (0, signed()),
            "max" => (1, signed()),
            "startup" => (2, near(number(value))),
            "window" => (3, number::<u64>(value).to_be_bytes().to_vec()),
            "start" => (19, vec![version_codes(value).0, version_codes(value).1]),
            "capacity" => (26, near(number(value))),
            "read" => {
                self.far[0] = far(number(value));
                (27, near(number(value)))
            }
            "held" => {
                self.far[1] = far(number(value));
                (28, near(number(value)))
            }
            "reach" => (29, near(number(value))),
            "tries" => (30, near(number(value))),
            "unanswered" => (31, near(number(value))),
            "version" => (32, vec![version_codes(value).0, version_codes(value).1]),
            "last" => (34, signed()),
            "remote" => (35, signed()),
            "stratum" => (36, near(number(value))),
            "refid" => (37, (bits(value) as u32).to_be_bytes().to_vec()),
            "answered" => (43, near(number(value))),
            "id" => (44, bits(value).to_be_bytes().to_vec()),
            "deadline" => (52, number::<u64>(value).to_be_bytes().to_vec()),
            "uid" => (60, uid(value).to_vec()),
            "slotbyte" => {
                let parts: Vec<usize> = value.split('/').map(number).collect();
                (92 + 726 * parts[0] + parts[1], vec![parts[2] as u8])
            }
            key => panic!("no key {key}"),
        };
        self.image[at..at + bytes.len()].copy_from_slice(&bytes);
        "poke".into()
    }

    fn blank(&mut self) -> String {
        on!(self, a => a.blank());
        let cleared = self.image.iter().all(|byte| *byte == 0);
        self.far = [0; 2];
        format!("blank{}", kept(cleared))
    }

    fn answer(&mut self, line: &str) -> String {
        let mut words = line.split(' ');
        let command = words.next().unwrap_or_default();
        let p = Pairs(words.map(|word| word.split_once('=').expect("a pair")).collect());
        match command {
            "new" => self.made(&p),
            "metered" => self.metered(&p),
            "profile" => Drill::profile(&p),
            "timer" => self.timer(&p),
            "reply" => self.reply(&p),
            "reply5" => self.reply5(&p),
            "accept" => self.accept(&p),
            "collect" => Drill::collect(&p),
            "request" => Drill::request(&p),
            "save" => self.save(&p),
            "load" => self.load(&p),
            "compare" => Drill::compare(&p),
            "salvage" => Drill::salvage(&p),
            "calendar" => Drill::calendar(&p),
            "plan" => Drill::plan(&p),
            "show" => self.show(),
            "cookies" => self.cookies(),
            "poke" => self.poke(&p),
            "blank" => self.blank(),
            other => panic!("no command {other}"),
        }
    }
}

fn main() -> std::io::Result<()> {
    let mut drill = Drill { image: vec![0; MOST], far: [0; 2] };
    let (input, mut output) = (std::io::stdin().lock(), std::io::stdout().lock());
    for line in input.lines() {
        let line = line?;
        if !line.is_empty() && !line.starts_with('#') {
            output.write_all(drill.answer(&line).as_bytes())?;
            output.write_all(b"\n")?;
            output.flush()?;
        }
    }
    Ok(())
}
