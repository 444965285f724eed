//! The loop of a real box: resolve the server, call the timer, write the request, send it, receive, hand over the reply, take the measurement, ask whether the
//! source may be used, wait for the next poll.
//!
//!     connector SERVER[:PORT] [--polls N] [--desired EXPONENT] [--log FILE] [--nts KEYS]
//!
//! Write an IPv6 address in brackets, with its port: `[2001:db8::1]:123`. Its identifier is computed here (`md5/mod.rs`).
//!
//! `--polls` ends it after N polls. `--desired` is the exponent that a clock steering would want (6: every 64 s). `--log` writes every call in the drill's
//! language, with its answer as a comment, so that a bad morning can be replayed: `./drill FILE`. `--nts` (with the feature `nettle`) reads the results of a
//! key exchange: lines `to-server HEX`, `to-client HEX` and `cookie HEX`; the file is read again whenever keys must be exchanged again.
//!
//! Without NTS it uses only the standard library.
use reckonstile::{
    Action, Association, Bloom, Measurement, NtpInstant, NtpTimestamp, Opened, Poll, PollInterval, PollIntervalLimits,
    ReplyRefused, SendKind, Settings, Times, COOKIE_BYTES, REQUEST_BYTES,
};
use std::error::Error;
use std::fs::File;
use std::io::{Read, Write};
use std::net::{Ipv4Addr, Ipv6Addr, ToSocketAddrs, UdpSocket};
use std::time::{Duration, Instant};

mod md5;
mod nts;
use nts::Nts;

/// Our own stratum until we are synchronized: one more than any source has.
const LOCAL_STRATUM: u8 = 16;

struct Options {
    server: String,
    polls: Option<u64>,
    desired: PollInterval,
    log: Option<File>,
    keys: Option<String>,
}

fn options() -> Result<Options, Box<dyn Error>> {
    let usage = "usage: connector SERVER[:PORT] [--polls N] [--desired EXPONENT] [--log FILE] [--nts KEYS]";
    let mut given = std::env::args().skip(1);
    let mut found =
        Options { server: given.next().ok_or(usage)?, polls: None, desired: PollInterval::new(6), log: None, keys: None };
    if !found.server.contains(':') {
        found.server.push_str(":123"); // an IPv6 address is named with its port
    }
    while let Some(name) = given.next() {
        let value = given.next().ok_or(usage)?;
        match name.as_str() {
            "--polls" => found.polls = Some(value.parse()?),
            "--desired" => found.desired = PollInterval::new(value.parse()?),
            "--log" => found.log = Some(File::create(value)?),
            "--nts" => found.keys = Some(value),
            _ => return Err(usage.into()),
        }
    }
    Ok(found)
}

/// Random bytes from the kernel. The identifiers of a request must neither repeat nor be predictable.
fn random<const N: usize>() -> Result<[u8; N], Box<dyn Error>> {
    let mut bytes = [0; N];
    File::open("/dev/urandom")?.read_exact(&mut bytes)?;
    Ok(bytes)
}

fn hex(bytes: &[u8]) -> String {
    if bytes.is_empty() {
        return "-".into();
    }
    bytes.iter().map(|b| format!("{b:02x}")).collect()
}

/// Every call and its answer, in the drill's language.
struct Log(Option<File>);

impl Log {
    fn write(&mut self, call: &str, answer: &str) -> std::io::Result<()> {
        println!("{answer}");
        match &mut self.0 {
            Some(file) => writeln!(file, "{call}\n# answered {answer}"),
            None => Ok(()),
        }
    }
}

/// An association with its socket, and what belongs to the last request. Its record is made on the heap, and stays there.
struct Link<'a> {
    association: Box<Association>,
    socket: UdpSocket,
    nts: Option<Nts>,
    t1: NtpTimestamp,
    log: &'a mut Log,
}

/// The uptime clock: nanoseconds from the program's start. A box that suspends needs `CLOCK_BOOTTIME` instead (docs/EMBEDDING.md).
fn uptime(start: Instant) -> NtpInstant {
    NtpInstant::since_start(start)
}

impl<'a> Link<'a> {
    /// Looks the server up, and begins with a new association.
    fn new(options: &Options, log: &'a mut Log) -> Result<Self, Box<dyn Error>> {
        let address = options.server.to_socket_addrs()?.next().ok_or("the server has no address")?;
        // A connected socket receives only from the server's address and port.
        let socket = match address.is_ipv4() {
            true => UdpSocket::bind((Ipv4Addr::UNSPECIFIED, 0))?,
            false => UdpSocket::bind((Ipv6Addr::UNSPECIFIED, 0))?,
        };
        socket.connect(address)?;
        let nts = options.keys.as_deref().map(Nts::read).transpose()?;
        let list = nts.as_ref().map(Nts::list).unwrap_or_default();
        let settings = Settings {
            // The default limits; the lower one is reduced if `--desired` is below it.
            poll_interval_limits: PollIntervalLimits {
                min: PollInterval::new(options.desired.as_log().clamp(0, 4)),
                ..PollIntervalLimits::default()
            },
            nts: nts.is_some(),
            source: md5::identifier(address.ip()),
            ..Settings::default()
        };
        // Which setting is outside its range, if one is: the number alone, 30, does not say it.
        settings.check()?;
        let (association, dropped) = Association::new(&settings, &list)?;
        let limits = settings.poll_interval_limits;
        log.write(
            &format!(
                "new min={} max={} startup={} window={} mark={:016x} start=v4 nts={} source={:08x} list={}",
                limits.min.as_log(),
                limits.max.as_log(),
                settings.startup_tries,
                settings.poll_window.as_nanos(),
                settings.upgrade_mark,
                if settings.nts { "yes" } else { "no" },
                settings.source.to_bits(),
                hex(&list)
            ),
            &format!("new 0 dropped={} lost={}", dropped.count, dropped.bytes),
        )?;
        Ok(Link { association, socket, nts, t1: NtpTimestamp::default(), log })
    }

    /// The timer went off: polls, and returns how long to wait for the next poll, or what else to do.
    fn poll(&mut self, start: Instant, desired: PollInterval) -> Result<Result<Duration, Action>, Box<dyn Error>> {
        let (id, uid) = (u64::from_be_bytes(random()?), random::<32>()?);
        let mut buffer = [0; COOKIE_BYTES];
        let time = uptime(start);
        let call = format!(
            "timer now={} desired={} id={id:016x} uid={} room={}",
            time.as_nanos(),
            desired.as_log(),
            hex(&uid),
            buffer.len()
        );
        match self.association.timer(time, desired, id, uid, &mut buffer) {
            Ok(poll) => {
                let mut packet = vec![0; REQUEST_BYTES];
                let length = self.association.write_request(&poll, id, uid, &mut packet)?;
                packet.truncate(length);
                if let Some(nts) = &self.nts {
                    nts.seal(&mut packet, random()?)?;
                }
                // T1 is taken here, when everything that takes time is done and only sending is left: not when the timer went off, and not when a packet
                // enters or leaves a queue of the program's own. If it waited in a queue for q after T1, the delay would be q too long and the offset q/2 too
                // large, and no call could detect it. If the packet can still wait after this line (a modem, a full socket), use the kernel's timestamp of
                // the transmission (SO_TIMESTAMPING) instead, and keep that.
                self.t1 = NtpTimestamp::now();
                // A packet that cannot be sent counts as lost; the timer handles it.
                let _ = self.socket.send(&packet);
                let answer = sent(&poll);
                let wait = stretched(poll.poll.as_system_duration())?;
                self.log.write(&call, &answer)?;
                self.accept()?;
                Ok(Ok(wait))
            }
            Err(refused) => {
                self.log.write(&call, &format!("timer {}", refused.number()))?;
                Ok(Err(refused.action()))
            }
        }
    }

    /// Waits for a datagram, and hands it over. `None` if nothing came in time.
    fn receive(&mut self, start: Instant, patience: Duration) -> Result<Option<Action>, Box<dyn Error>> {
        let mut datagram = [0; 2048];
        self.socket.set_read_timeout(Some(patience.max(Duration::from_millis(1))))?;
        let Ok(length) = self.socket.recv(&mut datagram) else { return Ok(None) };
        // T4 is taken before anything else is done with the datagram.
        let t4 = NtpTimestamp::now();
        let times = Times { t1: self.t1, t4, time: uptime(start) };
        let bytes = &datagram[..length];
        if bytes.first().is_some_and(|first| first >> 3 & 7 == 5) {
            return Ok(None); // this program does not decode V5, so there is nothing to hand over
        }
        // Which part of it is authenticated: nothing here passes the end by hand.
        let (mut decrypted, mut list) = ([0; 2048], [0; 2048]);
        let opened = match &mut self.nts {
            Some(nts) => nts.open(bytes, &mut decrypted, &mut list)?,
            None => Opened::plain(bytes),
        };
        if let Some(fault) = opened.fault() {
            println!("refused: {fault}");
        }
        let said = self.association.reply(&opened, times);
        self.log.write(
            &format!(
                "reply now={} t1={} t4={} packet={} auth={} plain={} list={}",
                times.time.as_nanos(),
                times.t1.to_bits(),
                times.t4.to_bits(),
                hex(bytes),
                opened.end(),
                hex(opened.decrypted()),
                hex(opened.list())
            ),
            &replied(&said),
        )?;
        match said {
            Ok(measurement) => {
                steer(&measurement);
                self.accept()?;
                Ok(Some(Action::Nothing))
            }
            Err(refused) => Ok(Some(refused.action())),
        }
    }

    /// Whether the source may be used; called after each poll and each measured reply.
    fn accept(&mut self) -> Result<(), Box<dyn Error>> {
        let number =
            self.association.accept(LOCAL_STRATUM, &[], Bloom::NoFilter).map_or_else(|refused| refused.number(), |()| 0);
        Ok(self.log.write(&format!("accept stratum={LOCAL_STRATUM}"), &format!("accept {number}"))?)
    }
}

/// Where the clock steering would take the measurement: `offset` is what to add to our clock, and half of `delay` is its uncertainty.
fn steer(m: &Measurement) {
    println!(
        "measured: our clock lacks {:+.6} s, round trip {:.6} s, stratum {}",
        m.offset.to_seconds(),
        m.delay.to_seconds(),
        m.stratum
    );
}

/// A wait stretched by a random factor from 1.01 to 1.05, so that polls are hard to predict.
fn stretched(wait: Duration) -> Result<Duration, Box<dyn Error>> {
    let part = f64::from(u16::from_be_bytes(random()?)) / f64::from(u16::MAX);
    Ok(wait.mul_f64(1.01 + 0.04 * part))
}

fn sent(poll: &Poll<'_>) -> String {
    let kind = match poll.kind {
        SendKind::V4 => "v4",
        SendKind::V4Upgrade => "v4-upgrade",
        SendKind::V5 => "v5",
        SendKind::NtsV4 => "nts-v4",
        SendKind::NtsV5 => "nts-v5",
        _ => "of another version of the crate",
    };
    format!("timer 20 send={kind} poll={} cookie={} asked={}", poll.poll.as_log(), hex(poll.cookie), poll.asked)
}

fn replied(said: &Result<Measurement, ReplyRefused>) -> String {
    match said {
        Ok(m) => format!(
            "reply 0 delay={} offset={} local={} mono={} stratum={} rootdelay={} rootdisp={} leap={} precision={} dropped={} lost={}",
            m.delay.to_bits(),
            m.offset.to_bits(),
            m.localtime.to_bits(),
            m.monotime.as_nanos(),
            m.stratum,
            m.root_delay.to_bits(),
            m.root_dispersion.to_bits(),
            m.leap.code(),
            m.precision,
            m.dropped.count,
            m.dropped.bytes
        ),
        Err(refused) => format!("reply {}", refused.number()),
    }
}

fn main() -> Result<(), Box<dyn Error>> {
    if reckonstile::revision() != reckonstile::REVISION {
        return Err("the library is of another revision than the crate: make both from one revision".into());
    }
    let mut options = options()?;
    let mut log = Log(options.log.take());
    let start = Instant::now();
    let mut polls = 0;
    let mut resets = 0;
    'anew: loop {
        let mut link = Link::new(&options, &mut log)?;
        loop {
            let wait = match link.poll(start, options.desired)? {
                Ok(wait) => wait,
                Err(Action::Reset) => {
                    resets += 1;
                    std::thread::sleep(Duration::from_secs(resets.min(60)));
                    continue 'anew;
                }
                Err(_) => return Err("the server does not want us, or a call was wrong".into()),
            };
            polls += 1;
            let due = Instant::now() + wait;
            let last = options.polls == Some(polls);
            while let Some(left) = due.checked_duration_since(Instant::now()) {
                match link.receive(start, left)? {
                    Some(Action::Demobilize) => return Err("the server does not want us".into()),
                    Some(Action::Reset) => continue 'anew,
                    _ => (),
                }
            }
            if last {
                return Ok(());
            }
        }
    }
}
