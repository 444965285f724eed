//! Logs of the drill as inputs of the search, as well as an input can say them: settings and steps are literal, decrypted bytes are sealed by the
//! driver's cipher, and a decoded reply becomes a V5 packet that says the same. What an input cannot say is left out.
use crate::MANNERS;
use driver::random::{field, seal, POKES};
use ntp_proto::tls_utils::FakeCipher;
use ntp_proto::Cipher;
use std::collections::HashMap;

/// What says that a literal follows.
const LITERAL: u8 = 255;
/// An input is cut here, so that a long case is several: the search takes no longer ones.
const LONGEST: usize = 4096;

type Line<'a> = HashMap<&'a str, &'a str>;

fn hex(text: &str) -> Vec<u8> {
    let digits: Vec<u8> = text.bytes().filter_map(|b| (b as char).to_digit(16)).map(|d| d as u8).collect();
    digits.chunks_exact(2).map(|d| d[0] << 4 | d[1]).collect()
}

fn number<T: std::str::FromStr + Default>(line: &Line, key: &str) -> T {
    line.get(key).and_then(|v| v.parse().ok()).unwrap_or_default()
}

fn bytes(line: &Line, key: &str) -> Vec<u8> {
    hex(line.get(key).unwrap_or(&"-"))
}

fn array<const N: usize>(line: &Line, key: &str) -> [u8; N] {
    let mut out = [0; N];
    out.iter_mut().zip(bytes(line, key)).for_each(|(to, from)| *to = from);
    out
}

fn put_blob(out: &mut Vec<u8>, blob: &[u8]) {
    out.extend((blob.len() as u16).to_be_bytes());
    out.extend(blob);
}

fn manner(words: &str) -> u8 {
    MANNERS.iter().position(|m| *m == words).expect("a manner") as u8
}

fn cookies(list: &[u8]) -> Vec<&[u8]> {
    let (mut out, mut rest) = (vec![], list);
    while let [0xC0, 0x0E, high, low, more @ ..] = rest {
        let n = (u16::from_be_bytes([*high, *low]) as usize).min(more.len());
        out.push(&more[..n]);
        rest = &more[n..];
    }
    out
}

/// The beginning of an input: its manner, and the settings.
fn first(word: &str, line: &Line) -> Vec<u8> {
    let (nts, capacity) = (line.get("nts") == Some(&"yes"), line.get("capacity").map_or(8, |c| c.parse().unwrap_or(8u8)));
    let mut out = vec![manner(match (word, nts) {
        ("metered", true) => "nts metered",
        ("metered", false) => "plain metered",
        (_, true) if capacity != 8 => "nts capacity",
        (_, true) => "nts",
        _ => "plain",
    })];
    // The base of the times, which a literal does not use.
    out.push(0);
    out.push(LITERAL);
    let (min, max): (i8, i8) = (number(line, "min"), number(line, "max"));
    let list = bytes(line, "list");
    let held = cookies(&list);
    let start = ["v4", "upgraded", "v5"].iter().position(|v| line.get("start") == Some(v)).unwrap_or(0);
    out.extend([min as u8, max.wrapping_sub(min) as u8, number::<u8>(line, "startup").wrapping_sub(1)]);
    out.extend([start as u8, capacity.wrapping_sub(1), held.len().min(11) as u8]);
    out.extend(number::<u64>(line, "window").wrapping_sub(1).to_be_bytes());
    out.extend(array::<4>(line, "source"));
    if nts {
        held.iter().for_each(|c| put_blob(&mut out, &c[..c.len().min(1000)]));
    }
    out
}

/// A packet whose decrypted bytes are those of the line: as it is where the driver's cipher decrypts it, else sealed anew at its end.
fn sealed(line: &Line, nts: bool) -> (Vec<u8>, bool) {
    let (packet, plain) = (bytes(line, "packet"), bytes(line, "plain"));
    let end = line.get("auth").map_or(48, |a| a.parse().unwrap_or(48usize));
    let Some(rest) = packet.get(end..).filter(|_| nts && end >= 48) else { return (packet, end == 0) };
    let head = |i: usize| rest.get(i..i + 2).map_or(0, |b| u16::from_be_bytes([b[0], b[1]]) as usize);
    let is_sealed = head(0) == 0x0404;
    let (nonce, text) = (rest.get(8..8 + head(4)), rest.get(8 + head(4)..8 + head(4) + head(6)));
    if let (true, Some(nonce), Some(text)) = (is_sealed, nonce, text) {
        let fits = FakeCipher.decrypt(nonce, text, &packet[..end]).is_ok();
        FakeCipher::take_seen();
        if fits {
            return (packet, false);
        }
    }
    let mut out = packet[..end].to_vec();
    if is_sealed || !plain.is_empty() {
        seal(&mut out, &plain);
    }
    out.extend(rest.get(if is_sealed { head(2) } else { 0 }..).unwrap_or(&[]));
    (out, false)
}

/// A V5 packet that says what a decoded reply says.
fn v5(line: &Line, nts: bool, uid: [u8; 32]) -> Vec<u8> {
    let has = |kiss: &str| line.get("kiss").is_some_and(|k| k.split(',').any(|word| word == kiss));
    let stratum = if has("any") { 0 } else { number(line, "stratum") };
    let poll = if has("deny") || has("rstr") { 127 } else { number::<i8>(line, "poll") };
    let short = |key| ((number::<i64>(line, key) >> 4) as u32).to_be_bytes();
    let mut p = vec![number::<u8>(line, "leap").min(3) << 6 | 5 << 3 | number::<u8>(line, "mode"), stratum, poll as u8];
    p.push(number::<i8>(line, "precision") as u8);
    p.extend(short("rootdelay"));
    p.extend(short("rootdisp"));
    p.extend([0, 0, 0, if has("ntsn") { 5 } else { 1 }]);
    p.extend([0; 8]);
    p.extend(array::<8>(line, "cookie"));
    p.extend(number::<u64>(line, "receive").to_be_bytes());
    p.extend(number::<u64>(line, "transmit").to_be_bytes());
    p.extend([0xF5, 0xFF, 0, 27]);
    p.extend(b"draft-ietf-ntp-ntpv5-08\0");
    let group = |out: &mut Vec<u8>, key: &str| match line.get(key) {
        Some(&"agree") => field(out, 0x0104, &uid, 16),
        Some(&"disagree") => field(out, 0x0104, &uid.map(|b| !b), 16),
        _ => {}
    };
    group(&mut p, "auth");
    if nts {
        let mut plain = vec![];
        group(&mut plain, "enc");
        cookies(&bytes(line, "list")).iter().for_each(|c| field(&mut plain, 0x0204, c, 0));
        seal(&mut p, &plain);
    }
    group(&mut p, "untrusted");
    p
}

/// A step of an association.
fn step(word: &str, line: &Line, nts: bool, uid: &mut [u8; 32]) -> Option<Vec<u8>> {
    let mut out = vec![LITERAL];
    let times = |out: &mut Vec<u8>| {
        for key in ["now", "t1", "t4"] {
            out.extend(number::<u64>(line, key).to_be_bytes());
        }
    };
    match word {
        "timer" => {
            *uid = array(line, "uid");
            let room = [1024, 724, 725, 1000].iter().position(|r| *r == number::<u64>(line, "room")).unwrap_or(0);
            out.push(0);
            out.extend(number::<u64>(line, "now").to_be_bytes());
            out.extend([number::<i8>(line, "desired") as u8, room as u8]);
            out.extend(array::<8>(line, "id"));
            out.extend(*uid);
        }
        "reply" | "reply5" => {
            out.push(1);
            times(&mut out);
            let (packet, fail) = if word == "reply" { sealed(line, nts) } else { (v5(line, nts, *uid), false) };
            out.push(fail as u8);
            put_blob(&mut out, &packet);
        }
        "accept" => {
            let local: Vec<&str> = line.get("local").map_or(vec![], |l| l.split(',').filter(|i| *i != "-").take(3).collect());
            let bloom = ["none", "absent", "present"].iter().position(|b| line.get("bloom") == Some(b)).unwrap_or(0);
            out.extend([2, number(line, "stratum"), bloom as u8, local.len() as u8]);
            local.iter().for_each(|id| out.extend(hex(id)));
        }
        "poke" => {
            let key = POKES.iter().position(|k| line.get("key") == Some(k))?;
            out.extend([3, key as u8, number::<i64>(line, "value") as u8]);
        }
        "save" => out.extend([4, 0]),
        "load" => {
            out.push(5);
            put_blob(&mut out, &bytes(line, "file"));
        }
        _ => return None,
    }
    Some(out)
}

/// A call that leaves no association behind.
fn call(word: &str, line: &Line) -> Option<Vec<u8>> {
    let room = |most: u16| line.get("room").map_or(most, |r| r.parse().unwrap_or(most)).to_be_bytes();
    let u16s = |text: &str| text.split(',').filter_map(|n| n.parse::<u16>().ok()).collect::<Vec<u16>>();
    let mut out = vec![];
    match word {
        "request" => {
            let kind = ["v4", "v4-upgrade", "v5", "nts-v4", "nts-v5"].iter().position(|k| line.get("kind") == Some(k))?;
            out.extend([manner("requests"), LITERAL, kind as u8, number::<i8>(line, "poll") as u8, number(line, "asked")]);
            out.extend(array::<8>(line, "id"));
            out.extend(array::<8>(line, "mark"));
            out.extend(array::<32>(line, "uid"));
            out.extend(room(6144));
            put_blob(&mut out, &bytes(line, "cookie"));
        }
        "new" | "metered" | "profile" => {
            let start = line.get("start")?;
            let (kind, left) = match start.strip_prefix("upgrading:") {
                Some(left) => (1, left.parse().unwrap_or(0)),
                None => (["v4", "", "upgraded", "v5"].iter().position(|v| v == start)? as u8, 0),
            };
            out.extend([manner("settings"), LITERAL, (word != "new") as u8]);
            out.extend([number::<i8>(line, "min") as u8, number::<i8>(line, "max") as u8, number(line, "startup")]);
            let capacity = line.get("capacity").map_or(8, |c| c.parse().unwrap_or(8u8));
            out.extend([kind, left, (line.get("nts") == Some(&"yes")) as u8, capacity]);
            out.extend(number::<u64>(line, "window").to_be_bytes());
            out.extend(array::<8>(line, "mark"));
            out.extend(array::<4>(line, "source"));
            put_blob(&mut out, &bytes(line, "list"));
        }
        "collect" | "salvage" => {
            out.extend([manner("tools"), LITERAL, if word == "collect" { 1 } else { 3 }, 0, 0]);
            out.extend(room(4096));
            put_blob(&mut out, &bytes(line, if word == "collect" { "plain" } else { "list" }));
        }
        "compare" => {
            out.extend([manner("tools"), LITERAL, 2, 0, 0]);
            put_blob(&mut out, &bytes(line, "left"));
            put_blob(&mut out, &bytes(line, "right"));
            out.extend(room(4096));
        }
        "calendar" => {
            let entries: Vec<Vec<u16>> = line.get("entries")?.split(',').map(|e| u16s(&e.replace('/', ","))).collect();
            let entries: Vec<&Vec<u16>> = entries.iter().filter(|e| e.len() == 2).take(71).collect();
            out.extend([manner("tools"), LITERAL, 4, number(line, "cap"), entries.len() as u8]);
            for i in 0..2 {
                entries.iter().for_each(|e| out.extend(e[i].to_be_bytes()));
            }
        }
        "plan" => {
            let repeats = u16s(line.get("repeats")?);
            out.extend([manner("tools"), LITERAL, 5, number(line, "cap"), repeats.len().min(71) as u8]);
            repeats.iter().take(71).for_each(|n| out.extend(n.to_be_bytes()));
        }
        _ => return None,
    }
    Some(out)
}

/// The inputs of a log: one for each association, cut where it gets too long, and one for each call beside them.
pub fn inputs(log: &str) -> Vec<Vec<u8>> {
    let (mut out, mut now, mut nts, mut uid) = (vec![], vec![], false, [0; 32]);
    for text in log.lines().filter(|l| !l.starts_with('#')) {
        let mut words = text.split(' ');
        let word = words.next().unwrap_or("");
        let line: Line = words.filter_map(|w| w.split_once('=')).collect();
        out.extend(call(word, &line).filter(|c| c.len() <= LONGEST));
        if word == "new" || word == "metered" {
            out.push(std::mem::replace(&mut now, first(word, &line)));
            nts = line.get("nts") == Some(&"yes");
        } else if let Some(more) = step(word, &line, nts, &mut uid) {
            if now.len() + more.len() <= LONGEST && !now.is_empty() {
                now.extend(more);
            }
        }
    }
    out.push(now);
    out.retain(|input| input.len() > 1);
    out
}
