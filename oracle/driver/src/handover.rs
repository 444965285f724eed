//! The hand-over file (RULES, No. 6; docs/HANDOVER.md) in Rust: what is written of an association, and what a file is read as. The crate has none.
use crate::rules::Rules;
use crate::state::*;

/// The longest file: a buffer of so many bytes is always enough.
pub const LONGEST: usize = 5872;

fn kind(v: Version) -> u8 {
    match v {
        Version::V4 => 0,
        Version::V4UpgradingToV5 { .. } => 1,
        Version::UpgradedToV5 => 2,
        Version::V5 => 3,
    }
}

/// A version of the file and whether it is the retired one, which is V4 now (RULES, No. 14); none for a code of no kind.
fn version(code: &[u8]) -> Option<(Version, bool)> {
    match code {
        [0, 0] => Some((Version::V4, false)),
        [1, _] => Some((Version::V4, true)),
        [2, 0] => Some((Version::UpgradedToV5, false)),
        [3, 0] => Some((Version::V5, false)),
        _ => None,
    }
}

fn yes(code: u8) -> Option<bool> {
    (code < 2).then_some(code == 1)
}

/// The file of an association.
pub fn file(r: &Rules) -> Vec<u8> {
    let s = &r.state;
    let mut settings = vec![r.min as u8, r.max as u8, r.startup];
    settings.extend(r.window.to_be_bytes());
    settings.extend(r.mark.to_be_bytes());
    settings.extend([kind(r.start), 0, r.nts as u8]);
    settings.extend(r.source.to_be_bytes());
    settings.push(s.capacity);
    let mut stash = vec![s.read as u8];
    for (length, bytes) in &s.cookies {
        stash.extend((*length as u16).to_be_bytes());
        stash.extend(bytes);
    }
    let mut source = vec![s.stratum];
    source.extend(s.refid.to_be_bytes());
    source.push(s.denial as u8);
    let (effort, version, polls) = ([s.reach, s.tries], [kind(s.version), 0], [s.last as u8, s.remote as u8]);
    let mut out = vec![];
    for (mark, body) in
        [(b"SE", &settings[..]), (b"ST", &stash), (b"RE", &effort), (b"VE", &version), (b"PO", &polls), (b"SO", &source)]
    {
        out.extend(mark);
        out.extend((body.len() as u16).to_be_bytes());
        out.extend(body);
    }
    out
}

/// The cookies of a stash's body behind its reading place; none where they do not end with it.
fn cookies(mut rest: &[u8]) -> Option<Vec<(usize, Vec<u8>)>> {
    let mut out = vec![];
    while !rest.is_empty() {
        let length = u16::from_be_bytes([rest[0], *rest.get(1)?]) as usize;
        let bytes = rest.get(2..2 + if length > STORED { 0 } else { length })?;
        out.push((length, bytes.to_vec()));
        rest = &rest[2 + bytes.len()..];
    }
    Some(out)
}

/// The association of a file, and whether something in it was retired; or 61, 62, 63.
pub fn load(file: &[u8]) -> Result<(Rules, bool), u8> {
    let mut bodies: [&[u8]; 6] = [&[]; 6];
    let mut rest = file;
    let mut held = vec![];
    let records: [(&[u8; 2], &[usize]); 6] =
        [(b"SE", &[26, 27]), (b"ST", &[]), (b"RE", &[2]), (b"VE", &[2]), (b"PO", &[2]), (b"SO", &[6])];
    for (body, (mark, lengths)) in bodies.iter_mut().zip(records) {
        if rest.len() < 2 {
            return Err(62);
        }
        if rest[..2] != *mark {
            return Err(61);
        }
        let length = rest.get(2..4).map_or(usize::MAX, |n| u16::from_be_bytes([n[0], n[1]]) as usize);
        *body = rest.get(4..length.saturating_add(4)).ok_or(62)?;
        if mark == b"ST" {
            held = cookies(body.get(1..).ok_or(62)?).ok_or(62)?;
        } else if !lengths.contains(&length) {
            return Err(62);
        }
        rest = &rest[4 + length..];
    }
    if !rest.is_empty() {
        return Err(62);
    }
    association(bodies, held).ok_or(63)
}

/// What six bodies say; none for a code of no kind and for an association that is not whole.
fn association(
    [settings, stash, effort, now, polls, source]: [&[u8]; 6],
    cookies: Vec<(usize, Vec<u8>)>,
) -> Option<(Rules, bool)> {
    let u64at = |i: usize| u64::from_be_bytes(settings[i..i + 8].try_into().unwrap());
    let (start, start_retired) = version(&settings[19..21])?;
    let (version, retired) = version(now)?;
    let nts = yes(settings[21])?;
    let denial = yes(source[5])?;
    // A file of before there was a capacity has 8.
    let capacity = settings.get(26).copied().unwrap_or(8);
    let read = stash[0] as usize;
    let (min, max, startup, window) = (settings[0] as i8, settings[1] as i8, settings[2], u64at(3));
    if !in_range(min, max, startup, window, capacity) || read >= capacity as usize || cookies.len() > capacity as usize {
        return None;
    }
    if !nts && (read > 0 || !cookies.is_empty()) {
        return None;
    }
    let state = State {
        reach: effort[0],
        tries: effort[1],
        version,
        last: polls[0] as i8,
        remote: polls[1] as i8,
        pending: None,
        answered: false,
        unanswered: effort[0].trailing_zeros() as u8,
        denial,
        stratum: source[0],
        refid: u32::from_be_bytes(source[1..5].try_into().unwrap()),
        read,
        cookies,
        capacity,
    };
    let id = u32::from_be_bytes(settings[22..26].try_into().unwrap());
    let rules = Rules { min, max, startup, window, mark: u64at(11), start, nts, source: id, first: (0, 0), state };
    Some((rules, start_retired || retired))
}

/// RULES, "Settings and a whole record": the ranges of the settings that are numbers.
pub fn in_range(min: i8, max: i8, startup: u8, window: u64, capacity: u8) -> bool {
    0 <= min
        && min <= max
        && max <= 17
        && (1..=8).contains(&startup)
        && (1..=60_000_000_000).contains(&window)
        && (1..=8).contains(&capacity)
}
