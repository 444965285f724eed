//! A record in bytes (include/reckonstile.h has the layout): what its numbers say, and whether it is whole (RULES, "Settings and a whole record").
use crate::handover::in_range;
use crate::rules::Rules;
use crate::state::*;

/// The bytes before the places of the stash, and those of a place: 724 of a cookie and its length.
pub const HEAD: usize = 92;
pub const ROW: usize = 726;
pub const LONGEST: usize = HEAD + 8 * ROW;

/// The numbers of a record, whole or not. A version is its kind and its tries.
#[derive(Debug, Clone, PartialEq, Eq)]
pub struct Numbers {
    pub min: i8,
    pub max: i8,
    pub startup: u8,
    pub window: u64,
    pub mark: u64,
    pub start: (u8, u8),
    pub nts: u8,
    pub source: u32,
    pub capacity: u8,
    pub read: u8,
    pub held: u8,
    pub reach: u8,
    pub tries: u8,
    pub unanswered: u8,
    pub version: (u8, u8),
    pub last: i8,
    pub remote: i8,
    pub stratum: u8,
    pub refid: u32,
    pub denial: u8,
    pub present: u8,
    pub answered: u8,
    pub id: u64,
    pub deadline: u64,
    pub uid: [u8; 32],
}

/// The numbers of as many bytes as a record has at least.
pub fn numbers(b: &[u8]) -> Numbers {
    let u64at = |i: usize| u64::from_be_bytes(b[i..i + 8].try_into().unwrap());
    let u32at = |i: usize| u32::from_be_bytes(b[i..i + 4].try_into().unwrap());
    Numbers {
        min: b[0] as i8,
        max: b[1] as i8,
        startup: b[2],
        window: u64at(3),
        mark: u64at(11),
        start: (b[19], b[20]),
        nts: b[21],
        source: u32at(22),
        capacity: b[26],
        read: b[27],
        held: b[28],
        reach: b[29],
        tries: b[30],
        unanswered: b[31],
        version: (b[32], b[33]),
        last: b[34] as i8,
        remote: b[35] as i8,
        stratum: b[36],
        refid: u32at(37),
        denial: b[41],
        present: b[42],
        answered: b[43],
        id: u64at(44),
        deadline: u64at(52),
        uid: b[60..92].try_into().unwrap(),
    }
}

fn known((kind, tries): (u8, u8)) -> bool {
    kind == 1 || kind < 4 && tries == 0
}

fn version_of((kind, _): (u8, u8)) -> Version {
    match kind {
        0 => Version::V4,
        2 => Version::UpgradedToV5,
        3 => Version::V5,
        _ => panic!("no record that is whole has this version"),
    }
}

/// The numbers, where these are bytes of a record: as many as the capacity says, and no code of no kind. They need not go together.
pub fn shown(b: &[u8]) -> Option<Numbers> {
    let size = HEAD + ROW * *b.get(26)? as usize;
    let n = (b.len() == size && b.len() >= HEAD).then(|| numbers(b))?;
    (known(n.start) && known(n.version) && [n.nts, n.denial, n.present, n.answered].iter().all(|bit| *bit < 2)).then_some(n)
}

/// Settings and state of a record that is whole; none of any other bytes.
pub fn whole(b: &[u8]) -> Option<Rules> {
    let n = shown(b)?;
    let zero = |bytes: &[u8]| bytes.iter().all(|byte| *byte == 0);
    let capacity = n.capacity as usize;
    let settings = in_range(n.min, n.max, n.startup, n.window, n.capacity) && n.start.0 != 1 && n.version.0 != 1;
    if !settings || n.read >= n.capacity || n.held > n.capacity || n.unanswered as u32 != n.reach.trailing_zeros() {
        return None;
    }
    let request = if n.present == 1 { n.answered == 0 } else { n.id == 0 && n.deadline == 0 && zero(&n.uid) };
    let without_nts = n.nts == 1 || n.read == 0 && n.held == 0 && zero(&n.uid);
    if !request || !without_nts {
        return None;
    }
    let mut cookies = vec![];
    for age in 0..capacity {
        let at = HEAD + ROW * ((n.read as usize + age) % capacity);
        let (row, length) = (&b[at..at + STORED], u16::from_be_bytes([b[at + STORED], b[at + STORED + 1]]) as usize);
        let kept = if length > STORED { 0 } else { length };
        if !zero(&row[kept..]) || age >= n.held as usize && length > 0 {
            return None;
        }
        if age < n.held as usize {
            cookies.push((length, row[..kept].to_vec()));
        }
    }
    let state = State {
        reach: n.reach,
        tries: n.tries,
        version: version_of(n.version),
        last: n.last,
        remote: n.remote,
        pending: (n.present == 1).then_some((n.id, n.uid, n.deadline)),
        answered: n.answered == 1,
        unanswered: n.unanswered,
        denial: n.denial == 1,
        stratum: n.stratum,
        refid: n.refid,
        read: n.read as usize,
        cookies,
        capacity: n.capacity,
    };
    Some(Rules {
        min: n.min,
        max: n.max,
        startup: n.startup,
        window: n.window,
        mark: n.mark,
        start: version_of(n.start),
        nts: n.nts == 1,
        source: n.source,
        first: (0, 0),
        state,
    })
}

/// The drill's command that sets the number to which a byte of the record belongs, as the bytes have it; none where it has no such command.
pub fn poke(b: &[u8], at: usize) -> Option<String> {
    let n = numbers(b);
    let word = |(kind, tries): (u8, u8)| match (kind, tries) {
        (0, 0) => Some("v4".to_string()),
        (1, tries) => Some(format!("upgrading:{tries}")),
        (2, 0) => Some("upgraded".into()),
        (3, 0) => Some("v5".into()),
        _ => None,
    };
    let (key, value) = match at {
        0 => ("min", n.min.to_string()),
        1 => ("max", n.max.to_string()),
        2 => ("startup", n.startup.to_string()),
        3..=10 => ("window", n.window.to_string()),
        19 | 20 => ("start", word(n.start)?),
        26 => ("capacity", n.capacity.to_string()),
        27 => ("read", n.read.to_string()),
        28 => ("held", n.held.to_string()),
        29 => ("reach", n.reach.to_string()),
        30 => ("tries", n.tries.to_string()),
        31 => ("unanswered", n.unanswered.to_string()),
        32 | 33 => ("version", word(n.version)?),
        34 => ("last", n.last.to_string()),
        35 => ("remote", n.remote.to_string()),
        36 => ("stratum", n.stratum.to_string()),
        37..=40 => ("refid", format!("{:08x}", n.refid)),
        43 if n.answered < 2 => ("answered", n.answered.to_string()),
        44..=51 => ("id", format!("{:016x}", n.id)),
        52..=59 => ("deadline", n.deadline.to_string()),
        60..=91 => ("uid", hex(&n.uid)),
        at if at >= HEAD && (at - HEAD) % ROW < STORED => {
            ("slotbyte", format!("{}/{}/{}", (at - HEAD) / ROW, (at - HEAD) % ROW, b[at]))
        }
        _ => return None,
    };
    Some(format!("poke key={key} value={value}"))
}
