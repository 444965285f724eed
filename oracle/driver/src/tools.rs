//! The tools beside the association in Rust: two files compared (RULES, No. 10), salvage (No. 9), the calendar and its planner (No. 13).
use crate::handover;
use crate::rules::Rules;
use crate::state::Version;

/// A mark of a cookie list.
const MARK: [u8; 2] = [0xC0, 0x0E];
const DAY: usize = 1440;
const MOST: usize = 64;

/// What is left of a damaged list: the clean one, how many records it has, the bytes skipped, and where each gap starts.
#[derive(Debug, Default, PartialEq, Eq)]
pub struct Salvaged {
    pub list: Vec<u8>,
    pub kept: u64,
    pub skipped: u64,
    pub gaps: Vec<u64>,
}

pub fn salvage(list: &[u8]) -> Salvaged {
    let (mut out, mut at, mut gap) = (Salvaged::default(), 0, false);
    while at < list.len() {
        let rest = &list[at..];
        let end = rest.get(2..4).map(|n| 4 + u16::from_be_bytes([n[0], n[1]]) as usize);
        let record = end
            .filter(|_| rest.starts_with(&MARK))
            .and_then(|end| rest.get(..end))
            .filter(|r| rest.len() == r.len() || rest[r.len()..].starts_with(&MARK));
        if let Some(record) = record {
            out.list.extend(record);
            out.kept += 1;
            at += record.len();
            gap = false;
        } else {
            if !gap {
                out.gaps.push(at as u64);
            }
            out.skipped += 1;
            at += 1;
            gap = true;
        }
    }
    out
}

/// The fields of a box in the file's order: code, reading, and the stored bytes of a cookie.
fn readings(r: &Rules) -> Vec<(u8, u64, Vec<u8>)> {
    let s = &r.state;
    let signed = |n: i8| n as i64 as u64;
    let version = |v: Version| match v {
        Version::V4 => 0,
        Version::V4UpgradingToV5 { .. } => panic!("no file loads as upgrading"),
        Version::UpgradedToV5 => 2 << 8,
        Version::V5 => 3 << 8,
    };
    let mut out = vec![
        (1, signed(r.min)),
        (2, signed(r.max)),
        (3, r.startup as u64),
        (4, r.window),
        (5, r.mark),
        (6, version(r.start)),
        (7, r.nts as u64),
        (8, r.source as u64),
        (9, s.capacity as u64),
        (16, s.read as u64),
    ];
    out.extend((0..8).map(|age| (32 + age as u8, s.cookies.get(age).map_or(65_536, |c| c.0 as u64))));
    out.extend([
        (48, s.reach as u64),
        (49, s.tries as u64),
        (50, version(s.version)),
        (51, signed(s.last)),
        (52, signed(s.remote)),
        (53, s.stratum as u64),
        (54, s.refid as u64),
        (55, s.denial as u64),
    ]);
    let stored = |code: u8| s.cookies.get(code.wrapping_sub(32) as usize).map_or(vec![], |c| c.1.clone());
    out.into_iter().map(|(code, reading)| (code, reading, stored(code))).collect()
}

/// The list of two files' differences, or the number and the side that is refused.
pub fn compare(left: &[u8], right: &[u8]) -> Result<Vec<u8>, (u8, u8)> {
    let (left, right) = (handover::load(left).map_err(|n| (n, 1))?.0, handover::load(right).map_err(|n| (n, 2))?.0);
    let mut out = vec![];
    for ((code, l, of_left), (_, r, of_right)) in readings(&left).into_iter().zip(readings(&right)) {
        let same = of_left.iter().zip(&of_right).take_while(|(a, b)| a == b).count();
        if l != r || of_left != of_right {
            // A cookie that the other box does not have differs from its beginning on.
            let place = if (32..40).contains(&code) { same } else { 0 };
            out.push(code);
            out.extend(l.to_be_bytes());
            out.extend(r.to_be_bytes());
            out.extend((place as u16).to_be_bytes());
        }
    }
    Ok(out)
}

fn load(entries: &[(u16, u16)], minute: usize) -> usize {
    entries.iter().filter(|(start, repeat)| minute % *repeat as usize == *start as usize).count()
}

/// The number, and the entry or minute that it names.
pub fn calendar(cap: u8, entries: &[(u16, u16)]) -> (u8, Option<u64>) {
    if entries.len() > MOST {
        return (80, None);
    }
    let first = |bad: &dyn Fn(&(u16, u16)) -> bool| entries.iter().position(bad).map(|k| k as u64);
    if let Some(k) = first(&|e| e.1 == 0 || !DAY.is_multiple_of(e.1 as usize)) {
        return (81, Some(k));
    }
    if let Some(k) = first(&|e| e.0 >= e.1) {
        return (82, Some(k));
    }
    match (0..DAY).find(|m| load(entries, *m) > cap as usize) {
        Some(minute) => (83, Some(minute as u64)),
        None => (0, None),
    }
}

/// The starts; or the number and the entry that it names.
pub fn plan(cap: u8, repeats: &[u16]) -> Result<Vec<u16>, (u8, Option<u64>)> {
    if repeats.len() > MOST {
        return Err((80, None));
    }
    if let Some(k) = repeats.iter().position(|r| *r == 0 || !DAY.is_multiple_of(*r as usize)) {
        return Err((81, Some(k as u64)));
    }
    let mut loads = [0usize; DAY];
    let mut starts = vec![];
    for (k, repeat) in repeats.iter().enumerate() {
        let polls = |start: u16| (start as usize..DAY).step_by(*repeat as usize);
        let start = (0..*repeat).find(|s| polls(*s).all(|m| loads[m] < cap as usize)).ok_or((84, Some(k as u64)))?;
        polls(start).for_each(|m| loads[m] += 1);
        starts.push(start);
    }
    Ok(starts)
}

/// Files, lists and calendars of the drill's logs, whose answers `tools/reference` gave.
#[cfg(test)]
mod tests {
    use super::*;
    use crate::state::{bytes, hex};
    use std::collections::BTreeMap;

    type Pairs<'a> = BTreeMap<&'a str, &'a str>;

    fn unhex(text: &str) -> Vec<u8> {
        let digit = |b: u8| (b as char).to_digit(16).unwrap() as u8;
        if text == "-" { vec![] } else { text.as_bytes().chunks(2).map(|d| digit(d[0]) << 4 | digit(d[1])).collect() }
    }

    fn numbers(text: &str) -> Vec<u16> {
        if text == "-" { vec![] } else { text.split(',').map(|n| n.parse().unwrap()).collect() }
    }

    fn joined(of: Vec<String>) -> String {
        if of.is_empty() { "-".into() } else { of.join(",") }
    }

    fn load_line(p: &Pairs) -> String {
        match handover::load(&unhex(p["file"])) {
            Ok((_, retired)) => format!("load 0 retired={}", if retired { "yes" } else { "no" }),
            Err(number) => format!("load {number}"),
        }
    }

    fn salvage_line(p: &Pairs) -> String {
        let list = unhex(p["list"]);
        if p.get("room").is_some_and(|r| r.parse::<usize>().unwrap() < list.len()) {
            return "salvage 70".into();
        }
        let s = salvage(&list);
        let at = joined(s.gaps.iter().take(32).map(u64::to_string).collect());
        format!("salvage 0 kept={} skipped={} gaps={} at={at} list={}", s.kept, s.skipped, s.gaps.len(), bytes(&s.list))
    }

    fn calendar_line(p: &Pairs) -> String {
        let entries: Vec<(u16, u16)> = match p["entries"] {
            "-" => vec![],
            all => all.split(',').map(|e| numbers(&e.replace('/', ","))).map(|e| (e[0], e[1])).collect(),
        };
        match calendar(p["cap"].parse().unwrap(), &entries) {
            (83, Some(minute)) => format!("calendar 83 minute={minute}"),
            (number, Some(entry)) => format!("calendar {number} entry={entry}"),
            (number, None) => format!("calendar {number}"),
        }
    }

    fn plan_line(p: &Pairs) -> String {
        match plan(p["cap"].parse().unwrap(), &numbers(p["repeats"])) {
            Ok(starts) => format!("plan 0 starts={}", joined(starts.iter().map(u16::to_string).collect())),
            Err((number, Some(entry))) => format!("plan {number} entry={entry}"),
            Err((number, None)) => format!("plan {number}"),
        }
    }

    /// The number and how many fields differ; which they are the logs say in words.
    fn compare_line(p: &Pairs) -> String {
        match compare(&unhex(p["left"]), &unhex(p["right"])) {
            Err((number, side)) => format!("compare {number} side={}", if side == 1 { "left" } else { "right" }),
            Ok(list) if p.get("room").is_some_and(|r| r.parse::<usize>().unwrap() < list.len()) => "compare 71".into(),
            Ok(list) => format!("compare 0 {}", list.len() / 19),
        }
    }

    #[test]
    fn the_logs_of_the_drill_are_answered_as_the_reference_answers_them() {
        let mut count: BTreeMap<&str, u64> = BTreeMap::new();
        for name in [
            "handover-damage",
            "box-swap",
            "box-swap-nts",
            "upgrading-retired",
            "small-stash",
            "compare-boxes",
            "salvage",
            "calendar",
        ] {
            let read = |ending| std::fs::read_to_string(format!("../../crates/drill/data/{name}.{ending}")).unwrap();
            let (log, expected) = (read("drill"), read("expected"));
            let lines = log.lines().filter(|l| !l.is_empty() && !l.starts_with('#'));
            for (line, expected) in lines.zip(expected.lines()).filter(|l| !l.1.starts_with("error ")) {
                let (word, rest) = line.split_once(' ').unwrap_or((line, ""));
                let pairs: Pairs = rest.split(' ').filter_map(|pair| pair.split_once('=')).collect();
                let (word, said) = match word {
                    "load" => ("load", load_line(&pairs)),
                    "salvage" => ("salvage", salvage_line(&pairs)),
                    "calendar" => ("calendar", calendar_line(&pairs)),
                    "plan" => ("plan", plan_line(&pairs)),
                    "compare" => ("compare", compare_line(&pairs)),
                    _ => continue,
                };
                let same = if word == "compare" {
                    expected == said || expected.starts_with(&(said.clone() + " "))
                } else {
                    expected == said
                };
                assert!(same, "{name}: {line}\n  expected {expected}\n  said     {said}");
                *count.entry(word).or_default() += 1;
            }
        }
        for (word, least) in [("load", 40), ("salvage", 20), ("calendar", 20), ("plan", 10), ("compare", 10)] {
            assert!(count[word] >= least, "only {} lines with {word}", count[word]);
        }
    }

    /// The file that docs/HANDOVER.md takes apart byte by byte.
    #[test]
    fn the_file_of_the_paper_is_read_and_written() {
        let paper = std::fs::read_to_string("../../docs/HANDOVER.md").unwrap();
        let dump = paper.lines().filter(|l| l.starts_with("     ") && l.len() > 58 && l[..12].trim().parse::<u8>().is_ok());
        let file: Vec<u8> = dump.flat_map(|l| unhex(&l[13..60].replace(' ', ""))).collect();
        assert_eq!(file.len(), 96);
        let (r, retired) = handover::load(&file).unwrap();
        let s = &r.state;
        assert_eq!(
            (r.min, r.max, r.startup, r.window, r.nts, r.source, retired),
            (4, 10, 5, 5_000_000_000, true, 0xc0000201, false)
        );
        assert_eq!(
            (s.capacity, s.read, s.reach, s.tries, s.last, s.remote, s.stratum, s.refid),
            (8, 3, 2, 3, 6, 4, 2, 0xc6336407)
        );
        assert_eq!((s.unanswered, s.denial, s.pending, s.answered), (1, false, None, false));
        let lengths: Vec<usize> = s.cookies.iter().map(|c| c.0).collect();
        assert_eq!((lengths, hex(&s.cookies[3].1)), (vec![0, 725, 16, 8], "c2c2c2c2c2000000".into()));
        assert_eq!(handover::file(&r), file);
    }
}
