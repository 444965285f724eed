//! Runs the published crate and the rules (RULES) side by side and writes what the drill must answer.
use driver::drill::Log;
use driver::random::Manner;
use driver::state::Op;
use driver::{both, cases, drill, limits, own, requests, speed};
use std::collections::BTreeMap;
use std::process::ExitCode;

const USAGE: &str = "driver log SEED CASES STEPS [wild] [set] [metered] [capacity] [nts|plain] OUT.drill OUT.expected
driver check SEED CASES STEPS [wild] [set] [metered] [capacity] [nts|plain]
driver limits OUT.drill OUT.expected
driver own OUT.drill OUT.expected
driver requests SEED COUNT OUT.drill OUT.expected
driver sample OUT.drill OUT.expected
driver speed timer|reply|timer-nts|reply-nts N [base]";

fn write_cases(log: &mut Log, seed: u64, count: u64, steps: u64, manner: Manner) {
    log.metered = manner.metered;
    cases(seed, count, steps, manner, |both, op, i| {
        let step = log.step(both, op);
        if i % 4 == 1 {
            log.collect(&step);
        }
        step
    });
}

/// Sets the crate against the rules, without a log.
fn check(seed: u64, count: u64, steps: u64, manner: Manner) -> ExitCode {
    let mut numbers: BTreeMap<(&str, u8), u64> = BTreeMap::new();
    let mut reasons: BTreeMap<&str, u64> = BTreeMap::new();
    let mut versions: BTreeMap<&str, u64> = BTreeMap::new();
    let (mut passed, mut failed, mut left_out) = (0u64, 0u64, 0u64);
    cases(seed, count, steps, manner, |both, op, _| {
        let step = both.step(op);
        let word = match op {
            Op::New { .. } => "new",
            Op::Timer { .. } => "timer",
            Op::Reply { .. } => "reply",
            Op::Accept { .. } => "accept",
            Op::Poke(_) => "poke",
            Op::Save { .. } => "save",
            Op::Load { .. } => "load",
            Op::Break(_) => "break",
        };
        *numbers.entry((word, step.of_rules.0.number)).or_default() += 1;
        *versions.entry(drill::version(step.version)).or_default() += 1;
        left_out += step.left_out as u64;
        if let Some(reason) = step.reason {
            *reasons.entry(reason).or_default() += 1;
        }
        if step.failed {
            failed += 1;
            if failed <= 5 {
                println!("crate and rules differ, no reason listed:\n{}", drill::explain(op, &step));
            }
        } else {
            passed += 1;
        }
        step
    });
    for ((word, number), count) in &numbers {
        println!("{word} {number}: {count}");
    }
    for (reason, text) in both::REASONS {
        println!("listed {reason}: {} ({text})", reasons.get(reason).unwrap_or(&0));
    }
    for (version, count) in &versions {
        println!("steps {version}: {count}");
    }
    println!("V5 packets without a decoded form: {left_out}");
    println!("{passed} passed, {failed} failed");
    ExitCode::from((failed > 0) as u8)
}

/// The log that is kept: under a million bytes of answers, and every number is reached.
fn sample(log: &mut Log) {
    log.shown = (2, 7);
    own::write(log);
    limits::write(log);
    for (i, nts) in [false, true].into_iter().enumerate() {
        for (j, (wild, set)) in [(false, false), (true, false), (true, true)].into_iter().enumerate() {
            let manner = Manner { wild, set, nts: Some(nts), small: true, ..Manner::default() };
            log.comment(&format!("random steps: nts {nts}, wild {wild}, set {set}"));
            write_cases(log, (3 * i + j) as u64, 9, 40, manner);
        }
    }
    own::capacities(log);
    log.comment("random steps: nts true, capacity true");
    write_cases(log, 6, 9, 40, Manner { nts: Some(true), small: true, capacity: true, ..Manner::default() });
    own::retired(log);
    let reached = |word: &str, numbers: &[u8]| {
        for n in numbers {
            assert!(log.numbers.contains_key(&format!("{word} {n}")), "{word} {n} is not reached");
        }
    };
    reached("new", &[0, 30, 33, 38]);
    reached("timer", &[20, 21, 22, 23, 24, 31, 32]);
    reached("reply", &[0, 1, 2, 4, 5, 6, 7, 8, 9, 10, 11, 12, 13, 14, 32, 33]);
    reached("reply5", &[0, 2, 4, 5, 6, 7, 8, 9, 10, 11, 12, 13, 14, 32, 33]);
    reached("accept", &[0, 32, 40, 41, 42]);
    reached("collect", &[0, 1, 31]);
}

/// Writes a log, says what is in it, and fails if crate and rules differ somewhere for no listed reason.
fn write_log(drill: &str, expected: &str, write: impl FnOnce(&mut Log)) -> ExitCode {
    let mut log = match Log::create(drill, expected) {
        Ok(log) => log,
        Err(e) => {
            eprintln!("the files of the log: {e}");
            return ExitCode::from(2);
        }
    };
    write(&mut log);
    ExitCode::from((log.finish() > 0) as u8)
}

fn main() -> ExitCode {
    const MANNERS: [&str; 6] = ["wild", "set", "metered", "capacity", "nts", "plain"];
    let args: Vec<String> = std::env::args().skip(1).collect();
    let has = |name: &str| args.iter().any(|a| a == name);
    let nts = if has("nts") { Some(true) } else { has("plain").then_some(false) };
    let (metered, capacity) = (has("metered"), has("capacity"));
    let manner = Manner { wild: has("wild"), set: has("set"), nts, metered, capacity, ..Manner::default() };
    let rest: Vec<&str> = args.iter().map(String::as_str).filter(|a| !MANNERS.contains(a)).collect();
    let numbers: Vec<u64> = rest.iter().skip(1).map_while(|a| a.parse().ok()).collect();
    match (rest.as_slice(), numbers.as_slice()) {
        (["log", _, _, _, drill, expected], [seed, count, steps]) => {
            write_log(drill, expected, |log| write_cases(log, *seed, *count, *steps, manner))
        }
        (["check", _, _, _], [seed, count, steps]) => check(*seed, *count, *steps, manner),
        (["limits", drill, expected], _) => write_log(drill, expected, limits::write),
        (["own", drill, expected], _) => write_log(drill, expected, |log| {
            own::write(log);
            own::capacities(log);
            own::retired(log);
        }),
        (["requests", _, _, drill, expected], [seed, count]) => {
            write_log(drill, expected, |log| requests::write(log, *seed, *count))
        }
        (["sample", drill, expected], _) => write_log(drill, expected, sample),
        (["speed", kind, calls, more @ ..], _) if speed::KINDS.contains(kind) && (more.is_empty() || more == ["base"]) => {
            match calls.parse() {
                Ok(calls) => speed::run(kind, calls, !more.is_empty()),
                Err(_) => return ExitCode::from(2),
            }
            ExitCode::SUCCESS
        }
        _ => {
            eprintln!("{USAGE}");
            ExitCode::from(2)
        }
    }
}
