//! `oracle/native`: random steps put to the published crate and to the library, on all cores.
use driver::both::REASONS;
use driver::cases;
use driver::random::Rng;
use side::beside::Maker;
use side::wrong::{self, Wrong};
use side::{makes, Count, Makes, Run, MANNERS};
use std::io::IsTerminal;
use std::process::ExitCode;
use std::sync::atomic::{AtomicU64, AtomicUsize, Ordering};
use std::time::Instant;

const USAGE: &str = "usage: native [--wrong NAME] [--first] [--threads JOBS] SEED STEPS [JOBS]
--first ends at the first difference and tells its step, on one thread: 1,000 steps of each manner in turn
NAME is one of number, asked, offset, lost, reach, cookie, settings, beside, file, retired, request, field, whole: a library that is wrong in that";

const PART: u64 = 28_000;
/// The steps of each manner in turn, where the first difference is looked for: it is mostly seen by one manner, and early.
const TURN: u64 = 1_000;
const CASE: u64 = 40;
/// How many failures are cut down and printed.
const SHOWN: usize = 5;
/// Of the requests, for which the crate has no answer or another one (oracle/README.md, "The requests").
const OF_REQUESTS: [&str; 4] = ["v5-kind", "cookie-or-asked", "buffer-short", "other-mark"];

/// How far the parts before this one came, where the first difference ends the run.
type First = Option<u64>;

/// Ends the run with the first difference, where that is asked for.
fn end_at_first(first: First, words: &str, count: &Count) {
    if let Some(before) = first.filter(|_| count.failed > 0) {
        println!("first difference at step {} ({words})", before + count.steps);
        std::process::exit(1);
    }
}

/// One part of a manner, as `oracle/compare` has one in a file.
fn part(seed: u64, words: &str, steps: u64, wrong: Option<Wrong>, shown: &AtomicUsize, first: First) -> Count {
    let mut report = |told: &dyn Fn() -> String| {
        if shown.fetch_add(1, Ordering::Relaxed) < SHOWN {
            println!("# {words}, seed {seed}: {}", told());
        }
    };
    match makes(words) {
        Makes::Steps(manner) => {
            let mut run = Run::new(manner.metered, wrong, &mut report);
            cases(seed, steps.div_ceil(CASE), CASE, manner, |both, op, i| {
                let step = run.step(both, op, i);
                end_at_first(first, words, &run.count);
                step
            });
            run.count
        }
        Makes::Calls(kind) => {
            let (mut run, mut maker) = (Run::new(false, wrong, &mut report), Maker::new(Rng::of(seed), kind, seed));
            for _ in 0..steps {
                run.call(&mut maker);
                end_at_first(first, words, &run.count);
            }
            run.count
        }
    }
}

fn run(seed: u64, steps: u64, wrong: Option<Wrong>, threads: usize, first: bool) -> Count {
    let share = steps / MANNERS.len() as u64;
    let size = if first { TURN } else { PART };
    let mut parts = vec![];
    for (m, words) in MANNERS.into_iter().enumerate() {
        for p in 0..share.div_ceil(size) {
            parts.push((p, seed * 10_000 + (m as u64 + 1) * 1000 + p + 1, words, size.min(share - p * size)));
        }
    }
    if first {
        parts.sort_by_key(|part| part.0);
    }
    let (next, done, shown) = (AtomicUsize::new(0), AtomicU64::new(0), AtomicUsize::new(0));
    let (terminal, began) = (std::io::stderr().is_terminal(), Instant::now());
    let mut whole = Count::default();
    std::thread::scope(|scope| {
        let work = || {
            let mut count = Count::default();
            while let Some((_, seed, words, steps)) = parts.get(next.fetch_add(1, Ordering::Relaxed)) {
                let before = first.then(|| done.load(Ordering::Relaxed));
                let more = part(*seed, words, *steps, wrong, &shown, before);
                let made = done.fetch_add(more.steps, Ordering::Relaxed) + more.steps;
                count.add(more);
                if terminal {
                    eprint!("\r{made} steps, {:.0} a second", made as f64 / began.elapsed().as_secs_f64());
                }
            }
            count
        };
        let running: Vec<_> = (0..threads).map(|_| scope.spawn(work)).collect();
        running.into_iter().for_each(|r| whole.add(r.join().expect("a thread that ran to its end")));
    });
    if terminal {
        eprintln!();
    }
    whole
}

/// The processor time of all threads so far, in seconds, where Linux tells it: in hundredths.
fn processor() -> Option<f64> {
    let said = std::fs::read_to_string("/proc/self/stat").ok()?;
    // Behind the name, which may have spaces: the times of the program and of the system for it are the 12th and 13th word.
    let mut words = said.rsplit(')').next()?.split_whitespace().skip(11);
    let ticks = words.next()?.parse::<u64>().ok()? + words.next()?.parse::<u64>().ok()?;
    Some(ticks as f64 / 100.0).filter(|seconds| *seconds > 0.0)
}

fn main() -> ExitCode {
    let (mut wrong, mut numbers, mut first) = (None, vec![], false);
    let mut threads = std::thread::available_parallelism().map_or(1, usize::from);
    let mut args = std::env::args().skip(1);
    while let Some(arg) = args.next() {
        let known = match arg.as_str() {
            "--wrong" => {
                wrong = args.next().and_then(|name| wrong::named(&name));
                wrong.is_some()
            }
            "--first" => {
                first = true;
                true
            }
            "--threads" => {
                threads = args.next().and_then(|n| n.parse().ok()).unwrap_or(0);
                threads > 0
            }
            number => number.parse().map(|n: u64| numbers.push(n)).is_ok(),
        };
        if !known {
            numbers.clear();
            break;
        }
    }
    let (seed, steps) = match numbers[..] {
        [seed, steps] => (seed, steps),
        [seed, steps, jobs] if jobs > 0 => {
            threads = jobs as usize;
            (seed, steps)
        }
        _ => {
            eprintln!("{USAGE}");
            return ExitCode::from(2);
        }
    };
    if let Some(why) = side::other_revision() {
        eprintln!("native: {why}");
        return ExitCode::from(2);
    }
    let began = Instant::now();
    let threads = if first { 1 } else { threads };
    let count = run(seed, steps, wrong, threads, first);
    let seconds = began.elapsed().as_secs_f64();
    for reason in REASONS.iter().map(|r| r.0).chain(OF_REQUESTS) {
        println!("listed {reason}: {}", count.reasons.get(reason).unwrap_or(&0));
    }
    for (version, number) in &count.versions {
        println!("steps {version}: {number}");
    }
    println!("V5 packets without a decoded form: {}", count.left_out);
    println!("{seconds:.1} seconds, {:.0} steps a second with {threads} threads", count.steps as f64 / seconds);
    if let Some(used) = processor() {
        println!("{used:.1} seconds of processor, {:.0} steps a second of it", count.steps as f64 / used);
    }
    let listed: u64 = count.reasons.values().sum();
    println!("{} steps, {listed} listed differences by reason, {} failed", count.steps, count.failed);
    println!("{} passed, {} failed", count.steps - count.failed, count.failed);
    #[cfg(feature = "reached")]
    side::reached::write();
    ExitCode::from(u8::from(count.failed > 0))
}
