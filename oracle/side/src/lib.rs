//! The published crate and the library in one process: the same steps put to both, and each answer, lent byte and record compared.
pub mod beside;
pub mod corpus;
#[allow(dead_code)]
#[path = "../../../rust/src/ffi.rs"]
mod ffi;
#[allow(dead_code)]
#[path = "../../../rust/src/identifiers.rs"]
mod identifiers;
mod library;
#[cfg(feature = "reached")]
pub mod reached;
pub mod wrong;

use beside::{Kind, Maker};
use driver::both::{Both, Step};
use driver::drill;
use driver::random::{Manner, Random, Rng};
use driver::state::{Answer, Op, State};
use library::Library;
use std::collections::BTreeMap;
use wrong::Wrong;

/// The manners of `oracle/compare`, in its order, so that its seeds make the same steps here; then those that are here alone.
pub const MANNERS: [&str; 22] = [
    "nts",
    "nts wild",
    "nts set",
    "nts wild set",
    "nts metered",
    "plain",
    "plain wild",
    "plain set",
    "plain wild set",
    "plain metered",
    "nts capacity",
    "nts handover",
    "plain handover",
    "nts wild set capacity handover",
    "nts broken",
    "plain broken",
    "nts set capacity broken",
    "requests",
    "settings",
    "tools",
    "nts typed",
    "plain typed",
];

/// What a manner makes: steps of an association, or calls that leave none behind.
pub enum Makes {
    Steps(Manner),
    Calls(Kind),
}

pub fn makes(words: &str) -> Makes {
    let has = |name| words.split(' ').any(|w| w == name);
    match words {
        "requests" => Makes::Calls(Kind::Requests),
        "settings" => Makes::Calls(Kind::Settings),
        "tools" => Makes::Calls(Kind::Tools),
        _ => Makes::Steps(Manner {
            wild: has("wild"),
            set: has("set"),
            nts: Some(has("nts")),
            small: false,
            metered: has("metered"),
            capacity: has("capacity"),
            handover: has("handover"),
            broken: has("broken"),
            typed: has("typed"),
        }),
    }
}

/// What is wrong where library and program are of different revisions.
pub fn other_revision() -> Option<String> {
    (ffi::revision() != ffi::REVISION).then(|| {
        format!(
            "the library is of revision {:08x} and this program of {:08x}: link a library that tools/library made from this repository",
            ffi::revision(),
            ffi::REVISION
        )
    })
}

/// What differs in a step, if anything: crate and rules for no listed reason, or the library from what is expected.
fn differs(library: &mut Library, op: &Op, step: &Step) -> Option<String> {
    if step.failed {
        return Some("crate and rules differ, no reason listed".into());
    }
    let expected: &(Answer, State) = if step.reason.is_some() { &step.of_rules } else { &step.of_crate };
    match library.step(op, step) {
        Err(what) => Some(what),
        Ok(got) if got != *expected => {
            let told = |name: &str, (a, s): &(Answer, State)| {
                format!(
                    "\n# {name} {}\n# {name} {}\n# {name} {}",
                    drill::answer("answer", a),
                    drill::show(s),
                    drill::cookies(s)
                )
            };
            Some(format!("the library differs{}{}", told("expected", expected), told("library", &got)))
        }
        Ok(_) => None,
    }
}

/// A command with a word of its own, or with another one in its place.
fn with_word(line: &str, key: &str, value: &str) -> String {
    let other = |word: &&str| word.split('=').next() != Some(key);
    let kept: Vec<&str> = line.split(' ').filter(other).collect();
    format!("{} {key}={value}", kept.join(" "))
}

/// Whether the last of these operations still differs, and how; each is made anew on both sides.
fn replayed(ops: &[Op], metered: bool, wrong: Option<Wrong>) -> Option<(String, Vec<String>)> {
    let (mut both, mut library, mut lines) = (Both::new(), Library::new(metered, wrong), vec![]);
    let mut pending = false;
    for (i, op) in ops.iter().enumerate() {
        // Beside a pending request it would make the record not whole: another difference than the one that is looked for.
        if pending && matches!(op, Op::Poke(pairs) if pairs.iter().any(|p| p.0 == "answered")) {
            return None;
        }
        let step = both.step(op);
        pending = step.of_rules.1.pending.is_some();
        let last = i + 1 == ops.len();
        // Here a file that is refused is loaded elsewhere; in a log it would end the association.
        let elsewhere = matches!(op, Op::Load { .. }) && step.loaded.is_none() && !last;
        if !step.left_out && !elsewhere {
            for line in drill::commands(op, &step) {
                lines.push(if metered { line.replacen("new", "metered", usize::from(i == 0)) } else { line });
            }
        }
        let differs = differs(&mut library, op, &step);
        if let Some(line) = lines.last_mut().filter(|_| last) {
            library.instead.drain(..).for_each(|(key, value)| *line = with_word(line, key, &value));
        }
        if last && matches!(op, Op::Break(_)) {
            lines.append(&mut library.pokes);
            lines.push("timer now=1000 desired=6 id=0000000000000001\naccept stratum=17\nsave".into());
        }
        if let Some(what) = differs {
            return last.then_some((what, lines));
        }
    }
    None
}

/// Numbers set by hand one by one, so that each can be left out; reach stays with the unanswered polls that go with it.
fn apart(op: &Op) -> Vec<Op> {
    let Op::Poke(pairs) = op else { return vec![op.clone()] };
    let mut single: Vec<Vec<_>> = vec![];
    for pair in pairs {
        match single.last_mut() {
            Some(last) if pair.0 == "unanswered" => last.push(*pair),
            _ => single.push(vec![*pair]),
        }
    }
    single.into_iter().map(Op::Poke).collect()
}

/// The fewest operations found that still differ at the last: each but the first is left out in turn where that can be.
fn cut(mut ops: Vec<Op>, metered: bool, wrong: Option<Wrong>) -> Vec<Op> {
    loop {
        let before = ops.len();
        for i in (1..ops.len().saturating_sub(1)).rev() {
            let mut fewer = ops.clone();
            fewer.remove(i);
            if replayed(&fewer, metered, wrong).is_some() {
                ops = fewer;
            }
        }
        if ops.len() == before {
            return ops;
        }
    }
}

#[derive(Default)]
pub struct Count {
    pub steps: u64,
    pub failed: u64,
    pub left_out: u64,
    pub reasons: BTreeMap<&'static str, u64>,
    pub versions: BTreeMap<&'static str, u64>,
}

impl Count {
    pub fn add(&mut self, other: Count) {
        self.steps += other.steps;
        self.failed += other.failed;
        self.left_out += other.left_out;
        other.reasons.into_iter().for_each(|(k, n)| *self.reasons.entry(k).or_default() += n);
        other.versions.into_iter().for_each(|(k, n)| *self.versions.entry(k).or_default() += n);
    }
}

/// The steps of one case after another, put to both sides.
pub struct Run<'a> {
    metered: bool,
    wrong: Option<Wrong>,
    library: Library,
    ops: Vec<Op>,
    /// Behind a difference the two sides have parted: the rest of the case would tell it again.
    parted: bool,
    pub count: Count,
    /// Whether the next difference is cut down and told, and where it is told.
    report: &'a mut dyn FnMut(&dyn Fn() -> String),
}

impl<'a> Run<'a> {
    pub fn new(metered: bool, wrong: Option<Wrong>, report: &'a mut dyn FnMut(&dyn Fn() -> String)) -> Self {
        Run {
            metered,
            wrong,
            library: Library::new(metered, wrong),
            ops: vec![],
            parted: false,
            count: Count::default(),
            report,
        }
    }

    /// One step, the `i`th of its case.
    pub fn step(&mut self, both: &mut Both, op: &Op, i: u64) -> Step {
        let step = both.step(op);
        if i == 0 {
            self.ops.clear();
            self.parted = false;
        }
        self.ops.push(op.clone());
        let count = &mut self.count;
        count.steps += 1;
        count.left_out += u64::from(step.left_out);
        *count.versions.entry(drill::version(step.version)).or_default() += 1;
        if let Some(reason) = step.reason {
            *count.reasons.entry(reason).or_default() += 1;
        }
        if self.parted {
            count.failed += 1;
        } else if let Some(what) = differs(&mut self.library, op, &step) {
            self.parted = true;
            count.failed += 1;
            let (ops, metered, wrong) = (&self.ops, self.metered, self.wrong);
            (self.report)(&|| {
                let fewest = cut(ops.iter().flat_map(apart).collect(), metered, wrong);
                let (what, lines) = replayed(&fewest, metered, wrong).unwrap_or((what.clone(), vec![]));
                format!("{what}\n{}\nshow\ncookies", lines.join("\n"))
            });
        }
        step
    }

    /// One call that leaves no association behind.
    pub fn call(&mut self, maker: &mut Maker) {
        let call = maker.next();
        self.count.steps += 1;
        if let Some(reason) = call.reason() {
            *self.count.reasons.entry(reason).or_default() += 1;
        }
        if let Err(what) = call.check() {
            self.count.failed += 1;
            (self.report)(&|| format!("{what}\n{}", call.command()));
        }
    }
}

/// The input of a search: its first byte is the manner, the others are the choices.
pub fn fed(input: &[u8], most: u64, wrong: Option<Wrong>, report: &mut dyn FnMut(&dyn Fn() -> String)) -> Count {
    let Some((first, choices)) = input.split_first() else { return Count::default() };
    match makes(MANNERS[*first as usize % MANNERS.len()]) {
        Makes::Steps(manner) => {
            let mut run = Run::new(manner.metered, wrong, report);
            driver::case(Random::of(Rng::fed(choices), manner), most, |both, op, i| run.step(both, op, i));
            run.count
        }
        Makes::Calls(kind) => {
            let (mut run, mut maker) = (Run::new(false, wrong, report), Maker::new(Rng::fed(choices), kind, 0));
            while !maker.ended() && run.count.steps < most {
                run.call(&mut maker);
            }
            run.count
        }
    }
}
