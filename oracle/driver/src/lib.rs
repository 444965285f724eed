//! The published crate and the rules (RULES) side by side, and the random operations that are put to both.
pub mod both;
pub mod drill;
pub mod exec;
pub mod handover;
pub mod limits;
pub mod own;
pub mod random;
pub mod requests;
pub mod rules;
pub mod speed;
pub mod state;
pub mod tools;
mod units;
pub mod whole;

use both::{Both, Step};
use random::{Manner, Random};
use state::Op;

/// Runs CASES times STEPS random steps, of which a case has at most STEPS; `run` does a step, given its place in the case.
pub fn cases(seed: u64, cases: u64, steps: u64, manner: Manner, mut run: impl FnMut(&mut Both, &Op, u64) -> Step) {
    let (mut left, mut number) = (cases * steps, 0);
    while left > 0 {
        let random = Random::new(seed.wrapping_mul(1_000_003).wrapping_add(number), manner);
        left -= case(random, steps.min(left), &mut run);
        number += 1;
    }
}

/// Runs one case of at most STEPS random steps, and gives how many they were.
pub fn case(mut random: Random, steps: u64, mut run: impl FnMut(&mut Both, &Op, u64) -> Step) -> u64 {
    let mut both = Both::new();
    let mut op = random.first();
    for i in 0..steps {
        let step = run(&mut both, &op, i);
        let number = step.of_rules.0.number;
        // An association that is reset or demobilized is dropped by and by.
        if [7, 21, 22, 23].contains(&number) && random.r.one_in(3) || random.r.ended() {
            return i + 1;
        }
        random.saw(&step);
        op = random.next();
    }
    steps
}
