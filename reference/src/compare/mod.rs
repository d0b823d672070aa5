//! Puts the library beside the model, case by case.
//!
//! A case depends on the seed and its index only. The first case in which the two differ ends the run.

pub mod dac;
pub mod hex;
pub mod pack;
pub mod paint;
pub mod port;
pub mod pulse;
mod rooms;
mod rows;

use crate::random::Random;
use std::time::{Duration, Instant};

/// Which cases to run.
#[derive(Clone, Copy)]
pub struct Plan<'a> {
    pub seed: u64,
    /// The index of the first case.
    pub from: u64,
    /// How many cases; the part's own number if not given.
    pub count: Option<u64>,
    /// Told the index of each case before it runs; the run stops where this says false.
    pub go_on: &'a dyn Fn(u64) -> bool,
}

pub const DEFAULT_SEED: u64 = 0x0D16_EF11;

impl Default for Plan<'_> {
    fn default() -> Self {
        Plan { seed: DEFAULT_SEED, from: 0, count: None, go_on: &|_| true }
    }
}

/// The first difference found.
#[derive(Debug)]
pub struct Difference {
    pub index: u64,
    pub seed: u64,
    /// The inputs and both answers.
    pub report: String,
}

/// What one case comes to: how many comparisons it made, or the inputs and both answers where they differed.
pub type CaseResult = Result<u64, String>;

/// What a part offers to the driver.
pub struct Part<'a> {
    pub name: &'a str,
    /// What the cases are, in a few words.
    pub what: &'a str,
    pub cases: u64,
    pub case: &'a dyn Fn(u64, &mut Random) -> CaseResult,
}

/// Runs the cases of one part and returns the number of comparisons, saying what it does as it goes.
pub fn run(part: &Part, plan: &Plan, say: &mut dyn FnMut(String)) -> Result<u64, Difference> {
    let count = plan.count.unwrap_or(part.cases.saturating_sub(plan.from));
    say(format!("compare {}: {}; seed {}, {} cases from {}", part.name, part.what, plan.seed, count, plan.from));

    let mut comparisons = 0;
    let mut last_line = Instant::now();
    for done in 0..count {
        let index = plan.from + done;
        if !(plan.go_on)(index) {
            break;
        }
        let mut random = Random::of_case(plan.seed, index);
        match (part.case)(index, &mut random) {
            Ok(made) => comparisons += made,
            Err(report) => return Err(Difference { index, seed: plan.seed, report }),
        }
        if done % 64 == 0 && last_line.elapsed() > Duration::from_secs(5) {
            say(format!("compare {}: {} of {} cases", part.name, done + 1, count));
            last_line = Instant::now();
        }
    }
    Ok(comparisons)
}

#[cfg(test)]
pub(crate) mod testing {
    pub fn silent(_: String) {}
}
