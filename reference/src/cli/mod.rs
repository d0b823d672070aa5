//! Puts the command line beside the model.
//!
//! A case is one run of the program in a folder of its own: the files there, the words, what it must print, say and
//! write, and how it must end. All of that comes from the model and the command line's description; nothing is taken
//! from what the program printed once. A random case depends on the seed and its index only.

pub mod case;
pub mod damage;
pub mod expect;
pub mod folder;
pub mod glyphs;
#[cfg(test)]
mod planted;
pub mod program;
pub mod random_glyphs;
pub mod randomly;
mod report;
pub mod screen;
pub mod table;
pub mod text;
pub mod wave;

use self::case::Case;
use self::folder::{Folder, Thing};
use self::program::Program;
use crate::random::Random;
use std::path::{Path, PathBuf};
use std::sync::atomic::{AtomicU64, Ordering};
use std::sync::Mutex;
use std::time::{Duration, Instant};

/// The version that the header names.
fn version() -> &'static str {
    let header = include_str!("../../../include/dirgeflint.h");
    let after = header.split("#define DIRGEFLINT_VERSION \"").nth(1).expect("the header names its version");
    after.split('"').next().unwrap_or_default()
}

/// Cases of one sort.
pub struct Group<'a> {
    pub name: &'a str,
    /// What is counted.
    pub what: &'a str,
    pub cases: u64,
    /// There are no other cases.
    pub all: bool,
    pub make: &'a (dyn Fn(u64, &mut Random) -> Case + Sync),
}

/// Which cases to run, and where.
#[derive(Clone, Copy, Debug)]
pub struct Plan<'a> {
    pub seed: u64,
    pub from: u64,
    /// How many; the group's own number if not given.
    pub count: Option<u64>,
    /// How many cases run at a time.
    pub workers: usize,
    /// The folder for the cases' own.
    pub root: &'a Path,
}

/// The first difference found.
#[derive(Debug)]
pub struct Difference {
    pub index: u64,
    /// The command, what was due and what came.
    pub report: String,
    /// Where the case's files are.
    pub kept: PathBuf,
}

/// What the workers share.
struct Work<'a> {
    next: AtomicU64,
    end: u64,
    /// The difference of the lowest index. Cases are handed out in order, so those before it have all been run.
    found: Mutex<Option<(u64, Case, String)>>,
    last_said: Mutex<Instant>,
    say: &'a (dyn Fn(String) + Sync),
}

impl Work<'_> {
    fn note(&self, index: u64, case: Case, report: String) {
        let mut found = self.found.lock().unwrap();
        if found.as_ref().is_none_or(|(lowest, ..)| index < *lowest) {
            *found = Some((index, case, report));
        }
        self.next.store(self.end, Ordering::Relaxed);
    }

    fn progress(&self, group: &Group, plan: &Plan, index: u64) {
        let mut last = self.last_said.lock().unwrap();
        if last.elapsed() > Duration::from_secs(5) {
            *last = Instant::now();
            (self.say)(format!("cli {}: {} of {}", group.name, index + 1 - plan.from, self.end - plan.from));
        }
    }

    fn run(&self, group: &Group, program: &Program, plan: &Plan, worker: usize) {
        loop {
            let index = self.next.fetch_add(1, Ordering::Relaxed);
            if index >= self.end {
                return;
            }
            let case = (group.make)(index, &mut Random::of_case(plan.seed, index));
            let judged = Folder::new(plan.root.join(format!("worker-{worker}")))
                .map_err(|error| format!("{} cannot be made: {error}", plan.root.display()))
                .and_then(|folder| case.judge(program, &folder));
            if let Err(report) = judged {
                self.note(index, case, report);
            }
            self.progress(group, plan, index);
        }
    }
}

/// Runs the cases of a group and returns how many there were.
pub fn run(group: &Group, program: &Program, plan: &Plan, say: &(dyn Fn(String) + Sync)) -> Result<u64, Difference> {
    let left = group.cases.saturating_sub(plan.from);
    let count = plan.count.unwrap_or(left).min(if group.all { left } else { u64::MAX });
    let work = Work {
        next: AtomicU64::new(plan.from),
        end: plan.from + count,
        found: Mutex::new(None),
        last_said: Mutex::new(Instant::now()),
        say,
    };
    std::thread::scope(|scope| {
        for worker in 0..plan.workers {
            let work = &work;
            scope.spawn(move || work.run(group, program, plan, worker));
        }
    });
    match work.found.into_inner().unwrap() {
        None => Ok(count),
        Some((index, case, report)) => {
            let kept = plan.root.join(format!("{}-{index}", group.name));
            let report = format!("{}\n{}\n{report}", case.name, case.command());
            Err(Difference {
                index,
                report: keep(&case, &kept).map_or_else(|error| error.to_string(), |()| report),
                kept,
            })
        }
    }
}

/// Lays the case's files out again, as they were before the run.
fn keep(case: &Case, path: &Path) -> std::io::Result<()> {
    let mut folder = Folder::new(path.to_path_buf())?;
    folder.keep();
    for (name, thing) in &case.things {
        folder.put(name, thing)?;
    }
    match &case.input {
        Some(input) => folder.put("stdin.given", &Thing::file(input.clone())),
        None => Ok(()),
    }
}
