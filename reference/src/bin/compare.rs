//! `compare [PART ..] [--seed N] [--from N] [--count N]`: puts the library beside the model.
//!
//! The script of the same name beside this package builds the bridge to the library and says where it is:
//! `DIRGEFLINT_BRIDGE` is the program, and `DIRGEFLINT_RUN` the command that runs it where it cannot run by itself.

use reference::bridge::{Library, Start};
use reference::compare::{Difference, Plan};
use std::process::ExitCode;

type Say<'a> = &'a mut dyn FnMut(String);
type Run = fn(&Library, &Plan, Say) -> Result<u64, Difference>;

/// The parts of the library, in the header's order.
const PARTS: &[(&str, Run)] = &[
    ("pulse", |library, plan, say| reference::compare::pulse::run(library, plan, say)),
    ("dac", |library, plan, say| reference::compare::dac::run(library, plan, say)),
    ("port", |library, plan, say| reference::compare::port::run(library, plan, say)),
    ("paint", |library, plan, say| reference::compare::paint::run(library, plan, say)),
    ("hex", |library, plan, say| reference::compare::hex::run(library, plan, say)),
    ("pack", |library, plan, say| reference::compare::pack::run(library, plan, say)),
];

struct Request {
    parts: Vec<String>,
    plan: Plan<'static>,
}

fn request(arguments: impl Iterator<Item = String>) -> Result<Request, String> {
    let mut request = Request { parts: Vec::new(), plan: Plan::default() };
    let mut arguments = arguments;
    while let Some(argument) = arguments.next() {
        let mut number = || -> Result<u64, String> {
            let text = arguments.next().ok_or(format!("{argument} wants a number after it"))?;
            text.parse().map_err(|_| format!("{argument} wants a whole number, not \"{text}\""))
        };
        match argument.as_str() {
            "--seed" => request.plan.seed = number()?,
            "--from" => request.plan.from = number()?,
            "--count" => request.plan.count = Some(number()?),
            part if PARTS.iter().any(|(name, _)| *name == part) => request.parts.push(argument),
            other => {
                let names: Vec<&str> = PARTS.iter().map(|(name, _)| *name).collect();
                return Err(format!(
                    "\"{other}\" is no part of the library ({}) and none of --seed N, --from N, --count N",
                    names.join(", ")
                ));
            }
        }
    }
    if request.parts.is_empty() {
        request.parts = PARTS.iter().map(|(name, _)| name.to_string()).collect();
    }
    Ok(request)
}

/// How the bridge is started.
fn bridge() -> Result<Start, String> {
    let bridge = std::env::var("DIRGEFLINT_BRIDGE");
    let bridge = bridge.map_err(|_| "DIRGEFLINT_BRIDGE does not name the bridge; run reference/compare instead")?;
    let run = std::env::var("DIRGEFLINT_RUN").ok();
    Ok(Start { words: run.into_iter().chain([bridge]).collect() })
}

/// What a part comes to: the number of comparisons or the first difference.
fn compare(run: Run, plan: &Plan, start: &Start) -> Result<Result<u64, Difference>, String> {
    let mut say = |line| println!("{line}");
    let ahead = Library::ahead(start)?;
    let outcome = run(&ahead, &Plan { go_on: &|case| ahead.begin(case), ..*plan }, &mut say);
    let Some(case) = ahead.finish() else {
        return Ok(outcome);
    };
    // Found on the way, without the library's own answer; the case alone, waiting for it, shows that too.
    let alone = Library::alone(start)?;
    let outcome = run(&alone, &Plan { from: case, count: Some(1), ..*plan }, &mut |_| {});
    Ok(outcome.and_then(|_| {
        let report = "a reply was not the predicted one, but run alone the case shows no difference".to_string();
        Err(Difference { index: case, seed: plan.seed, report })
    }))
}

fn compare_all(request: &Request) -> Result<bool, String> {
    let start = bridge()?;
    for (name, run) in PARTS.iter().filter(|(name, _)| request.parts.iter().any(|part| part == name)) {
        let started = std::time::Instant::now();
        match compare(*run, &request.plan, &start)? {
            Ok(comparisons) => {
                println!("compare {name}: {comparisons} comparisons, no difference");
                eprintln!("compare {name}: {:.1} s", started.elapsed().as_secs_f64());
            }
            Err(Difference { index, seed, report }) => {
                println!("compare {name}: DIFFERENCE in case {index}, seed {seed}");
                println!("{report}");
                println!("again with: compare {name} --seed {seed} --from {index} --count 1");
                return Ok(false);
            }
        }
    }
    Ok(true)
}

fn main() -> ExitCode {
    match request(std::env::args().skip(1)).and_then(|request| compare_all(&request)) {
        Ok(true) => ExitCode::SUCCESS,
        Ok(false) => ExitCode::FAILURE,
        Err(complaint) => {
            eprintln!("compare: {complaint}");
            ExitCode::from(2)
        }
    }
}
