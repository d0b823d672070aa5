//! `cli [GROUP ..] [--seed N] [--from N] [--count N] [--damage N] [--program PATH]`: puts the command line beside the
//! model.
//!
//! The script of the same name beside this package says where the program is: `DIRGEFLINT_PROGRAM` is its path, and
//! `DIRGEFLINT_RUN` the command that runs it where it cannot run by itself.

use reference::cli::program::Program;
use reference::cli::{self, damage, random_glyphs, randomly, table, Difference, Group, Plan};
use std::ffi::OsString;
use std::path::Path;
use std::process::ExitCode;
use std::time::{Duration, Instant};

const NAMES: &[&str] = &["table", "fonts", "pictures", "glyphs", "waves", "damage"];
const OPTIONS: &str = "--seed N, --from N, --count N, --damage N, --program PATH";
const LIMIT: Duration = Duration::from_secs(10);

struct Request {
    groups: Vec<String>,
    seed: u64,
    from: u64,
    count: Option<u64>,
    damage: u64,
    program: Option<OsString>,
}

fn request(arguments: impl Iterator<Item = String>) -> Result<Request, String> {
    let program = std::env::var_os("DIRGEFLINT_PROGRAM");
    let seed = reference::compare::DEFAULT_SEED;
    let mut request = Request { groups: Vec::new(), seed, from: 0, count: None, damage: 2_800, program };
    let mut arguments = arguments;
    while let Some(argument) = arguments.next() {
        let mut value = || arguments.next().ok_or(format!("{argument} wants a value after it"));
        let number =
            |text: String| text.parse().map_err(|_| format!("{argument} wants a whole number, not \"{text}\""));
        match argument.as_str() {
            "--seed" => request.seed = number(value()?)?,
            "--from" => request.from = number(value()?)?,
            "--count" => request.count = Some(number(value()?)?),
            "--damage" => request.damage = number(value()?)?,
            "--program" => request.program = Some(value()?.into()),
            name if NAMES.contains(&name) => request.groups.push(argument),
            other => {
                return Err(format!("\"{other}\" is no group of cases ({}) and none of {OPTIONS}", NAMES.join(", ")))
            }
        }
    }
    if request.groups.is_empty() {
        request.groups = NAMES.iter().map(|name| name.to_string()).collect();
    }
    Ok(request)
}

/// How the program is started. The cases have folders of their own, so its path must hold everywhere.
fn program(request: &Request) -> Result<Program, String> {
    let path = request.program.as_ref().ok_or("name the program: --program PATH")?;
    let path = std::fs::canonicalize(path).map_err(|error| format!("{}: {error}", path.to_string_lossy()))?;
    let run = std::env::var("DIRGEFLINT_RUN").unwrap_or_default();
    let words = run.split_whitespace().map(OsString::from).chain([path.into_os_string()]).collect();
    Ok(Program { words, limit: LIMIT })
}

fn compare(group: &Group, program: &Program, plan: &Plan) -> bool {
    let started = Instant::now();
    let outcome = cli::run(group, program, plan, &|line| eprintln!("{line}"));
    match outcome {
        Ok(count) => {
            println!("cli {}: {count} {}, no difference", group.name, group.what);
            eprintln!("cli {}: {:.1} s", group.name, started.elapsed().as_secs_f64());
            true
        }
        Err(Difference { index, report, kept }) => {
            println!("cli {}: DIFFERENCE in case {index}, seed {}", group.name, plan.seed);
            println!("{report}");
            println!("its files are in {}", kept.display());
            println!("again with: cli {} --seed {} --from {index} --count 1", group.name, plan.seed);
            false
        }
    }
}

fn compare_all(request: &Request, root: &Path) -> Result<bool, String> {
    let program = program(request)?;
    let workers = std::thread::available_parallelism().map_or(1, |number| number.get());
    let plan = Plan { seed: request.seed, from: request.from, count: request.count, workers, root };
    let cases = table::all();
    let by_hand = |index: u64, _: &mut _| cases[index as usize].clone();
    let groups = [
        Group { name: "table", what: "cases", cases: cases.len() as u64, all: true, make: &by_hand },
        Group { name: "fonts", what: "fonts", cases: 200, all: false, make: &randomly::fonts },
        Group { name: "pictures", what: "screens", cases: 300, all: false, make: &randomly::pictures },
        Group { name: "glyphs", what: "sets of glyphs", cases: 300, all: false, make: &random_glyphs::glyphs },
        Group { name: "waves", what: "files of events", cases: 300, all: false, make: &randomly::waves },
        Group { name: "damage", what: "damaged inputs", cases: request.damage, all: false, make: &damage::cases },
    ];
    let mut wanted = groups.iter().filter(|group| request.groups.iter().any(|name| name == group.name));
    // Ends with the first difference.
    Ok(wanted.all(|group| compare(group, &program, &plan)))
}

fn main() -> ExitCode {
    let root = std::env::temp_dir().join(format!("dirgeflint-cli-{}", std::process::id()));
    match request(std::env::args().skip(1)).and_then(|request| compare_all(&request, &root)) {
        Ok(true) => {
            let _ = std::fs::remove_dir_all(&root);
            ExitCode::SUCCESS
        }
        Ok(false) => ExitCode::FAILURE,
        Err(complaint) => {
            eprintln!("cli: {complaint}");
            ExitCode::from(2)
        }
    }
}
