//! `processes FONTCHECK TEXT FOLDER`: times fontcheck as a process against other programs that read the same text, in turn.

use std::fs::File;
use std::path::Path;
use std::process::{Command, ExitCode, Stdio};
use std::time::Instant;

const ROUNDS: usize = 201;

struct Program {
    name: &'static str,
    command: Vec<String>,
    reads_standard_input: bool,
}

/// How long one run takes, in microseconds; none if the program cannot be started or fails.
fn run(program: &Program, text: &str) -> Option<f64> {
    let input = if program.reads_standard_input { Stdio::from(File::open(text).ok()?) } else { Stdio::null() };
    let start = Instant::now();
    let status = Command::new(&program.command[0])
        .args(&program.command[1..])
        .stdin(input)
        .stdout(Stdio::null())
        .stderr(Stdio::null())
        .status()
        .ok()?;
    status.success().then(|| start.elapsed().as_nanos() as f64 / 1000.0)
}

fn median(mut times: Vec<f64>) -> f64 {
    times.sort_by(f64::total_cmp);
    times[times.len() / 2]
}

fn main() -> ExitCode {
    let arguments: Vec<String> = std::env::args().skip(1).collect();
    let [fontcheck, text, folder] = arguments.as_slice() else {
        eprintln!("processes: run this through reference/processes");
        return ExitCode::from(2);
    };
    let out = |name: &str| Path::new(folder).join(name).to_string_lossy().into_owned();
    let words = |list: &[&str]| list.iter().map(|word| word.to_string()).collect();
    let programs = [
        Program { name: "fontcheck", command: words(&[fontcheck]), reads_standard_input: true },
        Program {
            name: "objcopy",
            command: words(&["objcopy", "-I", "ihex", "-O", "binary", text, &out("objcopy.bin")]),
            reads_standard_input: false,
        },
        Program {
            name: "srec_cat",
            command: words(&["srec_cat", text, "-intel", "-o", &out("srec_cat.bin"), "-binary"]),
            reads_standard_input: false,
        },
    ];
    let (there, missing): (Vec<&Program>, Vec<&Program>) =
        programs.iter().partition(|program| run(program, text).is_some());
    for program in missing {
        println!("{:<10} cannot be run here: left out", program.name);
    }
    let mut times = vec![Vec::new(); there.len()];
    for _ in 0..ROUNDS {
        for (program, times) in there.iter().zip(&mut times) {
            times.extend(run(program, text));
        }
    }
    let medians: Vec<f64> = times.into_iter().map(median).collect();
    for (program, time) in there.iter().zip(&medians) {
        println!("{:<10} {:>8.0} us, {:.2} of fontcheck's time", program.name, time, time / medians[0]);
    }
    ExitCode::SUCCESS
}
