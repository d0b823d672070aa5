//! `cases DIR`: writes texts for `fontcheck` and the line each must give, as NAME.in and NAME.out.

use std::path::Path;
use std::process::ExitCode;

fn write_all(folder: &Path) -> std::io::Result<usize> {
    std::fs::create_dir_all(folder)?;
    let cases = reference::cases::all();
    for case in &cases {
        std::fs::write(folder.join(format!("{}.in", case.name)), &case.text)?;
        std::fs::write(folder.join(format!("{}.out", case.name)), case.expected())?;
    }
    Ok(cases.len())
}

fn main() -> ExitCode {
    let arguments: Vec<String> = std::env::args().skip(1).collect();
    let [folder] = arguments.as_slice() else {
        eprintln!("cases: name one folder to write to: cases DIR");
        return ExitCode::from(2);
    };
    match write_all(Path::new(folder)) {
        Ok(count) => {
            println!("cases: {count} texts and their lines in {folder}");
            ExitCode::SUCCESS
        }
        Err(error) => {
            eprintln!("cases: {folder} cannot be written: {error}");
            ExitCode::FAILURE
        }
    }
}
