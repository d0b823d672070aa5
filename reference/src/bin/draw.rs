//! `draw [--image] FONT.txt`: turns a drawn font into its hex text or, with --image, into its image of 8,192 bytes.

use std::io::Write;
use std::process::ExitCode;

fn made_of(file: &str, image: bool) -> Result<Vec<u8>, String> {
    let drawing = std::fs::read(file).map_err(|error| format!("{file} cannot be read: {error}"))?;
    let made =
        if image { reference::draw::image(&drawing) } else { reference::draw::text(&drawing).map(String::into_bytes) };
    made.map_err(|complaint| format!("{file}: {complaint}"))
}

fn main() -> ExitCode {
    let arguments: Vec<String> = std::env::args().skip(1).collect();
    let (file, image) = match arguments.iter().map(String::as_str).collect::<Vec<_>>()[..] {
        [file] if file != "--image" => (file, false),
        ["--image", file] => (file, true),
        _ => {
            eprintln!("draw: give one drawing, and send the text to a file: draw FONT.txt > FONT.hex");
            return ExitCode::from(2);
        }
    };
    let written = made_of(file, image).and_then(|bytes| {
        std::io::stdout().write_all(&bytes).map_err(|error| format!("the answer cannot be written: {error}"))
    });
    match written {
        Ok(()) => ExitCode::SUCCESS,
        Err(complaint) => {
            eprintln!("draw: {complaint}");
            ExitCode::FAILURE
        }
    }
}
