//! Cases by hand: every sentence of the command line's description, command by command.

mod check;
mod drawings;
mod glyphs;
mod hints;
mod inputs;
mod names;
mod output;
mod paint;
mod play;
mod tables;
mod usage;

use super::case::{Case, Said};

pub const SAMPLE_TEXT: &[u8] = include_bytes!("../../../../samples/font.hex");
pub const SAMPLE_DRAWING: &[u8] = include_bytes!("../../../../samples/font.txt");
pub const SAMPLE_SHADOW: &[u8] = include_bytes!("../../../../samples/shadow.txt");
pub const SAMPLE_GLYPHS: &[u8] = include_bytes!("../../../../samples/glyphs.txt");
pub const SAMPLE_MENU: &[u8] = include_bytes!("../../../../samples/menu.txt");
const END_RECORD: &[u8] = b":00000001FF\n";

pub fn all() -> Vec<Case> {
    let commands =
        [usage::all(), check::all(), drawings::all(), glyphs::all(), paint::all(), tables::all(), play::all()];
    [commands.concat(), output::all(), inputs::all(), names::all(), hints::all()].concat()
}

/// A glyph as it is drawn, every row the same.
fn drawn(heading: &str, row: &str) -> String {
    format!("glyph {heading}\n{}", format!("{row}\n").repeat(18))
}

/// Glyphs g0, g1 and so on, whose last rows are these numbers.
fn numbered(numbers: impl IntoIterator<Item = usize>) -> String {
    let dots = |number: usize| format!("{number:012b}").replace('0', ".").replace('1', "#");
    let glyph = |(at, number)| format!("glyph g{at}\n{}{}\n", "............\n".repeat(17), dots(number));
    numbers.into_iter().enumerate().map(glyph).collect()
}

/// The case with other words, which come to the same.
fn typed(case: Case, words: &str) -> Case {
    Case { words: super::case::case("", words).words, ..case }
}

/// The case with a message that has to name this as well.
fn naming(case: Case, name: &str) -> Case {
    let Said::Lines(lines) = &case.said else {
        panic!("{}: which lines are said is not known", case.name);
    };
    let lines = lines.iter().map(|line| line.clone().naming(name)).collect();
    case.said(Said::Lines(lines))
}

fn with_cr_lf(text: &[u8]) -> Vec<u8> {
    text.iter().flat_map(|&byte| if byte == b'\n' { vec![b'\r', b'\n'] } else { vec![byte] }).collect()
}

#[cfg(test)]
mod tests {
    use super::*;
    use std::collections::BTreeSet;

    #[test]
    fn names_differ_and_every_status_and_command_is_there() {
        let cases = all();
        let mut names = BTreeSet::new();
        for case in &cases {
            assert!(names.insert(&case.name), "{}", case.name);
        }
        for command in ["check", "font", "pack", "show", "paint", "play", "pulse"] {
            for status in [0, 1, 2] {
                let is = |case: &&Case| case.words.first().is_some_and(|word| word == command.as_bytes());
                let number = cases.iter().filter(is).filter(|case| case.status == Some(status)).count();
                assert!(number >= 2, "{command} {status}");
            }
        }
    }
}
