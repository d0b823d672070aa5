//! The commands as cases: from what a run is given to all that it must print, say and write.

use super::case::{case, Case, Line, Said};
use super::folder::Thing;
use super::glyphs::{self, Drawings, Fault, Naming, Packed, Table};
use super::screen::{edges, is_empty, screen, Scene, DEFAULTS};
use super::text::{self, drawing, whole_drawing};
use super::wave::{events, Wave};
use crate::draw;
use crate::model::display::{Kind, WIDEST};
use crate::model::hex::written_text;
use crate::model::pack::drawn;
use crate::model::{image, pulse};
use crate::parts::Settings;

/// Where the output of a command goes.
#[derive(Clone, Copy, Debug, PartialEq, Eq)]
pub enum To {
    /// Nothing is said about it.
    Nowhere,
    /// `-o -`: standard output.
    Dash,
    /// `-o out`, a file that is not there yet.
    New,
    /// `-o out`, a file that is there.
    Old,
}

pub const OUTPUT: &str = "out";
/// The file that `pack` is told to write its table to.
pub const TABLE: &str = "table.out";
const OLD: &[u8] = b"what was there before\n";

/// The options of `paint`.
pub const PAINT_OPTIONS: &[&str] = &[
    "--font",
    "--table",
    "--mode",
    "--colour",
    "--h",
    "--v",
    "--ratio",
    "--frequency",
    "--off",
    "--frame",
    "--width",
    "--lines",
    "--text",
    "-o",
];

/// The name of a file in a message, and in what `check` prints: control characters are shown by their numbers.
pub fn named(file: &str) -> String {
    if file == "-" {
        return "<stdin>".to_string();
    }
    let shown = |letter: char| match letter {
        '\0'..='\x1F' | '\x7F' => format!("\\x{:02X}", u32::from(letter)),
        _ => letter.to_string(),
    };
    file.chars().map(shown).collect()
}

/// Hands a file to the case; `-` is standard input.
fn given(case: Case, file: &str, bytes: &[u8]) -> Case {
    if file == "-" {
        case.input(bytes)
    } else {
        case.file(file, bytes)
    }
}

/// An option that names an output.
fn told_by(case: Case, option: &str, file: &str, to: To) -> Case {
    match to {
        To::Nowhere => case,
        To::Dash => case.word(option).word("-"),
        To::New => case.word(option).word(file),
        To::Old => case.word(option).word(file).thing(file, Thing::File { bytes: OLD.to_vec(), mode: Some(0o640) }),
    }
}

fn told(case: Case, to: To) -> Case {
    told_by(case, "-o", OUTPUT, to)
}

/// The output of work that is whole.
fn delivered(case: Case, to: To, bytes: impl Into<Vec<u8>>) -> Case {
    match to {
        To::Nowhere | To::Dash => case.out(bytes),
        To::New | To::Old => case.writes(OUTPUT, bytes),
    }
}

/// A message about a drawing, a table, a screen or events. A byte order mark spoils the first line, so it is the one told of.
fn hinted(line: Line, bytes: &[u8]) -> Line {
    if bytes.starts_with(text::BYTE_ORDER_MARK) {
        line.naming(text::MARK_NAMED)
    } else {
        line
    }
}

fn with_lines(case: Case, lines: Vec<Line>) -> Case {
    lines.into_iter().fold(case, Case::says)
}

/// These lines are said, and perhaps some of the others.
fn saying(case: Case, due: Vec<Line>, others: Vec<Line>) -> Case {
    if others.is_empty() {
        with_lines(case, due)
    } else {
        case.said(Said::Among { due, others })
    }
}

/// `check`. The texts have the names that the command is given; one that is not there has no bytes.
pub fn check(name: &str, whole: bool, texts: &[(&str, Option<&[u8]>)]) -> Case {
    let mut case = case(name, if whole { "check --whole" } else { "check" });
    let (mut out, mut status) = (String::new(), 0);
    for &(file, bytes) in texts {
        case = case.word(file);
        let Some(bytes) = bytes else {
            case = case.says(Line::exactly(format!("{}: cannot be read: No such file or directory", named(file))));
            status = 2;
            continue;
        };
        case = given(case, file, bytes);
        match text::read(&named(file), bytes) {
            Ok(good) if whole && !good.not_given.is_empty() => {
                case = with_lines(case, text::partial(&named(file), &good, "").into_iter().collect());
                status = status.max(1);
            }
            Ok(good) => {
                case = with_lines(case, text::warnings(&named(file), &good));
                out += &format!("{}: cells 62 bytes {}\n", named(file), good.count);
            }
            Err(line) => {
                case = case.says(line);
                status = status.max(1);
            }
        }
    }
    case.out(out).status(status)
}

/// Neighbours among the cells, first and last of each run.
fn runs(cells: &[usize]) -> Vec<(usize, usize)> {
    let mut runs: Vec<(usize, usize)> = Vec::new();
    for &cell in cells {
        match runs.last_mut() {
            Some((_, last)) if *last + 1 == cell => *last = cell,
            _ => runs.push((cell, cell)),
        }
    }
    runs
}

/// Cells as the warning lists them.
fn listed(cells: &[usize]) -> String {
    let run = |(first, last): (usize, usize)| match last - first {
        0 => first.to_string(),
        _ => format!("{first} to {last}"),
    };
    runs(cells).into_iter().map(run).collect::<Vec<String>>().join(", ")
}

/// What is said of cells that are not drawn: a warning, or where every cell is wanted a fault.
fn missing(file: &str, cells: &[usize], whole: bool) -> Line {
    let number = cells.len();
    let what = match (number, whole) {
        (1, false) => "warning: 1 cell is not drawn and is empty".to_string(),
        (1, true) => "1 cell is not drawn".to_string(),
        (_, false) => format!("warning: {number} cells are not drawn and are empty"),
        (_, true) => format!("{number} cells are not drawn"),
    };
    // Whether two neighbours are told as a run is left open.
    if runs(cells).iter().any(|(first, last)| first + 1 == *last) {
        return Line::new(format!("{file}: {what}: "), "");
    }
    Line::exactly(format!("{file}: {what}: {}", listed(cells)))
}

/// `font`.
pub fn font(name: &str, file: &str, bytes: &[u8], to: To) -> Case {
    font_of(case(name, "font"), false, file, bytes, to)
}

/// `font --whole`.
pub fn whole_font(name: &str, file: &str, bytes: &[u8], to: To) -> Case {
    font_of(case(name, "font --whole"), true, file, bytes, to)
}

fn font_of(case: Case, whole: bool, file: &str, bytes: &[u8], to: To) -> Case {
    let case = told(given(case.word(file), file, bytes), to);
    match draw::drawn(bytes) {
        Ok(drawn) => {
            let said = (!drawn.missing.is_empty()).then(|| missing(&named(file), &drawn.missing, whole));
            let case = with_lines(case, said.iter().cloned().collect());
            if whole && said.is_some() {
                return case.status(1);
            }
            delivered(case, to, written_text(&image::of_font(&drawn.font)))
        }
        Err(complaint) => {
            let line = complaint.line.map_or(String::new(), |line| format!("{line}:"));
            case.status(1).says(hinted(Line::new(format!("{}:{line} ", named(file)), ""), bytes))
        }
    }
}

/// `pack`: where the text goes, and where the table.
pub fn pack(name: &str, file: &str, bytes: &[u8], to: To, table_to: To) -> Case {
    let case = given(case(name, "pack").word(file), file, bytes);
    let case = told_by(told(case, to), "--table", TABLE, table_to);
    let printed = matches!(to, To::Nowhere | To::Dash);
    if printed && table_to == To::Dash {
        return misused(case, "pack");
    }
    let drawings = glyphs::drawings(bytes);
    let open = drawings.as_ref().is_ok_and(|drawings| drawings.open);
    match drawings.and_then(|drawings| drawings.packed()) {
        Ok(Packed { text, table }) => {
            let case = delivered(case, to, text);
            match table_to {
                To::Nowhere if printed => case.said(Said::Exactly(table.into_bytes())),
                To::Nowhere | To::Dash => case.out(table),
                To::New | To::Old => case.writes(TABLE, table),
            }
        }
        Err(_) if open => case.status(1).said(Said::IfNotDone),
        Err(fault) => case.status(1).says(hinted(fault.said(&named(file)), bytes)),
    }
}

/// `show`, of all cells if none is named.
pub fn show(name: &str, file: &str, bytes: &[u8], cells: &[usize], to: To) -> Case {
    let case = told(given(case(name, "show").word(file), file, bytes), to);
    let case = cells.iter().fold(case, |case, cell| case.word(cell.to_string()));
    match text::read(&named(file), bytes) {
        Ok(good) => {
            let case = with_lines(case, text::warnings(&named(file), &good));
            let drawing = if cells.is_empty() { whole_drawing(&good.font) } else { drawing(&good.font, cells) };
            delivered(case, to, drawing)
        }
        Err(line) => case.status(1).says(line),
    }
}

/// `paint`: the files, the settings, and the words that say these.
#[derive(Clone, Debug)]
pub struct Paint<'a> {
    pub screen: (&'a str, &'a [u8]),
    pub font: (&'a str, &'a [u8]),
    pub table: Option<(&'a str, &'a [u8])>,
    /// The glyphs that the table names: the picture is then made of them, and not of the font.
    pub drawn: Option<&'a Drawings>,
    pub settings: Settings,
    pub frame: u32,
    pub width: Option<u32>,
    pub lines: Option<u32>,
    pub text: bool,
    pub to: To,
    /// The settings as they are typed.
    pub words: String,
}

impl<'a> Paint<'a> {
    pub fn new(screen: &'a [u8], font: &'a [u8]) -> Self {
        Paint {
            screen: ("screen", screen),
            font: ("font.hex", font),
            table: None,
            drawn: None,
            settings: DEFAULTS,
            frame: 0,
            width: None,
            lines: None,
            text: false,
            to: To::Nowhere,
            words: String::new(),
        }
    }

    fn bare(&self, name: &str) -> Case {
        let words = case(name, &self.words).words;
        let case = case(name, "paint").word(self.screen.0).word("--font").word(self.font.0);
        let case = self.table.iter().fold(case, |case, table| case.word("--table").word(table.0));
        let case = words.into_iter().fold(case, Case::word);
        let case = if self.text { case.word("--text") } else { case };
        let files = [self.screen, self.font].into_iter().chain(self.table);
        told(files.fold(case, |case, (file, bytes)| given(case, file, bytes)), self.to)
    }

    /// The table, if one is given, and the line about it if it is another font's. If a line is bad, what is said of that;
    /// nothing is known if the table is another font's as well.
    fn read_table(&self, font: Option<&[u16]>) -> Result<(Option<Table>, Option<Line>), Option<Line>> {
        let Some((file, bytes)) = self.table else {
            return Ok((None, None));
        };
        let said = |fault: Fault| hinted(fault.said(&named(file)), bytes);
        let strange = font.is_some_and(|font| glyphs::is_of_another(bytes, font));
        let table = glyphs::table(bytes).map_err(|fault| (!strange).then(|| said(fault)))?;
        let strange = font.and_then(|font| table.strange_to(font)).map(said);
        Ok((Some(table), strange))
    }

    pub fn case(&self, name: &str) -> Case {
        let case = self.bare(name);
        let font = text::read(&named(self.font.0), self.font.1);
        // Where a file is bad, whether the others are warned of is left open; that of the font is so everywhere.
        let mut others: Vec<Line> = font.as_ref().map_or(Vec::new(), |good| text::warnings(&named(self.font.0), good));
        let (table, strange) = match self.read_table(font.as_ref().ok().map(|good| &good.font[..])) {
            Ok(read) => read,
            // The screen is not looked at.
            Err(Some(line)) if font.is_ok() => return saying(case.status(1), vec![line], others),
            Err(_) => return case.status(1).said(Said::IfNotDone),
        };
        let naming = Naming { table: table.as_ref(), drawn: self.drawn };
        let words = screen(self.screen.1, &naming);
        let words = words.map_err(|fault| hinted(fault.said(&named(self.screen.0)), self.screen.1));
        let due = words.as_ref().map_or(Vec::new(), |words| self.warnings(words));
        let (good, words) = match (font, words, strange) {
            (Ok(good), Ok(words), None) => (good, words),
            (Err(line), Ok(_), _) | (Ok(_), Ok(_), Some(line)) => {
                others.extend(due);
                return saying(case.status(1), vec![line], others);
            }
            (Ok(_), Err(line), None) => return saying(case.status(1), vec![line], others),
            (Ok(_), Err(line), Some(strange)) => {
                return case.status(1).said(Said::Among { due: vec![strange, line], others })
            }
            (Err(_), Err(_), _) => return case.status(1).said(Said::IfNotDone),
        };
        let &Paint { settings, frame, width, lines, .. } = self;
        let rows = [self.drawn.map_or(&[][..], |drawn| &drawn.rows), &good.font].concat();
        let scene = Scene { words, glyphs: drawn(&rows), settings, frame, width, lines };
        let picture = scene.picture();
        let text = self.text || self.to == To::Nowhere;
        delivered(saying(case, due, others), self.to, if text { picture.text() } else { picture.ppm() })
    }

    /// What is said of a screen that is painted all the same: nothing is there, or it does not fit.
    fn warnings(&self, words: &[Kind]) -> Vec<Line> {
        let name = named(self.screen.0);
        if is_empty(self.screen.1) {
            return vec![Line::exactly(format!("{name}: warning: no word is given: the screen is empty"))];
        }
        let (right, bottom) = edges(words, &self.settings);
        let cut = (self.width.is_none() && right > WIDEST) || (self.lines.is_none() && bottom > WIDEST);
        let line = || {
            Line::exactly(format!(
                "{name}: warning: the cells reach {right} dots by {bottom} lines; at most 1024 by 1024 are painted"
            ))
        };
        cut.then(line).into_iter().collect()
    }

    /// A setting that the library refuses.
    pub fn refused(&self, name: &str, option: &str, number: u32) -> Case {
        let end = format!(" (refused {number} at 0)");
        self.bare(name).status(1).says(Line::new(format!("dirgeflint: {option}: "), end))
    }

    /// Settings that are wrong usage.
    pub fn misused(&self, name: &str) -> Case {
        misused(self.bare(name), "paint")
    }
}

/// `play`.
pub fn play(name: &str, file: &str, bytes: &[u8], to: To) -> Case {
    let case = told(given(case(name, "play").word(file), file, bytes), to);
    let wave = match events(bytes) {
        Ok(events) => Wave::of(&events),
        Err(faults) => {
            let case = case.status(1);
            // Which of several faults is told is left open.
            let &[fault] = faults.as_slice() else {
                return case.said(Said::IfNotDone);
            };
            let end = if fault.refused { " (refused 14 at 0)" } else { "" };
            return case.says(hinted(Line::new(format!("{}:{}: ", named(file), fault.line), end), bytes));
        }
    };
    if wave.is_empty() {
        let case = case.says(Line::exactly(format!("{}: warning: no clock is played", named(file))));
        return match to {
            To::Nowhere => case,
            _ => delivered(case, to, wave.vcd()),
        };
    }
    match to {
        To::Nowhere => case.out(wave.lines()),
        To::Dash => case.out(wave.vcd()).said(Said::Exactly(wave.lines().into_bytes())),
        To::New | To::Old => case.out(wave.lines()).writes(OUTPUT, wave.vcd()),
    }
}

/// `pulse`, with its numbers as they are typed.
pub fn pulse(channel: u32, byte: u8, words: &str) -> Case {
    let case = case(&format!("pulse {words}"), &format!("pulse {words}"));
    let levels: Vec<bool> = (0..).map_while(|t| pulse::level(channel, byte, t).ok()).collect();
    if levels.is_empty() {
        let start = format!("dirgeflint: channel {channel}: ");
        return case.status(1).says(Line::new(start, " (refused 15 at 0)"));
    }
    let high = levels.iter().filter(|&&level| level).count();
    let drawn: String = levels.iter().map(|&level| if level { '#' } else { '.' }).collect();
    let clocks = levels.len();
    case.out(format!("channel {channel} byte {byte}: high for {high} of {clocks} clocks\n{drawn}\n"))
}

/// Wrong usage of a command.
pub fn misused(case: Case, command: &str) -> Case {
    case.status(2).says(Line::new("dirgeflint: ", format!("; try: dirgeflint help {command}")))
}

#[cfg(test)]
mod tests {
    use super::*;

    #[test]
    fn missing_cells_are_listed_by_runs() {
        assert_eq!(listed(&[3, 17, 40, 41, 42]), "3, 17, 40 to 42");
        assert_eq!(listed(&[0]), "0");
    }

    #[test]
    fn the_worked_pulse() {
        let case = pulse(4, 194, "4 194");
        let due = format!("channel 4 byte 194: high for 2 of 64 clocks\n##{}\n", ".".repeat(62));
        assert!(matches!(case.out, super::super::case::Out::Exactly(out) if out == due.into_bytes()));
        assert_eq!(pulse(8, 0, "8 0").status, Some(1));
    }

    #[test]
    fn a_file_that_is_not_there_wins_over_a_bad_one() {
        let texts: [(&str, Option<&[u8]>); 3] = [("a", Some(b"x")), ("b", None), ("-", Some(b":00000001FF"))];
        let case = check("several", false, &texts);
        assert_eq!(case.status, Some(2));
        assert!(matches!(case.out, super::super::case::Out::Exactly(out) if out == b"<stdin>: cells 62 bytes 0\n"));
    }
}
