//! Drawings of glyphs, what `pack` makes of them, and the table by which `paint` takes their names.

use super::case::Line;
use crate::draw;
use crate::lines::{decimal, number, statements, words};
use crate::model::hex::written_text;
use crate::model::image::{self, CELLS, FONT_ROWS, ROWS};
use crate::model::pack::{self, MOST_GLYPHS};

const LONGEST_NAME: usize = 64;

/// What is wrong with drawings or a table.
#[derive(Clone, Debug, Default, PartialEq, Eq)]
pub struct Fault {
    /// A file that says nothing has no line to blame.
    pub line: Option<usize>,
    /// What the message has to name, and sets of such of which one will do.
    pub names: Vec<String>,
    pub one_of: Vec<Vec<String>>,
    pub refused: Option<u32>,
}

impl Fault {
    fn at(line: usize, names: &[&str]) -> Self {
        Fault { line: Some(line), names: names.iter().map(|name| name.to_string()).collect(), ..Fault::default() }
    }

    /// The message about a file.
    pub fn said(self, file: &str) -> Line {
        let line = self.line.map_or(String::new(), |line| format!("{line}:"));
        let end = self.refused.map_or(String::new(), |number| format!(" (refused {number} at 0)"));
        let said = self.names.into_iter().fold(Line::new(format!("{file}:{line} "), end), Line::naming);
        said.naming_one_of(self.one_of)
    }
}

/// Whether a letter does not show, or moves what is shown.
pub fn hidden(letter: char) -> bool {
    matches!(u32::from(letter),
        0..=0x20 | 0x7F..=0xA0 | 0xAD | 0x2000..=0x200F | 0x2028..=0x202F | 0x205F..=0x206F | 0x3000 | 0xFEFF)
}

/// The rules that a name breaks, each by a word that a message about it has.
fn broken(name: &[u8]) -> Vec<&'static str> {
    let rules = [
        (name.first().is_some_and(u8::is_ascii_digit), "digit"),
        (name.iter().any(|byte| b";#".contains(byte)), "comment"),
        (name.len() > LONGEST_NAME, "64 bytes"),
        (std::str::from_utf8(name).is_err(), "UTF-8"),
        (String::from_utf8_lossy(name).chars().any(hidden), "show"),
    ];
    rules.into_iter().filter(|(is, _)| *is).map(|(_, word)| word).collect()
}

pub fn is_name(word: &[u8]) -> bool {
    broken(word).is_empty()
}

/// A name, or what a message about it has to have.
fn name(word: &[u8]) -> Result<String, Vec<&'static str>> {
    match broken(word)[..] {
        [] => Ok(String::from_utf8_lossy(word).into_owned()),
        [rule] => Err(vec!["is no name", rule]),
        // Which of several rules is told is left open.
        _ => Err(vec!["is no name"]),
    }
}

/// The number of the letter of a name that has only one, outside ASCII.
fn letter_number(name: &str) -> Option<String> {
    let mut letters = name.chars();
    let only = letters.next().filter(|letter| letters.next().is_none() && !letter.is_ascii());
    only.map(|letter| format!("U+{:04X}", u32::from(letter)))
}

/// A name in a message.
pub fn shown(name: &str) -> String {
    match letter_number(name) {
        Some(number) => format!("'{name}' ({number})"),
        None => format!("'{name}'"),
    }
}

/// Drawings that were read.
#[derive(Clone, Debug, Default, PartialEq, Eq)]
pub struct Drawings {
    pub names: Vec<String>,
    /// The lines of the headings.
    pub lines: Vec<usize>,
    /// 18 for each glyph.
    pub rows: Vec<u16>,
    /// A name stands twice, but only past the glyphs that can be packed: whether that is told, or that there are too
    /// many, is left open.
    pub open: bool,
}

/// The name of a heading, or what the message about it has to have.
fn heading(line: &[u8]) -> Result<String, Vec<&'static str>> {
    match words(line)[..] {
        [_, word] => name(word),
        [_, word, then, ..] if b";#".contains(&then[0]) => name(word),
        // No name at all, or more than one word for it.
        _ => Err(Vec::new()),
    }
}

impl Drawings {
    fn add(&mut self, line: usize, text: &[u8]) -> Result<(), Vec<String>> {
        let name = heading(text).map_err(|names| names.into_iter().map(str::to_string).collect::<Vec<_>>())?;
        let first = self.names.iter().position(|other| *other == name);
        match first {
            Some(first) if self.names.len() < MOST_GLYPHS => {
                let first = format!("line {}", self.lines[first]);
                return Err(vec![shown(&name), "is drawn already".to_string(), first]);
            }
            Some(_) => self.open = true,
            None => {}
        }
        self.names.push(name);
        self.lines.push(line);
        Ok(())
    }
}

/// Reads drawings of glyphs.
pub fn drawings(text: &[u8]) -> Result<Drawings, Fault> {
    let (mut drawings, mut names) = (Drawings::default(), Vec::new());
    let read = draw::rows(text, "glyph", &mut |line, heading| {
        drawings.add(line, heading).map_err(|due| {
            names = due;
            String::new()
        })
    });
    match read {
        Ok(rows) => Ok(Drawings { rows, ..drawings }),
        Err(complaint) => Err(Fault { line: complaint.line, names, ..Fault::default() }),
    }
}

/// What the drawings are packed into.
#[derive(Clone, Debug, PartialEq, Eq)]
pub struct Packed {
    /// The font's text.
    pub text: String,
    pub table: String,
}

/// The sum that a table knows its font by: the CRC-32 of gzip, a bit at a time.
pub fn sum(text: &[u8]) -> u32 {
    let mut sum = u32::MAX;
    for &byte in text {
        sum ^= u32::from(byte);
        for _ in 0..8 {
            sum = if sum & 1 == 1 { sum >> 1 ^ 0xEDB8_8320 } else { sum >> 1 };
        }
    }
    !sum
}

/// The sum of a font, however its text was written.
pub fn sum_of_font(font: &[u16]) -> u32 {
    sum(written_text(&image::of_font(font)).as_bytes())
}

impl Drawings {
    /// The glyphs in which a pattern appears for the first time.
    fn patterns(&self) -> Vec<usize> {
        let glyphs: Vec<&[u16]> = self.rows.chunks(ROWS).collect();
        (0..glyphs.len()).filter(|&glyph| !glyphs[..glyph].contains(&glyphs[glyph])).collect()
    }

    fn different_dots(&self, one: usize, other: usize) -> u32 {
        let rows = |glyph: usize| self.rows[ROWS * glyph..ROWS * glyph + ROWS].iter();
        rows(one).zip(rows(other)).map(|(one, other)| (one ^ other).count_ones()).sum()
    }

    /// What the message names of two glyphs: names and lines.
    fn two(&self, one: usize, other: usize) -> Vec<String> {
        let of = |glyph: usize| [shown(&self.names[glyph]), format!("line {}", self.lines[glyph])];
        [of(one), of(other)].concat()
    }

    /// The pairs of patterns that differ in the fewest dots.
    fn most_alike(&self, patterns: &[usize]) -> Vec<Vec<String>> {
        let pairs =
            patterns.iter().enumerate().flat_map(|(at, &one)| patterns[..at].iter().map(move |&two| (two, one)));
        let pairs: Vec<(u32, usize, usize)> =
            pairs.map(|(one, other)| (self.different_dots(one, other), one, other)).collect();
        let least = pairs.iter().map(|pair| pair.0).min();
        pairs.iter().filter(|pair| Some(pair.0) == least).map(|&(_, one, other)| self.two(one, other)).collect()
    }

    fn refused(&self, number: u32) -> Fault {
        let (glyph, number_of, left_out, one_of) = match number {
            16 => (MOST_GLYPHS, self.names.len(), self.names.len() - MOST_GLYPHS, Vec::new()),
            _ => {
                let patterns = self.patterns();
                (patterns[CELLS], patterns.len(), patterns.len() - CELLS, self.most_alike(&patterns))
            }
        };
        let names = vec![shown(&self.names[glyph]), number_of.to_string(), format!("leave out {left_out}")];
        Fault { line: Some(self.lines[glyph]), names, one_of, refused: Some(number) }
    }

    pub fn packed(&self) -> Result<Packed, Fault> {
        let (mut font, mut cells) = (vec![0; FONT_ROWS], vec![0; self.names.len()]);
        let used = pack::pack(&self.rows, &mut font, &mut cells).map_err(|refusal| self.refused(refusal.number))?;
        let text = written_text(&image::of_font(&font));
        let table = self.table(&cells, used, sum(text.as_bytes()));
        Ok(Packed { text, table })
    }

    fn table(&self, cells: &[u8], used: u32, sum: u32) -> String {
        let number = self.names.len();
        let glyphs = if number == 1 { "1 glyph".to_string() } else { format!("{number} glyphs") };
        let mut table = format!("; {glyphs} in {used} of 62 cells, by dirgeflint pack; for dirgeflint paint --table\n");
        table += &format!("font {sum:08X}\n");
        for cell in 0..used as u8 {
            let mut sharing = (0..number).filter(|&glyph| cells[glyph] == cell);
            let first = &self.names[sharing.next().expect("a cell that is used has a glyph")];
            table += &entry(cell, first, None);
            table.extend(sharing.map(|glyph| entry(cell, &self.names[glyph], Some(first))));
        }
        table
    }
}

fn entry(cell: u8, name: &str, as_first: Option<&str>) -> String {
    let remarks: Vec<String> =
        letter_number(name).into_iter().chain(as_first.map(|first| format!("as {first}"))).collect();
    let remarks = if remarks.is_empty() { String::new() } else { format!(" ; {}", remarks.join(", ")) };
    format!("cell {cell:02} {name}{remarks}\n")
}

/// A table that was read.
#[derive(Clone, Debug, Default, PartialEq, Eq)]
pub struct Table {
    /// The line of the font's sum, and the sum.
    pub sum: Option<(usize, u32)>,
    /// Line, cell and name of each glyph.
    names: Vec<(usize, u16, String)>,
}

impl Table {
    pub fn cell(&self, name: &[u8]) -> Option<u16> {
        self.names.iter().find(|(.., other)| other.as_bytes() == name).map(|(_, cell, _)| *cell)
    }

    fn add_name(&mut self, line: usize, cell: &[u8], word: &[u8]) -> Result<(), Fault> {
        let cell = decimal(cell).filter(|&cell| cell < CELLS as u32);
        let (cell, name) = match (cell, name(word)) {
            (Some(cell), Ok(name)) => (cell as u16, name),
            (Some(_), Err(names)) => return Err(Fault::at(line, &names)),
            (None, Ok(_)) => return Err(Fault::at(line, &["is no cell"])),
            (None, Err(_)) => return Err(Fault::at(line, &[])),
        };
        let first = self.names.iter().find(|(.., other)| *other == name).map(|(first, ..)| format!("line {first}"));
        match (first, self.names.len() == MOST_GLYPHS) {
            (Some(first), false) => return Err(Fault::at(line, &[&shown(&name), "is named already", &first])),
            (None, true) => return Err(Fault::at(line, &["256"])),
            (Some(_), true) => return Err(Fault::at(line, &[])),
            (None, false) => {}
        }
        self.names.push((line, cell, name));
        Ok(())
    }

    fn add_sum(&mut self, line: usize, word: &[u8]) -> Result<(), Fault> {
        let digits = std::str::from_utf8(word).ok().filter(|word| word.bytes().all(|byte| byte.is_ascii_hexdigit()));
        let sum = digits.filter(|word| word.len() == 8).and_then(|word| u32::from_str_radix(word, 16).ok());
        self.sum = match (sum, self.sum) {
            (Some(sum), None) => Some((line, sum)),
            _ => return Err(Fault::at(line, &[])),
        };
        Ok(())
    }

    /// Whether the table is of another font.
    pub fn strange_to(&self, font: &[u16]) -> Option<Fault> {
        let (line, sum) = self.sum?;
        let other = sum_of_font(font);
        let names = ["another font", &format!("{sum:08X}"), &format!("{other:08X}")];
        (sum != other).then(|| Fault::at(line, &names))
    }
}

/// Reads a table. Its font's sum is another matter.
pub fn table(text: &[u8]) -> Result<Table, Fault> {
    let mut table = Table::default();
    for (line, words) in statements(text) {
        match words[..] {
            [b"cell", cell, name] => table.add_name(line, cell, name)?,
            [b"font", sum] => table.add_sum(line, sum)?,
            _ => return Err(Fault::at(line, &[])),
        }
    }
    if table.names.is_empty() {
        return Err(Fault::default());
    }
    Ok(table)
}

/// Whether a line gives the sum of another font, be the table otherwise good or bad.
pub fn is_of_another(text: &[u8], font: &[u16]) -> bool {
    let sums = statements(text).filter_map(|(line, words)| match words[..] {
        [b"font", sum] => {
            let mut alone = Table::default();
            alone.add_sum(line, sum).ok().map(|()| alone)
        }
        _ => None,
    });
    sums.into_iter().any(|alone| alone.strange_to(font).is_some())
}

/// What the characters of a screen stand for.
#[derive(Clone, Copy, Debug, Default)]
pub struct Naming<'a> {
    pub table: Option<&'a Table>,
    /// The drawn glyphs, if the picture is to be made of these: a code is then the number of a glyph, and those of cells
    /// follow the glyphs'.
    pub drawn: Option<&'a Drawings>,
}

impl Naming<'_> {
    /// The code of a cell.
    pub fn of_cell(&self, cell: u16) -> u16 {
        cell + self.drawn.map_or(0, |drawn| drawn.names.len() as u16)
    }

    /// The code of what stands after `character`, or what the message about it has to have.
    pub fn code(&self, word: &[u8]) -> Result<u16, Vec<String>> {
        if word[0].is_ascii_digit() || self.table.is_none() {
            let cell = number(word).filter(|&cell| cell < CELLS as u32);
            return cell.map(|cell| self.of_cell(cell as u16)).ok_or(vec!["is no cell".to_string()]);
        }
        let cell = self.table.and_then(|table| table.cell(word));
        let name = name(word).map_err(|_| Vec::new())?;
        let cell = cell.ok_or(vec![shown(&name), "is no glyph of the table".to_string()])?;
        // A name that was added to the table by hand is no drawn glyph's.
        let glyph = self.drawn.and_then(|drawn| drawn.names.iter().position(|other| *other == name));
        Ok(glyph.map_or(self.of_cell(cell), |glyph| glyph as u16))
    }
}

#[cfg(test)]
mod tests {
    use super::*;

    /// A glyph with one row of its own.
    fn glyph(heading: &str, row: &str) -> String {
        format!("{heading}\n{row}\n{}", "............\n".repeat(17))
    }

    fn read(text: &str) -> Drawings {
        drawings(text.as_bytes()).unwrap()
    }

    fn fault(text: &[u8]) -> String {
        drawings(text).and_then(|drawings| drawings.packed()).unwrap_err().said("F").to_string()
    }

    #[test]
    fn the_sum_is_the_usual_one() {
        assert_eq!(sum(b"123456789"), 0xCBF4_3926);
        assert_eq!(sum(b""), 0);
    }

    #[test]
    fn headings_have_a_name_and_perhaps_a_comment() {
        let lit = "#...........";
        let text = glyph("glyph A", lit) + "\n; words\n" + &glyph("glyph\tbig-a\t# words \u{1}", lit);
        let text = text + &glyph("glyph  \u{3A9} ;", "............");
        let drawings = read(&text);
        assert_eq!(drawings.names, ["A", "big-a", "\u{3A9}"]);
        assert_eq!(drawings.lines, [1, 22, 41]);
        assert_eq!((drawings.rows.len(), drawings.rows[0], drawings.rows[18], drawings.rows[36]), (54, 2048, 2048, 0));
        assert_eq!(read(&text.replace('\n', " \r\n")), drawings);
        assert_eq!(read(text.trim_end()), drawings);
    }

    #[test]
    fn names_by_their_rules() {
        let judged = |name: &str| broken(name.as_bytes());
        let longest = "\u{3A9}".repeat(32);
        for good in
            ["A", "a7", "-1", "+", "\u{A1}", "\u{2010}", "\u{2027}", "\u{2030}", "\u{205E}", "\u{2070}", &longest]
        {
            assert_eq!(judged(good), [""; 0], "{good}");
        }
        assert_eq!(judged("7up"), ["digit"]);
        assert_eq!(judged("a;"), ["comment"]);
        assert_eq!(judged("a#b"), ["comment"]);
        assert_eq!(judged(&(longest + "x")), ["64 bytes"]);
        for hidden in ["\0", "\u{7F}", "\u{9F}", "\u{A0}", "\u{AD}", "\u{200B}", "\u{202E}", "\u{2060}", "\u{FEFF}"] {
            assert_eq!(judged(&format!("a{hidden}b")), ["show"], "{hidden:?}");
        }
        for wrong in [&b"\xE9"[..], b"a\xC0\x80", b"\xED\xA0\x80", b"\xF4\x90\x80\x80", b"\xC3"] {
            assert_eq!(broken(wrong), ["UTF-8"]);
        }
        assert_eq!(judged("7;"), ["digit", "comment"]);
        assert_eq!(broken(b"\x1A\xA3"), ["UTF-8", "show"]);
    }

    #[test]
    fn faults_have_their_lines_and_names() {
        let good = glyph("glyph A", "............");
        assert_eq!(fault(b""), "F: ..");
        assert_eq!(fault(b"; words\n\n"), "F: ..");
        assert_eq!(fault(b"\nglyph\n"), "F:2: ..");
        assert_eq!(fault(b"glyph A B\n"), "F:1: ..");
        assert_eq!(fault(b"glyph 7\n"), "F:1: ..is no name..digit..");
        assert_eq!(fault(b"glyph 7;\n"), "F:1: ..is no name..");
        assert_eq!(fault(b" glyph A\n"), "F:1: ..");
        assert_eq!(fault(b"glyph A\n............\nglyph B\n"), "F:3: ..");
        assert_eq!(fault(b"glyph A\n............\n;\n"), "F:3: ..");
        let twice = good.clone() + &glyph("glyph B", "............") + &good;
        assert_eq!(fault(twice.as_bytes()), "F:39: ..'A'..is drawn already..line 1..");
    }

    fn numbered(numbers: impl IntoIterator<Item = usize>) -> String {
        let row = |number: usize| format!("{number:012b}").replace('0', ".").replace('1', "#");
        numbers.into_iter().enumerate().map(|(at, number)| glyph(&format!("glyph g{at}"), &row(number))).collect()
    }

    #[test]
    fn refusals_name_what_to_do() {
        let said = |numbers: Vec<usize>| fault(numbered(numbers).as_bytes());
        assert_eq!(said(vec![5; 259]), "F:4865: ..'g256'..259..leave out 3.. (refused 16 at 0)");
        assert_eq!(said((0..257).collect()), "F:4865: ..'g256'..257..leave out 1.. (refused 16 at 0)");
        // Numbers of an even number of lit dots differ in two dots at least; 4095 and 4094 in one.
        let even = (0..4090usize).filter(|number| number.count_ones() % 2 == 0);
        let numbers = [1000, 1000, 4094].into_iter().chain(even.take(62)).chain([4095]);
        let drawn = read(&numbered(numbers));
        assert_eq!(drawn.patterns().len(), 65);
        let refused = drawn.packed().unwrap_err();
        assert_eq!(refused.one_of, [["'g2'", "line 39", "'g65'", "line 1236"].map(str::to_string).to_vec()]);
        assert_eq!(refused.line, Some(19 * 63 + 1));
        assert_eq!(refused.names, ["'g63'", "65", "leave out 3"]);
    }

    #[test]
    fn the_table_of_the_manual_page() {
        let text = glyph("glyph A", "#...........") + &glyph("glyph volume-bar-3", "............");
        let drawings = read(&(text + &glyph("glyph big-a", "#...........")));
        let Packed { text, table } = drawings.packed().unwrap();
        let sum = sum(text.as_bytes());
        assert_eq!(
            table,
            format!(
                "; 3 glyphs in 2 of 62 cells, by dirgeflint pack; for dirgeflint paint --table\n\
                 font {sum:08X}\ncell 00 A\ncell 00 big-a ; as A\ncell 01 volume-bar-3\n"
            )
        );
        let greek = read(&(glyph("glyph A", "............") + &glyph("glyph \u{391}", "............")));
        assert!(greek.packed().unwrap().table.ends_with("cell 00 A\ncell 00 \u{391} ; U+0391, as A\n"));
        let alone = read(&glyph("glyph \u{1D11E}", "............")).packed().unwrap().table;
        assert!(alone.starts_with("; 1 glyph in 1 of 62 cells,") && alone.ends_with("\u{1D11E} ; U+1D11E\n"));
    }

    #[test]
    fn a_table_gives_cells_again() {
        let drawings = read(&numbered((0..256).map(|glyph| glyph % 62)));
        let Packed { text, table: written } = drawings.packed().unwrap();
        let read = table(written.as_bytes()).unwrap();
        assert_eq!(read.sum, Some((2, sum(text.as_bytes()))));
        for (glyph, name) in drawings.names.iter().enumerate() {
            assert_eq!(read.cell(name.as_bytes()), Some(glyph as u16 % 62));
        }
        assert_eq!(read.cell(b"g"), None);
        let font: Vec<u16> = drawings.rows[..FONT_ROWS].to_vec();
        assert_eq!(read.strange_to(&font), None);
        assert!(read.strange_to(&[0; FONT_ROWS]).is_some_and(|fault| fault.line == Some(2)));
    }

    #[test]
    fn faults_of_a_table() {
        let fault = |text: &str| table(text.as_bytes()).unwrap_err().said("T").to_string();
        assert_eq!(fault(""), "T: ..");
        assert_eq!(fault("font 00000000\n"), "T: ..");
        assert_eq!(fault("cell 62 A"), "T:1: ..is no cell..");
        assert_eq!(fault("cell 0x1 A"), "T:1: ..is no cell..");
        assert_eq!(fault(";\n cell 1 7"), "T:2: ..is no name..digit..");
        assert_eq!(fault("cell 1 A\ncell 1 A"), "T:2: ..'A'..is named already..line 1..");
        for wrong in ["cell 1", "cell 1 A B", "font", "font 1234567", "font 0x123456", "Cell 1 A", "x"] {
            assert_eq!(fault(&format!("cell 1 A\n{wrong}\n")), "T:2: ..", "{wrong}");
        }
        assert_eq!(fault("font 00000000\nfont 00000000\ncell 1 A"), "T:2: ..");
        assert!(table(b"font abCDef01 ; words\r\ncell\t001 A#B").is_ok());
    }
}
