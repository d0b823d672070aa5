//! Reads a font drawn as plain text.
//!
//! A cell is a heading `cell NN`, with a name after it or none, and 18 rows of 12 characters, `#` for a lit dot and `.`
//! for an unlit one. Cells come in any order, each at most once, and one that is not drawn is empty. Empty lines and
//! lines that begin with `;` are passed over. Drawings of glyphs differ in their headings only.

use crate::lines::{decimal, lines, trimmed, words};
use crate::model::hex::written_text;
use crate::model::image::{self, CELLS, COLUMNS, FONT_ROWS, ROWS};
use std::fmt;

/// What is wrong with a drawing, and what to do about it.
#[derive(Clone, Debug, PartialEq, Eq)]
pub struct Complaint {
    /// Counted from 1, as editors do; a drawing without a cell has no line to blame.
    pub line: Option<usize>,
    pub what: String,
}

impl fmt::Display for Complaint {
    fn fmt(&self, out: &mut fmt::Formatter) -> fmt::Result {
        if let Some(line) = self.line {
            write!(out, "line {line}: ")?;
        }
        write!(out, "{}", self.what)
    }
}

/// A drawing that was read.
#[derive(Clone, Debug, PartialEq, Eq)]
pub struct Drawn {
    pub font: Vec<u16>,
    /// The cells that are not drawn, by rising number.
    pub missing: Vec<usize>,
}

/// Whether a line is meant as a heading, right or wrong: its first word is the one that headings begin with.
fn is_heading(line: &[u8], word: &str) -> bool {
    let rest = line.strip_prefix(word.as_bytes());
    rest.is_some_and(|rest| rest.is_empty() || rest.starts_with(b" ") || rest.starts_with(b"\t"))
}

/// The cell of a heading, or what is wrong with it.
fn heading(line: &[u8], drawn: &[bool]) -> Result<usize, String> {
    let number = words(line).get(1).and_then(|word| decimal(word)).map(|number| number as usize);
    let cell = number.filter(|&number| number < CELLS).ok_or("a cell's number is 0 to 61, in decimal digits")?;
    if drawn[cell] {
        return Err(format!("cell {cell} is drawn already; draw each cell once"));
    }
    Ok(cell)
}

/// The bits of a row, or what is wrong with it. The leftmost dot is the highest bit.
fn row(line: &[u8]) -> Result<u16, String> {
    let mut bits = 0;
    for (column, &dot) in line.iter().enumerate().take(COLUMNS) {
        bits = match dot {
            b'#' => 2 * bits + 1,
            b'.' => 2 * bits,
            other => {
                return Err(format!(
                    "{:?} in column {} is no dot; use # for a lit one and . for an unlit one",
                    char::from(other),
                    column + 1
                ))
            }
        };
    }
    if line.len() != COLUMNS {
        return Err(format!("this row has {} characters; give it {COLUMNS}", line.len()));
    }
    Ok(bits)
}

/// Takes a heading and the number of its line, counted from 1, or says what is wrong with it.
pub type Heading<'a> = &'a mut dyn FnMut(usize, &[u8]) -> Result<(), String>;

/// The rows of a drawing, 18 for each heading.
pub fn rows(drawing: &[u8], word: &str, heading: Heading) -> Result<Vec<u16>, Complaint> {
    let mut rows = Vec::new();
    // Of the heading that was read last.
    let mut rows_due = 0;
    let lines = lines(drawing);
    for (index, line) in lines.iter().enumerate() {
        let complain = |what: String| Complaint { line: Some(index + 1), what };
        let line = trimmed(line);
        if line.is_empty() || line.starts_with(b";") {
            continue;
        }
        match (is_heading(line, word), rows_due) {
            (true, 0) => {
                heading(index + 1, line).map_err(complain)?;
                rows_due = ROWS;
            }
            (true, _) => {
                return Err(complain(format!("{rows_due} rows are missing before this heading; there must be {ROWS}")))
            }
            (false, 0) => return Err(complain(format!("a heading is due here; it begins with \"{word} \""))),
            (false, _) => {
                rows.push(row(line).map_err(complain)?);
                rows_due -= 1;
            }
        }
    }
    if rows_due > 0 {
        let what = format!("the drawing stops before the last {rows_due} rows; draw all {ROWS}");
        return Err(Complaint { line: Some(lines.len()), what });
    }
    if rows.is_empty() {
        return Err(Complaint { line: None, what: format!("no {word} is drawn; draw at least one") });
    }
    Ok(rows)
}

/// The font of a drawing.
pub fn drawn(drawing: &[u8]) -> Result<Drawn, Complaint> {
    let mut drawn = [false; CELLS];
    let mut cells = Vec::new();
    let rows = rows(drawing, "cell", &mut |_, line| {
        let cell = heading(line, &drawn)?;
        drawn[cell] = true;
        cells.push(cell);
        Ok(())
    })?;
    let mut font = vec![0; FONT_ROWS];
    for (cell, rows) in cells.iter().zip(rows.chunks(ROWS)) {
        font[ROWS * cell..ROWS * cell + ROWS].copy_from_slice(rows);
    }
    Ok(Drawn { font, missing: (0..CELLS).filter(|&cell| !drawn[cell]).collect() })
}

/// The image of a drawing.
pub fn image(drawing: &[u8]) -> Result<Vec<u8>, Complaint> {
    Ok(image::of_font(&drawn(drawing)?.font))
}

/// The hex text of a drawing.
pub fn text(drawing: &[u8]) -> Result<String, Complaint> {
    Ok(written_text(&image(drawing)?))
}

#[cfg(test)]
mod tests {
    use super::*;
    use crate::model::fontcheck;

    const SAMPLE: &[u8] = include_bytes!("../../samples/font.txt");
    const SAMPLE_TEXT: &[u8] = include_bytes!("../../samples/font.hex");

    #[test]
    fn the_sample_text_is_that_of_the_sample_drawing() {
        assert!(text(SAMPLE).unwrap().as_bytes() == SAMPLE_TEXT, "write it anew with: draw samples/font.txt");
        assert_eq!(fontcheck::line(SAMPLE_TEXT), "cells 62 bytes 8192\n");
    }

    #[test]
    fn the_sample_has_every_cell_and_no_two_alike() {
        let Drawn { font, missing } = drawn(SAMPLE).unwrap();
        assert_eq!(missing, []);
        let cells: Vec<&[u16]> = font.chunks(ROWS).collect();
        for (number, cell) in cells.iter().enumerate() {
            assert!(!cells[..number].contains(cell), "cell {number}");
        }
    }

    #[test]
    fn the_leftmost_dot_is_the_highest_bit() {
        assert_eq!(row(b"#..........."), Ok(2048));
        assert_eq!(row(b"..........##"), Ok(3));
        assert_eq!(row(b"############"), Ok(4095));
    }

    fn cell(heading: &str) -> String {
        format!("cell {heading}\n{}", "###########.\n".repeat(ROWS))
    }

    #[test]
    fn cells_come_in_any_order_with_a_name_or_none() {
        let drawing = cell("61 A name") + "\n; words\n \t\n" + &cell("7") + &cell("003\tX");
        let Drawn { font, missing } = drawn(drawing.as_bytes()).unwrap();
        assert_eq!(missing, (0..61).filter(|cell| ![3, 7].contains(cell)).collect::<Vec<usize>>());
        for (number, rows) in font.chunks(ROWS).enumerate() {
            let due = if [3, 7, 61].contains(&number) { 0xFFE } else { 0 };
            assert!(rows.iter().all(|&row| row == due), "cell {number}");
        }
        let windows = drawing.replace('\n', " \t\r\n");
        assert_eq!(drawn(windows.as_bytes()), drawn(drawing.as_bytes()));
        assert_eq!(drawn(drawing.trim_end().as_bytes()), drawn(drawing.as_bytes()));
    }

    fn complaint(drawing: &str) -> String {
        drawn(drawing.as_bytes()).unwrap_err().to_string()
    }

    #[test]
    fn complaints_name_the_line_and_the_remedy() {
        assert!(complaint("").starts_with("no cell is drawn"));
        assert!(complaint("\n; words\n").starts_with("no cell is drawn"));
        assert!(complaint("\n............").starts_with("line 2: a heading is due"));
        assert!(complaint("cells 00").starts_with("line 1: a heading is due"));
        for wrong in ["cell", "cell 62", "cell x", "cell 0x1", "cell -1", "cell +1", "cell 4294967296"] {
            assert!(complaint(wrong).starts_with("line 1: a cell's number is 0 to 61"), "{wrong}");
        }
        assert!(complaint(&(cell("5") + "\n" + &cell("05 B"))).starts_with("line 21: cell 5 is drawn already"));
        assert!(complaint(&(cell("5") + "............")).starts_with("line 20: a heading is due"));
        assert!(complaint("cell 00 A\n...").starts_with("line 2: this row has 3 characters"));
        assert!(complaint("cell 00\n.............").starts_with("line 2: this row has 13 characters"));
        assert!(complaint("cell 00\n....x.......").starts_with("line 2: 'x' in column 5 is no dot"));
        assert!(complaint("cell 00\n ...........").starts_with("line 2: ' ' in column 1 is no dot"));
        assert!(complaint("cell 00\n............\ncell 01 B").starts_with("line 3: 17 rows are missing"));
        assert!(complaint("cell 00\n............\n").starts_with("line 2: the drawing stops before the last 17 rows"));
    }
}
