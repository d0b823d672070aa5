//! Screens: their words, and the picture that `paint` makes of them.

use super::glyphs::{Fault, Naming};
use crate::lines::{number, statements};
use crate::model::display::{cells_of, kind, Kind, WIDEST, WORDS};
use crate::model::pack::{self, DrawnGlyph};
use crate::parts::Settings;

pub const COLOURS: [&str; 8] = ["black", "blue", "green", "cyan", "red", "magenta", "yellow", "white"];

fn at_most(word: &[u8], most: u32) -> Option<u32> {
    number(word).filter(|&number| number <= most)
}

fn colour(word: &[u8]) -> Option<u32> {
    let named = COLOURS.iter().position(|name| name.as_bytes() == word);
    named.map(|colour| colour as u32).or_else(|| at_most(word, 7))
}

/// The kind of word that a line's words say, or what the message about them has to have.
fn kind_of(line: &[&[u8]], naming: &Naming) -> Result<Kind, Vec<String>> {
    let wrong = Vec::new;
    let of = |word: &[u8]| colour(word).map(|colour| colour as u16).ok_or_else(wrong);
    let character = |word: &[u8], of: u16, blink: bool| {
        let code = naming.code(word)?;
        Ok(Kind::Character { code, colour: of, blink })
    };
    match line {
        [b"character", cell, colour] => character(cell, of(colour)?, false),
        [b"character", cell, colour, b"blink"] => character(cell, of(colour)?, true),
        [b"space", colour] => Ok(Kind::Space { background: of(colour)? }),
        [b"return", size, spacing] => {
            let size = at_most(size, 4).filter(|&size| size >= 1).ok_or_else(wrong)?;
            let spacing = at_most(spacing, 12).filter(|spacing| spacing % 4 == 0).ok_or_else(wrong)?;
            Ok(Kind::Return { size, spacing })
        }
        [b"end"] => Ok(Kind::End),
        [word] => match kind(at_most(word, 1023).ok_or_else(wrong)? as u16) {
            Kind::Character { code, colour, blink } => {
                Ok(Kind::Character { code: naming.of_cell(code), colour, blink })
            }
            other => Ok(other),
        },
        _ => Err(wrong()),
    }
}

/// Whether a screen or a file of events says nothing at all.
pub fn is_empty(text: &[u8]) -> bool {
    statements(text).next().is_none()
}

/// The 64 words of a screen, or what is wrong with it.
pub fn screen(text: &[u8], naming: &Naming) -> Result<Vec<Kind>, Fault> {
    let mut screen = Vec::new();
    for (line, words) in statements(text) {
        let fault = |names| Fault { line: Some(line), names, ..Fault::default() };
        let kind = kind_of(&words, naming).map_err(fault)?;
        if screen.len() == WORDS {
            return Err(fault(Vec::new()));
        }
        screen.push(kind);
    }
    screen.resize(WORDS, Kind::End);
    Ok(screen)
}

/// The greatest right edge and the greatest bottom edge of a cell, seen or not.
pub fn edges(words: &[Kind], settings: &Settings) -> (u32, u32) {
    let cells = cells_of(words, settings);
    let right = cells.iter().map(|cell| cell.left + 12 * cell.size).max();
    let bottom = cells.iter().map(|cell| cell.top + 18 * cell.size).max();
    (right.unwrap_or(0), bottom.unwrap_or(0))
}

/// What is to be painted.
#[derive(Clone, Debug)]
pub struct Scene {
    pub words: Vec<Kind>,
    /// What the characters' codes are: the cells of a font, or drawn glyphs.
    pub glyphs: Vec<DrawnGlyph>,
    pub settings: Settings,
    pub frame: u32,
    pub width: Option<u32>,
    pub lines: Option<u32>,
}

pub const DEFAULTS: Settings = Settings { on: true, mode: 2, colour: 0, h: 0, v: 0, ratio: 0, frequency: 0 };

#[derive(Clone, Debug, PartialEq, Eq)]
pub struct Picture {
    pub width: u32,
    pub lines: u32,
    /// The painted bytes, line by line.
    pub dots: Vec<u8>,
}

impl Scene {
    /// How many dots and lines the cells reach. What starts past the last dot or line is not seen, and does not count.
    fn reach_of_cells(&self) -> (u32, u32) {
        let seen =
            cells_of(&self.words, &self.settings).into_iter().filter(|cell| cell.left < WIDEST && cell.top < WIDEST);
        seen.fold((1, 1), |(width, lines), cell| {
            let (right, bottom) = (cell.left + 12 * cell.size, cell.top + 18 * cell.size);
            (width.max(right.min(WIDEST)), lines.max(bottom.min(WIDEST)))
        })
    }

    /// The same, and in mode 1 with the shadows right of all cells, on or off and whatever the frame: in frame 0 every
    /// character shows. A shadow is never lower than its cell.
    fn reach(&self) -> (u32, u32) {
        let (width, lines) = self.reach_of_cells();
        if self.settings.mode != 1 {
            return (width, lines);
        }
        let settings = Settings { on: true, ..self.settings };
        let dots_of = |line| {
            let mut painted = vec![0; WIDEST.min(width + 4) as usize];
            pack::picture(&self.words, &self.glyphs, &settings, 0, line, &mut painted);
            painted.iter().rposition(|&dot| dot != 0).map_or(0, |last| last as u32 + 1)
        };
        ((0..lines).map(dots_of).fold(width, u32::max), lines)
    }

    pub fn picture(&self) -> Picture {
        let reach = self.reach();
        let (width, lines) = (self.width.unwrap_or(reach.0), self.lines.unwrap_or(reach.1));
        let mut dots = Vec::new();
        for line in 0..lines {
            let mut painted = vec![0; width as usize];
            pack::picture(&self.words, &self.glyphs, &self.settings, self.frame, line, &mut painted);
            dots.extend(painted);
        }
        Picture { width, lines, dots }
    }
}

impl Picture {
    pub fn ppm(&self) -> Vec<u8> {
        let mut bytes = format!("P6\n{} {}\n255\n", self.width, self.lines).into_bytes();
        for &dot in &self.dots {
            let lit = |bit: u8| if dot & bit == bit { 255 } else { 0 };
            bytes.extend(if dot == 0 { [128; 3] } else { [lit(4), lit(2), lit(1)] });
        }
        bytes
    }

    pub fn text(&self) -> Vec<u8> {
        let mut bytes = Vec::new();
        for line in self.dots.chunks(self.width as usize) {
            bytes.extend(line.iter().map(|&dot| match dot {
                0 => b' ',
                dot => b".:+=*%@#"[usize::from(dot - 8)],
            }));
            bytes.push(b'\n');
        }
        bytes
    }
}

#[cfg(test)]
mod tests {
    use super::*;
    use crate::cli::glyphs::{drawings, table};
    use crate::model::image::FONT_ROWS;

    const END: u16 = 1009;

    fn kinds(words: &[u16]) -> Vec<Kind> {
        words.iter().map(|&word| kind(word)).collect()
    }

    fn screen(text: &[u8]) -> Result<Vec<Kind>, usize> {
        super::screen(text, &Naming::default()).map_err(|fault| fault.line.unwrap())
    }

    #[test]
    fn words_by_their_parts() {
        let text =
            b"character 0 white\n space\tred ; red\n\r\n# none\nreturn 2 4#\r\ncharacter 61 0x1 blink\nend\n0x3ff";
        let words = screen(text).unwrap();
        assert_eq!(words[..6], kinds(&[14, 1016, 997, 979, 1009, 1023]));
        assert_eq!(words[6..], [Kind::End; 58]);
        assert_eq!(screen(b""), Ok(vec![Kind::End; 64]));
    }

    #[test]
    fn wrong_lines_are_counted_from_1() {
        for wrong in [
            "character 62 red",
            "character 0 8",
            "character 0",
            "character 0 red blink blink",
            "character 0 red blinks",
            "character 0 Red",
            "character",
            "space",
            "space 8",
            "space 1 blink",
            "return 0 0",
            "return 5 0",
            "return 1 5",
            "return 1 16",
            "return 1",
            "end 1",
            "1024",
            "-1",
            "0x",
            "End",
            "14 14",
            "\0",
            "\u{e9}",
        ] {
            assert_eq!(screen(format!("end\n;\n{wrong}\nend\n").as_bytes()), Err(3), "{wrong}");
        }
        assert_eq!(screen("end\n".repeat(64).as_bytes()), Ok(vec![Kind::End; 64]));
        assert_eq!(screen(("end\n".repeat(64) + "\n1009").as_bytes()), Err(66));
    }

    fn scene(words: &[u16], settings: Settings) -> Scene {
        let mut all = words.to_vec();
        all.resize(64, END);
        let mut font = vec![0; FONT_ROWS];
        font[0] = 2049;
        let (words, glyphs) = (kinds(&all), pack::drawn(&font));
        Scene { words, glyphs, settings, frame: 0, width: None, lines: None }
    }

    #[test]
    fn characters_by_name() {
        let rows = "............\n".repeat(18);
        let drawn = drawings(format!("glyph A\n{rows}glyph b\n{rows}").as_bytes()).unwrap();
        let table = table(b"cell 7 A\ncell 7 b\ncell 9 more").unwrap();
        let code = |kind: &Kind| match kind {
            Kind::Character { code, .. } => Some(*code),
            _ => None,
        };
        let codes = |drawn, text: &str| -> Result<Vec<u16>, String> {
            let naming = Naming { table: Some(&table), drawn };
            let words = super::screen(text.as_bytes(), &naming).map_err(|fault| fault.said("S").to_string())?;
            Ok(words.iter().map_while(code).collect())
        };
        let text = "character A red\ncharacter b red blink\ncharacter more red\ncharacter 7 red\n14\n";
        assert_eq!(codes(None, text), Ok(vec![7, 7, 9, 7, 0]));
        assert_eq!(codes(Some(&drawn), text), Ok(vec![0, 1, 11, 9, 2]));
        let wrong = |text: &str| codes(None, text).unwrap_err();
        assert_eq!(wrong("character B red"), "S:1: ..'B'..is no glyph of the table..");
        assert_eq!(wrong("character \u{3A9} red"), "S:1: ..'\u{3A9}' (U+03A9)..is no glyph of the table..");
        assert_eq!(wrong("\ncharacter 62 red"), "S:2: ..is no cell..");
        assert_eq!(wrong("character B purple"), "S:1: ..");
        let bare = super::screen(b"character A red", &Naming::default()).unwrap_err();
        assert_eq!(bare.said("S").to_string(), "S:1: ..is no cell..");
    }

    #[test]
    fn a_picture_is_as_large_as_its_cells_reach() {
        let size = |words: &[u16], h, v| {
            let picture = scene(words, Settings { h, v, ..DEFAULTS }).picture();
            (picture.width, picture.lines)
        };
        assert_eq!(size(&[], 0, 0), (1, 1));
        assert_eq!(size(&[], 9, 9), (1, 1));
        assert_eq!(size(&[14, 14], 0, 0), (24, 18));
        assert_eq!(size(&[14, 14], 2, 3), (32, 30));
        // A return to size 2, spacing 4, and none after it.
        assert_eq!(size(&[14, 997], 0, 0), (12, 18));
        assert_eq!(size(&[14, 997, 14], 0, 0), (24, 58));
        // Size 4, as wide as it goes: 252 and 48 for each.
        assert_eq!(size(&[[1004].as_slice(), &[14; 16]].concat(), 63, 0), (252 + 16 * 48, 90));
        assert_eq!(size(&[[1004].as_slice(), &[14; 17]].concat(), 63, 0), (1024, 90));
        // Rows of size 4 with 12 lines between them: the one at line 954 is cut, the one at 1038 is not seen.
        assert_eq!(size(&[[1007; 12].as_slice(), &[14]].concat(), 0, 0), (48, 1024));
        assert_eq!(size(&[[1007; 13].as_slice(), &[14]].concat(), 0, 0), (1, 1));
    }

    #[test]
    fn in_mode_1_a_picture_is_as_wide_as_its_shadows() {
        // The last dot of cell 0's first row is lit, and of cell 1's last row, which throws no shadow.
        let sized = |words: &[u16], settings: Settings, frame| {
            let mut scene = scene(words, settings);
            let mut rows = vec![0; FONT_ROWS];
            (rows[0], rows[18 + 17]) = (1, 1);
            scene.glyphs = pack::drawn(&rows);
            let picture = Scene { frame, ..scene }.picture();
            (picture.width, picture.lines)
        };
        let mode = |mode| Settings { mode, ..DEFAULTS };
        for other in [0, 2, 3] {
            assert_eq!(sized(&[14], mode(other), 0), (12, 18));
        }
        assert_eq!(sized(&[14], mode(1), 0), (13, 18));
        assert_eq!(sized(&[30], mode(1), 0), (12, 18));
        // Off, blinked out, in a lower row of another size, and a cell beside it that takes the shadow up.
        assert_eq!(sized(&[14], Settings { on: false, ..mode(1) }, 0), (13, 18));
        assert_eq!(sized(&[15], mode(1), 12), (13, 18));
        assert_eq!(sized(&[30, 1000, 14], mode(1), 0), (39, 18 + 54));
        assert_eq!(sized(&[14, 1016], mode(1), 0), (24, 18));
        assert_eq!(sized(&[14, 30, 992, 14], mode(1), 0), (24, 36));
        // At the last dot: 60 and 20 cells of 48 leave room for the shadow, 64 and 20 do not.
        let row = [[1004].as_slice(), &[14; 20]].concat();
        assert_eq!(sized(&row, Settings { h: 15, ..mode(1) }, 0), (1024, 90));
        assert_eq!(sized(&row, Settings { h: 14, ..mode(1) }, 0), (1020, 90));
        assert_eq!(sized(&row, Settings { h: 16, ..mode(1) }, 0), (1024, 90));
    }

    #[test]
    fn a_shadow_is_black_and_not_video() {
        let settings = Settings { mode: 1, ..DEFAULTS };
        let picture = Scene { width: Some(14), lines: Some(2), ..scene(&[14], settings) }.picture();
        assert_eq!(picture.text(), b"#          #  \n .          . \n");
        assert!(picture.ppm().ends_with(&[[128; 3], [0; 3], [128; 3]].concat()));
    }

    #[test]
    fn edges_are_those_of_every_cell() {
        let edges = |words: &[u16], h, v| edges(&kinds(words), &Settings { h, v, ..DEFAULTS });
        assert_eq!(edges(&[], 9, 9), (0, 0));
        assert_eq!(edges(&[997], 9, 9), (0, 0));
        assert_eq!(edges(&[14], 2, 3), (20, 30));
        assert_eq!(edges(&[14, END, 14], 0, 0), (12, 18));
        // The widest row is not the lowest.
        assert_eq!(edges(&[[1004].as_slice(), &[14; 17], &[992, 14]].concat(), 63, 0), (252 + 17 * 48, 90 + 18));
        // A row that starts below the last line counts, in both directions.
        assert_eq!(edges(&[[14].as_slice(), &[1007; 13], &[14, 14]].concat(), 0, 1), (96, 4 + 18 + 12 + 12 * 84 + 72));
    }

    #[test]
    fn the_worked_line_as_text_and_as_a_picture() {
        let settings = Settings { colour: 1, ..DEFAULTS };
        let picture = Scene { width: Some(14), lines: Some(19), ..scene(&[14], settings) }.picture();
        let text = String::from_utf8(picture.text()).unwrap();
        assert_eq!(text.lines().next(), Some("#::::::::::#  "));
        assert_eq!(text.lines().nth(18), Some("              "));
        let ppm = picture.ppm();
        assert!(ppm.starts_with(b"P6\n14 19\n255\n\xFF\xFF\xFF\0\0\xFF"));
        assert_eq!(ppm.len(), 13 + 3 * 14 * 19);
        assert!(ppm.ends_with(&[128; 42]));
    }
}
