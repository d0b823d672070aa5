//! Packing drawn glyphs into a font: by their dots, each glyph beside every other.

use super::display::{self, Kind};
use super::image::{lit, CELLS, COLUMNS, FONT_ROWS, ROWS};
use super::Refusal;
use crate::parts::Settings;
use std::array::from_fn;

pub const MOST_GLYPHS: usize = 256;

/// A glyph as it was drawn: whether the dot is lit, by row and column.
#[derive(Clone, Copy, Debug, PartialEq, Eq)]
pub struct DrawnGlyph {
    dots: [[bool; COLUMNS]; ROWS],
}

impl DrawnGlyph {
    fn of_rows(rows: &[u16]) -> Self {
        DrawnGlyph { dots: from_fn(|row| from_fn(|column| lit(rows[row], column))) }
    }

    /// A row as a font has it.
    fn font_row(&self, row: usize) -> u16 {
        self.dots[row].iter().fold(0, |bits, &lit| 2 * bits + u16::from(lit))
    }
}

/// The glyphs that rows hold, 18 for each.
pub fn drawn(rows: &[u16]) -> Vec<DrawnGlyph> {
    rows.chunks_exact(ROWS).map(DrawnGlyph::of_rows).collect()
}

/// For each glyph the first of all with the same 216 dots; that may be the glyph itself.
fn first_alike(glyphs: &[DrawnGlyph]) -> Vec<usize> {
    let first = |glyph| glyphs.iter().position(|other| other == glyph);
    glyphs.iter().map(|glyph| first(glyph).expect("a glyph is like itself")).collect()
}

/// The glyphs in which a pattern appears for the first time: the n-th of them has the pattern of cell n.
fn first_of_each(first_alike: &[usize]) -> Vec<usize> {
    (0..first_alike.len()).filter(|&glyph| first_alike[glyph] == glyph).collect()
}

/// Packs into the first rows of the font and the first places of the cells; the value is how many cells are used.
pub fn pack(rows: &[u16], font: &mut [u16], cells: &mut [u8]) -> Result<u32, Refusal> {
    if rows.len() % ROWS != 0 || rows.len() / ROWS > MOST_GLYPHS || rows.iter().any(|&row| row > 4095) {
        return Err(Refusal::plain(16));
    }
    let glyphs = drawn(rows);
    let first_alike = first_alike(&glyphs);
    let patterns = first_of_each(&first_alike);
    if patterns.len() > CELLS {
        return Err(Refusal::plain(17));
    }
    if font.len() < FONT_ROWS || cells.len() < glyphs.len() {
        return Err(Refusal::plain(6));
    }
    for cell in 0..CELLS {
        for row in 0..ROWS {
            font[ROWS * cell + row] = patterns.get(cell).map_or(0, |&glyph| glyphs[glyph].font_row(row));
        }
    }
    for glyph in 0..glyphs.len() {
        let cell = patterns.iter().position(|&first| first == first_alike[glyph]);
        cells[glyph] = cell.expect("a glyph's pattern is among them") as u8;
    }
    Ok(patterns.len() as u32)
}

/// The first dots of a line of a screen of glyphs, from their drawings: no font comes into it.
pub fn picture(screen: &[Kind], glyphs: &[DrawnGlyph], settings: &Settings, frame: u32, line: u32, room: &mut [u8]) {
    let cells = display::cells_of(screen, settings);
    display::lay(&cells, &|glyph, row, column| glyphs[glyph].dots[row][column], settings, frame, line, room);
}

#[cfg(test)]
mod tests {
    use super::*;

    const UNTOUCHED: (u16, u8) = (0xBEEF, 0xA5);

    /// Packs into rooms of a length each, and looks at them after a refusal.
    fn packed_into(rows: &[u16], font: usize, cells: usize) -> Result<(u32, Vec<u16>, Vec<u8>), u32> {
        let (mut font, mut cells) = (vec![UNTOUCHED.0; font], vec![UNTOUCHED.1; cells]);
        match pack(rows, &mut font, &mut cells) {
            Ok(used) => Ok((used, font, cells)),
            Err(refusal) => {
                assert_eq!(refusal.place, 0);
                assert!(font.iter().all(|&row| row == UNTOUCHED.0) && cells.iter().all(|&cell| cell == UNTOUCHED.1));
                Err(refusal.number)
            }
        }
    }

    fn packed(rows: &[u16]) -> Result<(u32, Vec<u16>, Vec<u8>), u32> {
        packed_into(rows, FONT_ROWS, rows.len() / ROWS)
    }

    /// Glyphs that have the given number in their last row and are empty above it.
    fn numbered(numbers: impl IntoIterator<Item = u16>) -> Vec<u16> {
        numbers
            .into_iter()
            .flat_map(|number| (0..ROWS).map(move |row| if row == ROWS - 1 { number } else { 0 }))
            .collect()
    }

    #[test]
    fn an_empty_glyph_is_a_pattern_like_any_other() {
        // B1: it takes a cell of its own, and not one of those left over.
        let (used, font, cells) = packed(&numbered([0, 2049])).unwrap();
        assert_eq!((used, cells), (2, vec![0, 1]));
        assert_eq!(font[..36], numbered([0, 2049]));
        assert!(font[36..].iter().all(|&row| row == 0));
        let (used, font, cells) = packed(&numbered([7, 0, 7, 0, 9])).unwrap();
        assert_eq!((used, cells), (3, vec![0, 1, 0, 1, 2]));
        assert_eq!(font[..54], numbered([7, 0, 9]));
        assert_eq!(packed(&numbered([0, 0])).unwrap().2, [0, 0]);
    }

    #[test]
    fn no_glyphs_make_an_empty_font() {
        // B1: accepted; the room for the cells may be empty too.
        assert_eq!(packed(&[]).unwrap(), (0, vec![0; FONT_ROWS], vec![]));
        assert_eq!(packed_into(&[], FONT_ROWS, 2).unwrap().2, [UNTOUCHED.1; 2]);
    }

    #[test]
    fn the_value_is_the_number_of_patterns() {
        // B2: the cells used are as many as the patterns, however often each is drawn.
        assert_eq!(packed(&numbered([5])).unwrap().0, 1);
        assert_eq!(packed(&numbered([5; 256])).unwrap(), {
            let mut font = numbered([5]);
            font.resize(FONT_ROWS, 0);
            (1, font, vec![0; 256])
        });
        assert_eq!(packed(&numbered((0..256).map(|glyph| glyph % 62))).unwrap().0, 62);
    }

    #[test]
    fn cells_are_numbered_by_first_appearance() {
        let (_, font, cells) = packed(&numbered([30, 10, 30, 20, 10, 40, 20])).unwrap();
        assert_eq!(cells, [0, 1, 0, 2, 1, 3, 2]);
        assert_eq!(font[..72], numbered([30, 10, 20, 40]));
    }

    #[test]
    fn rows_keep_their_order_and_dots_their_columns() {
        let glyph: Vec<u16> = (0..ROWS as u16).map(|row| 0x800 >> (row % 12) | row).collect();
        let (_, font, _) = packed(&glyph).unwrap();
        assert_eq!(font[..ROWS], glyph);
        let dots = drawn(&[&[0x800, 1][..], &[0; 16]].concat())[0].dots;
        assert!(dots[0][0] && !dots[0][11] && dots[1][11] && !dots[1][0]);
        assert_eq!(dots.iter().flatten().filter(|&&lit| lit).count(), 2);
    }

    #[test]
    fn each_of_the_216_dots_counts() {
        let base: Vec<u16> = (0..ROWS as u16).map(|row| row * 217 % 4096).collect();
        for row in 0..ROWS {
            for column in 0..COLUMNS {
                let mut other = base.clone();
                other[row] ^= 1 << column;
                let (used, font, cells) = packed(&[&base[..], &other, &base, &other].concat()).unwrap();
                assert_eq!((used, cells), (2, vec![0, 1, 0, 1]));
                assert_eq!((&font[..ROWS], &font[ROWS..2 * ROWS]), (&base[..], &other[..]));
            }
        }
    }

    #[test]
    fn there_are_cells_for_62_patterns() {
        // B4: whatever other parts come to hold, the packer has 62 cells.
        for glyphs in [62, 200, 256] {
            let (used, font, cells) = packed(&numbered((0..glyphs).map(|glyph| glyph % 62))).unwrap();
            assert_eq!(used, 62);
            assert_eq!(font, numbered(0..62));
            assert!(cells.iter().enumerate().all(|(glyph, &cell)| usize::from(cell) == glyph % 62));
        }
        for patterns in [63, 64, 256] {
            assert_eq!(packed(&numbered((0..256).map(|glyph| glyph % patterns))), Err(17));
        }
        assert_eq!(packed(&numbered((0..256).map(|glyph| (glyph / 4).min(61)))).unwrap().0, 62);
        assert_eq!(packed(&numbered((0..256).map(|glyph| if glyph == 255 { 62 } else { glyph % 62 }))), Err(17));
    }

    #[test]
    fn what_lies_past_both_stays() {
        let (used, font, cells) = packed_into(&numbered([1, 2, 1]), FONT_ROWS + 3, 5).unwrap();
        assert_eq!((used, &cells[..]), (2, &[0, 1, 0, UNTOUCHED.1, UNTOUCHED.1][..]));
        assert_eq!(font[FONT_ROWS..], [UNTOUCHED.0; 3]);
        assert!(font[36..FONT_ROWS].iter().all(|&row| row == 0));
    }

    #[test]
    fn each_refusal_and_the_last_number_that_is_taken() {
        let glyphs = numbered([1, 2, 3]);
        for length in 0..=glyphs.len() {
            let due = if length % 18 == 0 { Ok(length as u32 / 18) } else { Err(16) };
            assert_eq!(packed_into(&glyphs[..length], FONT_ROWS, 3).map(|(used, ..)| used), due);
        }
        assert_eq!(packed(&numbered([0; 256])).unwrap().2, [0; 256]);
        assert_eq!(packed(&numbered([0; 257])), Err(16));
        assert_eq!(packed(&[0; 256 * 18 + 1]), Err(16));
        for place in [0, 17, 18, 53] {
            let mut rows = glyphs.clone();
            rows[place] = 4095;
            assert!(packed(&rows).is_ok());
            for row in [4096, 0x8000, 0xFFFF] {
                rows[place] = row;
                assert_eq!(packed(&rows), Err(16));
            }
        }
        assert_eq!(packed(&numbered(0..63)), Err(17));
        assert_eq!(packed_into(&glyphs, FONT_ROWS - 1, 3), Err(6));
        assert_eq!(packed_into(&glyphs, 0, 3), Err(6));
        assert_eq!(packed_into(&glyphs, FONT_ROWS, 2), Err(6));
        assert_eq!(packed_into(&glyphs, FONT_ROWS, 0), Err(6));
        assert_eq!(packed_into(&[], FONT_ROWS - 1, 0), Err(6));
    }

    #[test]
    fn of_two_refusals_16_comes_before_17_and_17_before_6() {
        let many = numbered(0..63);
        let short = FONT_ROWS - 1;
        assert_eq!(packed_into(&many, short, 62), Err(17));
        assert_eq!(packed_into(&many, FONT_ROWS, 62), Err(17));
        assert_eq!(packed_into(&many, 0, 0), Err(17));
        let mut high = many.clone();
        high[62 * 18] = 4096;
        let wrong: [&[u16]; 4] = [&many[..many.len() - 1], &[&many[..], &[0]].concat(), &numbered(0..257), &high];
        for rows in wrong {
            assert_eq!(packed_into(rows, FONT_ROWS, 300), Err(16));
            assert_eq!(packed_into(rows, short, 300), Err(16));
            assert_eq!(packed_into(rows, FONT_ROWS, 0), Err(16));
            assert_eq!(packed_into(rows, 0, 0), Err(16));
        }
        assert_eq!(packed_into(&[0; 17], short, 0), Err(16));
        assert_eq!(packed_into(&numbered([0; 257]), short, 256), Err(16));
        assert_eq!(packed_into(&numbered([4096]), short, 0), Err(16));
    }

    #[test]
    fn a_packed_screen_shows_what_its_glyphs_show() {
        // B3: the glyphs' numbers go beyond a code's six bits; mode 1 as well.
        let rows = numbered((0..256).map(|glyph| 40 + glyph / 5));
        let (_, font, cells) = packed(&rows).unwrap();
        let glyphs = drawn(&rows);
        let names = [255, 0, 4, 5, 61, 62, 63, 64, 200];
        let screen: Vec<Kind> = names.iter().map(|&code| Kind::Character { code, colour: 6, blink: false }).collect();
        let mut words: Vec<u16> = names.iter().map(|&glyph| 16 * u16::from(cells[usize::from(glyph)]) + 12).collect();
        words.resize(64, 1009);
        for mode in 0..4 {
            let settings = Settings { on: true, mode, colour: 1, h: 0, v: 0, ratio: 0, frequency: 0 };
            let (mut made, mut painted) = ([0; 120], [0; 120]);
            picture(&screen, &glyphs, &settings, 0, 17, &mut made);
            let order =
                crate::parts::PaintOrder { words: &words, font: &font, settings, frame: 0, line: 17, width: 120 };
            display::paint(&order, &mut painted).unwrap();
            assert_eq!(made, painted);
            // The first character is glyph 255, whose last row is 91: 0000 0101 1011.
            assert_eq!(
                made[..12].iter().map(|&dot| u8::from(dot == 14)).collect::<Vec<_>>(),
                [0, 0, 0, 0, 0, 1, 0, 1, 1, 0, 1, 1]
            );
        }
    }

    #[test]
    fn a_screen_of_glyphs_has_the_shadow_of_its_drawings() {
        // Glyph 200 has the last dot of its first row lit, and 201 the first dot of its second.
        let mut rows = vec![0; 256 * ROWS];
        rows[200 * ROWS] = 1;
        rows[201 * ROWS + 1] = 0x800;
        let glyphs = drawn(&rows);
        let named = |code, blink| Kind::Character { code, colour: 7, blink };
        let line = |screen: &[Kind], mode, line| {
            let settings = Settings { on: true, mode, colour: 1, h: 0, v: 0, ratio: 0, frequency: 0 };
            let mut dots = [99; 26];
            // A frame in which blinking characters are out.
            picture(screen, &glyphs, &settings, 12, line, &mut dots);
            dots
        };
        let lit_at = |place, byte| from_fn(|dot| if dot == place { byte } else { 0 });
        let screen = [named(200, false), named(0, false), Kind::End];
        assert_eq!(line(&screen, 1, 0), lit_at(11, 15));
        assert_eq!(line(&screen, 1, 1), lit_at(12, 8));
        assert_eq!(line(&screen, 0, 1), [0; 26]);
        let space = Kind::Space { background: 4 };
        assert_eq!(line(&[named(0, false), named(200, false), Kind::End], 1, 1), lit_at(24, 8));
        assert_eq!(line(&[named(200, false), space, Kind::End], 1, 1), lit_at(12, 8));
        assert_eq!(line(&[named(200, false), named(201, true), Kind::End], 1, 1), lit_at(12, 8));
        assert_eq!(line(&[named(200, false), named(201, false), Kind::End], 1, 1), lit_at(12, 15));
        assert_eq!(line(&[named(200, true), space, Kind::End], 1, 1), [0; 26]);
    }
}
