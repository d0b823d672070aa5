//! From display words to dots: the words' kinds, the list of cells, the dot at one place, and the line.
//!
//! Where a character's dots come from is left open up to the line: `paint` takes them from a font's cells, and the
//! picture that a packed screen must show has them from the drawn glyphs.

use super::image::{self, ROWS};
use super::Refusal;
use crate::parts::{PaintOrder, Settings};

pub const WORDS: usize = 64;
pub const WIDEST: u32 = 1024;
pub const LAST_LINE: u32 = 1023;

#[derive(Clone, Copy, Debug, PartialEq, Eq)]
pub enum Kind {
    /// The code is that of the font's cell, 0 to 61, in a word; on a screen of drawn glyphs it is the glyph's number.
    Character {
        code: u16,
        colour: u16,
        blink: bool,
    },
    Space {
        background: u16,
    },
    /// The size is that of the row that follows, the spacing counts the lines before it.
    Return {
        size: u32,
        spacing: u32,
    },
    End,
}

/// What a word of ten bits says.
pub fn kind(word: u16) -> Kind {
    let code = word / 16;
    let attributes = word % 16;
    let colour = attributes / 2;
    let last_bit = attributes % 2 == 1;
    match code {
        62 => Kind::Return { size: u32::from(attributes / 4) + 1, spacing: 4 * u32::from(attributes % 4) },
        63 if last_bit => Kind::End,
        63 => Kind::Space { background: colour },
        _ => Kind::Character { code, colour, blink: last_bit },
    }
}

/// A character's cell, or a space's, which has no glyph.
#[derive(Clone, Copy, Debug, PartialEq, Eq)]
pub struct Cell {
    /// The first dot and the first line.
    pub left: u32,
    pub top: u32,
    pub size: u32,
    pub background: u16,
    pub glyph: Option<Glyph>,
}

#[derive(Clone, Copy, Debug, PartialEq, Eq)]
pub struct Glyph {
    pub code: u16,
    pub colour: u16,
    pub blink: bool,
}

impl Cell {
    fn has_line(&self, line: u32) -> bool {
        self.top <= line && line < self.top + 18 * self.size
    }

    fn covers(&self, dot: u32, line: u32) -> bool {
        self.left <= dot && dot < self.left + 12 * self.size && self.has_line(line)
    }
}

/// Every cell of the screen, in the order of the words.
pub fn cells(words: &[u16], settings: &Settings) -> Vec<Cell> {
    let kinds: Vec<Kind> = words.iter().map(|&word| kind(word)).collect();
    cells_of(&kinds, settings)
}

/// The same where the words are known by their kinds.
pub fn cells_of(kinds: &[Kind], settings: &Settings) -> Vec<Cell> {
    let mut cells = Vec::new();
    let mut left = 4 * settings.h;
    let mut top = 4 * settings.v;
    let mut size = 1;
    let mut background = settings.colour as u16;
    for &kind in kinds {
        let glyph = match kind {
            Kind::End => break,
            Kind::Return { size: next_size, spacing } => {
                // The row that ends here has its height even if it has no cell.
                top += 18 * size + spacing;
                left = 4 * settings.h;
                size = next_size;
                continue;
            }
            Kind::Space { background: from_here } => {
                background = from_here;
                None
            }
            Kind::Character { code, colour, blink } => Some(Glyph { code, colour, blink }),
        };
        cells.push(Cell { left, top, size, background, glyph });
        left += 12 * size;
    }
    cells
}

/// Whether blinking characters show in a frame.
pub fn blink_lit(ratio: u32, frequency: u32, frame: u32) -> bool {
    let divisor = match frequency {
        0 => 16,
        1 => 32,
        2 => 64,
        _ => 128,
    };
    let lit_frames = match ratio {
        0 => 3 * divisor / 4,
        1 => divisor / 2,
        _ => divisor / 4,
    };
    frame % divisor < lit_frames
}

/// Whether the character of a code has its dot lit in a row and a column.
pub type Dots<'a> = &'a dyn Fn(usize, usize, usize) -> bool;

/// Whether a cell has its font dot lit at a place; a space has none, and neither has a character that is blinked out.
fn lit(cell: &Cell, dots: Dots, shown: bool, dot: u32, line: u32) -> bool {
    let Some(glyph) = cell.glyph.filter(|glyph| shown || !glyph.blink) else {
        return false;
    };
    let column = (dot - cell.left) / cell.size;
    let row = (line - cell.top) / cell.size;
    dots(usize::from(glyph.code), row as usize, column as usize)
}

/// Whether a cell throws its shadow on a place: on one of its own lines, where one font dot to the left and one above
/// it is lit. Its right edge is no bound, so its last column throws the shadow beside the cell.
fn throws_shadow(cell: &Cell, dots: Dots, shown: bool, dot: u32, line: u32) -> bool {
    let (Some(left), Some(above)) = (dot.checked_sub(cell.size), line.checked_sub(cell.size)) else {
        return false;
    };
    cell.has_line(line) && cell.covers(left, above) && lit(cell, dots, shown, left, above)
}

/// The painted byte at one place of the screen.
fn dot_at(cells: &[Cell], dots: Dots, settings: &Settings, frame: u32, dot: u32, line: u32) -> u8 {
    const VIDEO: u8 = 0;
    const BLACK: u16 = 0;
    let painted = |colour: u16| 8 + colour as u8;

    if !settings.on {
        return VIDEO;
    }
    let shown = blink_lit(settings.ratio, settings.frequency, frame);
    let cell = cells.iter().find(|cell| cell.covers(dot, line));
    if let Some(Cell { glyph: Some(glyph), .. }) = cell.filter(|cell| lit(cell, dots, shown, dot, line)) {
        return painted(glyph.colour);
    }
    match settings.mode {
        1 if cells.iter().any(|cell| throws_shadow(cell, dots, shown, dot, line)) => painted(BLACK),
        0 | 1 => VIDEO,
        2 => cell.map_or(VIDEO, |cell| painted(cell.background)),
        _ => painted(cell.map_or(settings.colour as u16, |cell| cell.background)),
    }
}

/// The first dots of a line, as many as the room holds.
pub fn lay(cells: &[Cell], dots: Dots, settings: &Settings, frame: u32, line: u32, room: &mut [u8]) {
    for (dot, byte) in room.iter_mut().enumerate() {
        *byte = dot_at(cells, dots, settings, frame, dot as u32, line);
    }
}

/// The first refusal of the table that applies.
fn judge(order: &PaintOrder, room: usize) -> Result<(), Refusal> {
    let settings = &order.settings;
    let in_range = settings.mode <= 3
        && settings.colour <= 7
        && settings.h <= 63
        && settings.v <= 63
        && settings.ratio <= 3
        && settings.frequency <= 3;
    let refuse = |number, applies| if applies { Err(Refusal::plain(number)) } else { Ok(()) };
    refuse(1, !in_range)?;
    refuse(2, settings.ratio == 3)?;
    refuse(3, order.words.len() != WORDS || order.words.iter().any(|&word| word > 1023))?;
    image::judge_font(order.font)?;
    refuse(5, order.line > LAST_LINE || order.width > WIDEST)?;
    refuse(6, room < order.width as usize)
}

/// Paints one line into the first bytes of the room.
pub fn paint(order: &PaintOrder, dots: &mut [u8]) -> Result<(), Refusal> {
    judge(order, dots.len())?;
    let cells = cells(order.words, &order.settings);
    let of_font = |code, row, column| image::lit(order.font[ROWS * code + row], column);
    lay(&cells, &of_font, &order.settings, order.frame, order.line, &mut dots[..order.width as usize]);
    Ok(())
}

#[cfg(test)]
mod tests {
    use super::*;
    use crate::model::image::FONT_ROWS;

    fn settings(mode: u32) -> Settings {
        Settings { on: true, mode, colour: 1, h: 0, v: 0, ratio: 0, frequency: 0 }
    }

    fn screen(start: &[u16]) -> Vec<u16> {
        let mut words = start.to_vec();
        words.resize(WORDS, 0);
        words
    }

    /// A font in which every row of cell c is given by `row`.
    fn font(row: impl Fn(usize, usize) -> u16) -> Vec<u16> {
        (0..FONT_ROWS).map(|at| row(at / ROWS, at % ROWS)).collect()
    }

    fn painted(words: &[u16], font: &[u16], settings: Settings, frame: u32, line: u32, width: u32) -> Vec<u8> {
        let mut dots = vec![99; width as usize + 2];
        paint(&PaintOrder { words, font, settings, frame, line, width }, &mut dots).unwrap();
        assert_eq!(dots.split_off(width as usize), [99, 99]);
        dots
    }

    #[test]
    fn kinds_of_the_worked_words() {
        assert_eq!(kind(14), Kind::Character { code: 0, colour: 7, blink: false });
        assert_eq!(kind(997), Kind::Return { size: 2, spacing: 4 });
        assert_eq!(kind(1009), Kind::End);
        assert_eq!(kind(1016), Kind::Space { background: 4 });
        assert_eq!(kind(995), Kind::Return { size: 1, spacing: 12 });
        assert_eq!(kind(1007), Kind::Return { size: 4, spacing: 12 });
        assert_eq!(kind(61 * 16 + 3), Kind::Character { code: 61, colour: 1, blink: true });
        assert_eq!(kind(1023), Kind::End);
    }

    #[test]
    fn the_worked_line() {
        let words = screen(&[14, 1009]);
        let mut font = vec![0; FONT_ROWS];
        font[0] = 2049;
        let mut expected = vec![15, 9, 9, 9, 9, 9, 9, 9, 9, 9, 9, 15, 0, 0];
        assert_eq!(painted(&words, &font, settings(2), 0, 0, 14), expected);
        assert_eq!(painted(&words, &font, settings(2), 0, 18, 14), [0; 14]);
        expected[12..].fill(9);
        assert_eq!(painted(&words, &font, settings(3), 0, 0, 14), expected);
        assert_eq!(painted(&words, &font, settings(3), 0, 18, 14), [9; 14]);
        for mode in [0, 1] {
            assert_eq!(painted(&words, &font, settings(mode), 0, 0, 14), [15, 0, 0, 0, 0, 0, 0, 0, 0, 0, 0, 15, 0, 0]);
        }
        let off = Settings { on: false, ..settings(3) };
        assert_eq!(painted(&words, &font, off, 0, 0, 14), [0; 14]);
    }

    #[test]
    fn lit_and_unlit_frames() {
        assert!(blink_lit(0, 0, 11));
        assert!(!blink_lit(0, 0, 12));
        assert!(blink_lit(0, 0, 16));
        assert!(blink_lit(1, 1, 15));
        assert!(!blink_lit(1, 1, 16));
        assert!(blink_lit(2, 3, 31));
        assert!(!blink_lit(2, 3, 32));
        assert!(blink_lit(2, 3, 128));
        assert!(!blink_lit(0, 2, u32::MAX));
    }

    #[test]
    fn a_blinking_character_keeps_its_background() {
        let words = screen(&[1016, 15, 1009]);
        let font = font(|_, _| 4095);
        let mut expected = vec![12; 12];
        expected.extend([15; 12]);
        assert_eq!(painted(&words, &font, settings(2), 11, 0, 24), expected);
        assert_eq!(painted(&words, &font, settings(2), 12, 0, 24), [12; 24]);
        assert_eq!(painted(&words, &font, settings(0), 12, 0, 24), [0; 24]);
    }

    #[test]
    fn a_return_sizes_the_next_row() {
        // One cell of size 1, then one of size 2 four lines below it.
        let words = screen(&[14, 997, 14, 1009]);
        let font = font(|_, row| if row == 0 { 0b1000_0000_0001 } else { 0 });
        let places: Vec<_> = cells(&words, &settings(2)).iter().map(|cell| (cell.left, cell.top, cell.size)).collect();
        assert_eq!(places, [(0, 0, 1), (0, 22, 2)]);
        assert_eq!(painted(&words, &font, settings(0), 0, 17, 26), [0; 26]);
        assert_eq!(painted(&words, &font, settings(3), 0, 18, 26), [9; 26]);
        let mut expected = vec![15, 15];
        expected.extend([9; 20]);
        expected.extend([15, 15, 0, 0]);
        assert_eq!(painted(&words, &font, settings(2), 0, 22, 26), expected);
        assert_eq!(painted(&words, &font, settings(2), 0, 23, 26), expected);
        assert_eq!(painted(&words, &font, settings(2), 0, 24, 24), [9; 24]);
        assert_eq!(painted(&words, &font, settings(2), 0, 58, 24), [0; 24]);
    }

    #[test]
    fn an_empty_row_has_its_height() {
        let words = screen(&[995, 14, 1009]);
        assert_eq!(cells(&words, &settings(2))[0].top, 30);
        let words = screen(&[997, 999, 14, 1009]);
        assert_eq!(cells(&words, &settings(2))[0].top, 18 + 4 + 36 + 12);
    }

    #[test]
    fn a_space_colours_all_later_cells_across_rows() {
        let words = screen(&[14, 1016, 14, 992, 14, 1012, 1009]);
        let backgrounds: Vec<u16> = cells(&words, &settings(2)).iter().map(|cell| cell.background).collect();
        assert_eq!(backgrounds, [1, 4, 4, 4, 2]);
        let font = vec![0; FONT_ROWS];
        // Outside every cell mode 3 has the starting colour, never the last space's.
        let mut expected = vec![12; 12];
        expected.extend([10; 12]);
        expected.push(9);
        assert_eq!(painted(&words, &font, settings(3), 0, 20, 25), expected);
    }

    #[test]
    fn the_first_cell_is_moved_by_fours() {
        let place = Settings { h: 63, v: 63, ..settings(2) };
        let words = screen(&[14, 1009]);
        let cell = cells(&words, &place)[0];
        assert_eq!((cell.left, cell.top), (252, 252));
        let font = font(|_, _| 4095);
        let line = painted(&words, &font, Settings { mode: 3, ..place }, 0, 252, 265);
        assert!(line[..252].iter().all(|&dot| dot == 9));
        assert!(line[252..264].iter().all(|&dot| dot == 15));
        assert_eq!(line[264], 9);
    }

    #[test]
    fn all_64_words_are_read_and_dots_past_the_width_are_cut() {
        let words = vec![14; 64];
        let font = font(|_, _| 4095);
        assert_eq!(painted(&words, &font, settings(0), 0, 0, 1024), {
            let mut line = vec![15; 768];
            line.resize(1024, 0);
            line
        });
        assert_eq!(painted(&words, &font, settings(0), 0, 0, 5), [15; 5]);
        let big: Vec<u16> = [1004].into_iter().chain([14; 63]).collect();
        assert_eq!(painted(&big, &font, settings(0), 0, 18, 1024), [15; 1024]);
    }

    /// A font with these dots lit, each by cell, row and column.
    fn font_of(lit: &[(usize, usize, usize)]) -> Vec<u16> {
        font(|cell, row| (0..12).fold(0, |bits, column| 2 * bits + u16::from(lit.contains(&(cell, row, column)))))
    }

    /// Some lines of a screen in mode 1: `.` is video, `o` black and `#` any other colour.
    fn with_shadow(words: &[u16], font: &[u16], frame: u32, lines: &[u32], width: u32) -> Vec<String> {
        let seen = |byte| match byte {
            0 => '.',
            8 => 'o',
            _ => '#',
        };
        let words = screen(words);
        let line = |&line| painted(&words, font, settings(1), frame, line, width).into_iter().map(seen).collect();
        lines.iter().map(line).collect()
    }

    #[test]
    fn a_dot_throws_its_shadow_on_the_dot_right_of_it_and_below() {
        let font = font_of(&[(0, 3, 1)]);
        assert_eq!(with_shadow(&[14, 1009], &font, 0, &[2, 3, 4, 5], 5), [".....", ".#...", "..o..", "....."]);
    }

    #[test]
    fn the_shadow_grows_with_the_size() {
        // Size 2: a block of two by two, as the dot is, with only a corner in common.
        let font = font_of(&[(0, 1, 1)]);
        let small = ["........", "........", "..##....", "..##....", "....oo..", "....oo..", "........"];
        assert_eq!(with_shadow(&[996, 14, 1009], &font, 0, &[18, 19, 20, 21, 22, 23, 24], 8), small);
        let large = with_shadow(&[1004, 14, 1009], &font, 0, &[22, 25, 26, 29, 30], 13);
        assert_eq!(large, ["....####.....", "....####.....", "........oooo.", "........oooo.", "............."]);
        let third = with_shadow(&[1000, 14, 1009], &font, 0, &[21, 23, 24, 26, 27], 10);
        assert_eq!(third, ["...###....", "...###....", "......ooo.", "......ooo.", ".........."]);
    }

    #[test]
    fn a_worked_line_with_a_shadow() {
        // The worked font row at size 2: a character, a space and a character; the lines are of its font rows 0 to 2.
        let words = screen(&[996, 14, 1016, 14, 1009]);
        let mut font = vec![0; FONT_ROWS];
        font[0] = 2049;
        let line = |line| painted(&words, &font, settings(1), 0, line, 76);
        let of = |byte: u8, places: [u32; 4]| -> Vec<u8> {
            (0..76).map(|dot| if places.contains(&(dot / 2)) { byte } else { 0 }).collect()
        };
        for (row, due) in [of(15, [0, 11, 24, 35]), of(8, [1, 12, 25, 36]), vec![0; 76]].into_iter().enumerate() {
            assert_eq!(line(18 + 2 * row as u32), due);
            assert_eq!(line(19 + 2 * row as u32), due);
        }
    }

    #[test]
    fn a_lit_dot_is_not_in_the_shadow() {
        // A bar of two rows and two columns, in black too.
        let font = font_of(&[(0, 0, 0), (0, 0, 1), (0, 1, 0), (0, 1, 1)]);
        assert_eq!(with_shadow(&[14, 1009], &font, 0, &[0, 1, 2, 3], 4), ["##..", "##o.", ".oo.", "...."]);
        assert_eq!(with_shadow(&[0, 1009], &font, 0, &[0, 1, 2, 3], 4), ["oo..", "ooo.", ".oo.", "...."]);
        // Of the next cell as well.
        let font = font_of(&[(0, 0, 11), (1, 1, 0)]);
        assert_eq!(
            with_shadow(&[14, 30, 1009], &font, 0, &[0, 1, 2], 14),
            ["...........#..", "............#.", ".............o"]
        );
    }

    #[test]
    fn the_shadow_runs_on_into_the_next_cell_whatever_it_is() {
        let font = font_of(&[(0, 4, 11), (1, 9, 5)]);
        let line = "............o...";
        // A character, a space of any colour, a blinking character in and out of its lit part, and nothing at all.
        for next in [30, 1008, 1016, 1022, 31, 1009, 992] {
            assert_eq!(with_shadow(&[14, next, 1009], &font, 11, &[5], 16), [line], "{next}");
            assert_eq!(with_shadow(&[14, next, 1009], &font, 12, &[5], 16), [line], "{next}");
        }
    }

    #[test]
    fn the_shadow_runs_on_past_the_last_cell_and_one_font_dot_only() {
        let font = font_of(&[(0, 0, 11)]);
        // Rows of one cell that a return or an end closes, one of each size.
        let words = [14, 996, 14, 1000, 14, 1004, 14, 1009];
        for (size, top) in [(1, 0), (2, 18), (3, 54), (4, 108)] {
            let lines: Vec<u32> = (0..18).map(|row| top + row * size + size - 1).collect();
            let seen = with_shadow(&words, &font, 0, &lines, 24 * size);
            let of_size = |dots: &str| dots.chars().flat_map(|dot| vec![dot; size as usize]).collect::<String>();
            assert_eq!(seen[0], of_size("...........#............"));
            assert_eq!(seen[1], of_size("............o..........."));
            assert!(seen[2..].iter().all(|line| *line == of_size("........................")));
        }
        // A row that ends with word 63.
        let all = with_shadow(&[14; 64], &font, 0, &[1], 780);
        assert_eq!(all, [".".repeat(12) + &"o...........".repeat(64)]);
    }

    #[test]
    fn only_a_character_that_is_shown_throws_a_shadow() {
        let font = font_of(&[(0, 4, 3), (0, 4, 11)]);
        let lines = [4, 5];
        // Lit in frame 11 and out in frame 12.
        let both = ["...#.......#..", "....o.......o."];
        assert_eq!(with_shadow(&[15, 1008, 1009], &font, 11, &lines, 14), both);
        assert_eq!(with_shadow(&[15, 1008, 1009], &font, 12, &lines, 14), ["..............", ".............."]);
        assert_eq!(with_shadow(&[14, 1008, 1009], &font, 12, &lines, 14), both);
        // The one beside it is not concerned.
        let second = ["...............#.......#..", "................o.......o."];
        assert_eq!(with_shadow(&[15, 14, 1009], &font, 12, &lines, 26), second);
        let first = ["...#.......#..............", "....o.......o............."];
        assert_eq!(with_shadow(&[14, 15, 1009], &font, 12, &lines, 26), first);
        // A space has no dots, whatever the font.
        let full = vec![4095; FONT_ROWS];
        let middle = "............############o.............";
        assert_eq!(with_shadow(&[1016, 14, 1008, 1009], &full, 0, &[1], 38), [middle]);
    }

    #[test]
    fn a_cells_first_line_has_no_shadow_and_none_runs_below_its_last() {
        // Two rows of cells without a gap between them, lit all over but for the first column.
        let font = font(|_, _| 0x7FF);
        let picture = with_shadow(&[14, 14, 992, 14, 1009], &font, 0, &[0, 1, 17, 18, 19, 35, 36], 26);
        let two = ".###########o###########o.";
        let one = ".###########o.............";
        let first = ".###########.###########..";
        let under_it = ".###########..............";
        assert_eq!(picture, [first, two, two, under_it, one, one, ".........................."]);
        // The last row by itself throws none at all.
        let font = font_of(&[(0, 17, 0), (0, 17, 5), (0, 17, 11)]);
        let picture = with_shadow(&[14, 992, 14, 1009], &font, 0, &[16, 17, 18, 19, 34, 35, 36], 13);
        let (lit, none) = ("#....#.....#.", ".............");
        assert_eq!(picture, [none, lit, none, none, none, lit, none]);
    }

    #[test]
    fn the_shadow_of_a_rows_last_cell_is_not_carried_to_the_next_row() {
        // Every row but the last is lit in the last column.
        let font = font(|_, row| u16::from(row < 17));
        for turn in [992, 993, 996, 997, 1007] {
            let words = [14, 14, turn, 1016, 30, 1009];
            let next = cells(&screen(&words), &settings(1))[2];
            for line in next.top..next.top + 18 * next.size {
                let seen = &with_shadow(&words, &font, 0, &[line], 12 * next.size)[0];
                assert!(seen.chars().all(|dot| dot == '.'), "{turn}, line {line}: {seen}");
            }
        }
    }

    #[test]
    fn the_width_cuts_through_the_shadow() {
        let font = font_of(&[(0, 0, 11)]);
        let whole = ".".repeat(48) + "oooo" + &".".repeat(8);
        for width in 45..60 {
            assert_eq!(with_shadow(&[1004, 14, 1009], &font, 0, &[22], width)[0], whole[..width as usize]);
        }
    }

    #[test]
    fn the_other_modes_have_no_shadow_and_neither_has_a_display_that_is_off() {
        let words = screen(&[14, 1016, 1009]);
        let font = font_of(&[(0, 0, 2), (0, 0, 11)]);
        assert_eq!(painted(&words, &font, settings(0), 0, 1, 26), [0; 26]);
        let mut boxes = vec![9; 12];
        boxes.extend([12; 12]);
        boxes.extend([0; 2]);
        assert_eq!(painted(&words, &font, settings(2), 0, 1, 26), boxes);
        boxes[24..].fill(9);
        assert_eq!(painted(&words, &font, settings(3), 0, 1, 26), boxes);
        assert_eq!(painted(&words, &font, Settings { on: false, ..settings(1) }, 0, 1, 26), [0; 26]);
        let mut shadow = [0; 26];
        (shadow[3], shadow[12]) = (8, 8);
        assert_eq!(painted(&words, &font, settings(1), 0, 1, 26), shadow);
    }

    #[test]
    fn no_two_cells_cover_a_dot() {
        let words = screen(&[14, 1016, 1007, 14, 14, 993, 1008, 14, 1005, 1009]);
        let list = cells(&words, &settings(2));
        for line in 0..300 {
            for dot in 0..300 {
                assert!(list.iter().filter(|cell| cell.covers(dot, line)).count() <= 1);
            }
        }
    }

    #[test]
    fn refusals_in_their_order() {
        let good_words = vec![0; WORDS];
        let bad_words = vec![1024; WORDS];
        let good_font = vec![0; FONT_ROWS];
        let bad_font = vec![4096; FONT_ROWS];
        let short_font = vec![4096; FONT_ROWS - 1];
        let bad_settings = Settings { h: 64, ..settings(0) };
        let off = Settings { on: false, ratio: 3, ..settings(0) };
        let refused = |settings, words: &[u16], font: &[u16], line, width, room: usize| {
            let mut dots = vec![99; room];
            let outcome = paint(&PaintOrder { words, font, settings, frame: 0, line, width }, &mut dots);
            assert!(outcome.is_ok() || dots.iter().all(|&dot| dot == 99));
            outcome.err().map_or(0, |refusal| {
                assert_eq!(refusal.place, 0);
                refusal.number
            })
        };
        assert_eq!(refused(bad_settings, &bad_words, &short_font, 1024, 1025, 0), 1);
        assert_eq!(refused(Settings { ratio: 3, ..bad_settings }, &bad_words, &short_font, 1024, 1025, 0), 1);
        assert_eq!(refused(off, &bad_words, &short_font, 1024, 1025, 0), 2);
        assert_eq!(refused(off, &bad_words, &bad_font, 1024, 1025, 0), 2);
        assert_eq!(refused(settings(0), &bad_words, &short_font, 1024, 1025, 0), 3);
        assert_eq!(refused(settings(0), &bad_words, &bad_font, 1024, 1025, 0), 3);
        assert_eq!(refused(settings(0), &good_words[1..], &bad_font, 1024, 1025, 0), 3);
        assert_eq!(refused(settings(0), &good_words, &short_font, 1024, 1025, 0), 4);
        assert_eq!(refused(settings(0), &good_words, &good_font[1..], 1024, 1025, 0), 4);
        assert_eq!(refused(settings(0), &good_words, &bad_font, 1024, 1025, 0), 18);
        assert_eq!(refused(settings(0), &good_words, &bad_font, 0, 1025, 2000), 18);
        assert_eq!(refused(settings(0), &good_words, &bad_font, 0, 1, 0), 18);
        assert_eq!(refused(settings(0), &good_words, &good_font, 0, 1025, 0), 5);
        assert_eq!(refused(settings(0), &good_words, &good_font, 1024, 0, 0), 5);
        assert_eq!(refused(settings(0), &good_words, &good_font, 1023, 0, 0), 0);
        assert_eq!(refused(settings(0), &good_words, &good_font, 1023, 1024, 1024), 0);
        assert_eq!(refused(settings(0), &good_words, &good_font, 1023, 1024, 1023), 6);
        // Off or not, and whether or not anything blinks: the values are judged all the same.
        let plainly_off = Settings { on: false, ..settings(0) };
        assert_eq!(refused(plainly_off, &good_words, &short_font, 0, 0, 0), 4);
        assert_eq!(refused(plainly_off, &good_words, &bad_font, 0, 0, 0), 18);
        assert_eq!(refused(plainly_off, &good_words, &good_font, 0, 1, 0), 6);
        assert_eq!(refused(plainly_off, &good_words, &good_font, 0, 0, 0), 0);
        for bad in [
            Settings { mode: 4, ..settings(0) },
            Settings { colour: 8, ..settings(0) },
            Settings { v: 64, ..settings(0) },
            Settings { ratio: 4, ..settings(0) },
            Settings { frequency: 4, ..settings(0) },
            Settings { on: false, frequency: u32::MAX, ..settings(0) },
        ] {
            assert_eq!(refused(bad, &good_words, &good_font, 0, 0, 0), 1);
        }
    }

    #[test]
    fn a_row_too_large_is_told_by_its_index_whether_or_not_the_line_shows_it() {
        let words = screen(&[1009]);
        for row in [0, 1, 17, 18, 599, 1114, 1115] {
            let mut font = vec![0; FONT_ROWS];
            (font[row], font[FONT_ROWS - 1]) = (4096, 65_535);
            for line in [0, 17, 1023, 1024] {
                let order = PaintOrder { words: &words, font: &font, settings: settings(2), frame: 0, line, width: 3 };
                let mut dots = [99; 2];
                assert_eq!(paint(&order, &mut dots), Err(Refusal { number: 18, place: row as u32 }));
                assert_eq!(dots, [99; 2]);
            }
        }
    }
}
