//! The character image and the font it carries.

use super::Refusal;

pub const CELLS: usize = 62;
pub const ROWS: usize = 18;
pub const COLUMNS: usize = 12;
pub const FONT_ROWS: usize = CELLS * ROWS;
/// The largest row: all twelve dots lit.
const MOST_ROW: u16 = 4095;
pub const IMAGE_BYTES: usize = 8192;

/// Where the high halves of the rows begin.
const HIGH_HALF: usize = 4096;
/// The bytes set aside for one cell in each half.
const STRIDE: usize = 32;

/// What the image has at one address.
#[derive(Clone, Copy, Debug, PartialEq, Eq)]
enum Use {
    /// The low eight bits of a font row.
    Low { row: usize },
    /// The high four bits of a font row, below four set bits.
    High { row: usize },
    /// Nothing: all bits set.
    Nothing,
}

fn use_of(address: usize) -> Use {
    let within_half = address % HIGH_HALF;
    let cell = within_half / STRIDE;
    let line = within_half % STRIDE;
    if cell >= CELLS || line >= ROWS {
        return Use::Nothing;
    }
    let row = ROWS * cell + line;
    if address < HIGH_HALF {
        Use::Low { row }
    } else {
        Use::High { row }
    }
}

/// Whether this is a font that a painter or the writer takes: first its length, then its rows from the first on.
pub fn judge_font(font: &[u16]) -> Result<(), Refusal> {
    if font.len() != FONT_ROWS {
        return Err(Refusal::plain(4));
    }
    match font.iter().position(|&row| row > MOST_ROW) {
        Some(row) => Err(Refusal { number: 18, place: row as u32 }),
        None => Ok(()),
    }
}

/// Whether a row has its dot lit in a column; bit 11 is the leftmost.
pub fn lit(row: u16, column: usize) -> bool {
    row >> (COLUMNS - 1 - column) & 1 == 1
}

/// The image of a font.
pub fn of_font(font: &[u16]) -> Vec<u8> {
    (0..IMAGE_BYTES)
        .map(|address| match use_of(address) {
            Use::Low { row } => (font[row] % 256) as u8,
            Use::High { row } => 0xF0 + (font[row] / 256) as u8,
            Use::Nothing => 0xFF,
        })
        .collect()
}

pub fn to_font(image: &[u8], font: &mut [u16]) -> Result<(), Refusal> {
    if image.len() != IMAGE_BYTES || font.len() != FONT_ROWS {
        return Err(Refusal::plain(13));
    }
    for (address, &byte) in image.iter().enumerate() {
        let due = match use_of(address) {
            Use::Low { .. } => 0x00,
            Use::High { .. } => 0xF0,
            Use::Nothing => 0xFF,
        };
        if byte & due != due {
            return Err(Refusal { number: 13, place: address as u32 });
        }
    }
    for cell in 0..CELLS {
        for line in 0..ROWS {
            let low = image[STRIDE * cell + line];
            let high = image[HIGH_HALF + STRIDE * cell + line] & 0x0F;
            font[ROWS * cell + line] = 256 * u16::from(high) + u16::from(low);
        }
    }
    Ok(())
}

#[cfg(test)]
mod tests {
    use super::*;
    use crate::random::Random;

    fn random_font(random: &mut Random) -> Vec<u16> {
        (0..FONT_ROWS).map(|_| random.word() % 4096).collect()
    }

    #[test]
    fn rows_go_where_the_paper_puts_them() {
        let mut font = vec![0; FONT_ROWS];
        font[0] = 2049;
        font[ROWS * 61 + 17] = 0xABC;
        let image = of_font(&font);
        assert_eq!((image[0], image[4096]), (0x01, 0xF8));
        assert_eq!((image[32 * 61 + 17], image[4096 + 32 * 61 + 17]), (0xBC, 0xFA));
        assert_eq!((image[17], image[18], image[31], image[32]), (0x00, 0xFF, 0xFF, 0x00));
        assert_eq!((image[4096 + 17], image[4096 + 18]), (0xF0, 0xFF));
        assert!(image[32 * 62..4096].iter().chain(&image[4096 + 32 * 62..]).all(|&byte| byte == 0xFF));
    }

    #[test]
    fn an_image_gives_its_font_again() {
        let mut random = Random::new(1);
        for _ in 0..20 {
            let font = random_font(&mut random);
            let mut again = vec![0xFFFF; FONT_ROWS];
            assert_eq!(to_font(&of_font(&font), &mut again), Ok(()));
            assert_eq!(again, font);
        }
    }

    #[test]
    fn the_first_row_too_large_is_named_by_its_index() {
        let refused = |number, place| Err(Refusal { number, place });
        let mut font = vec![MOST_ROW; FONT_ROWS];
        assert_eq!(judge_font(&font), Ok(()));
        for (row, value) in [(1115, 4096), (700, 65_535), (61, 32_768), (18, 4097), (0, 4096)] {
            font[row] = value;
            assert_eq!(judge_font(&font), refused(18, row as u32));
        }
        // Cell 3 has its row 7 there.
        font = vec![0; FONT_ROWS];
        font[3 * ROWS + 7] = 4096;
        assert_eq!(judge_font(&font), refused(18, 61));
    }

    #[test]
    fn a_fonts_length_comes_before_its_rows() {
        for length in [0, 1, ROWS, FONT_ROWS - 1, FONT_ROWS + 1, 2 * FONT_ROWS] {
            assert_eq!(judge_font(&vec![0; length]), Err(Refusal::plain(4)));
            assert_eq!(judge_font(&vec![4096; length]), Err(Refusal::plain(4)));
        }
    }

    #[test]
    fn lengths_are_exact() {
        let image = vec![0xFF; IMAGE_BYTES];
        let refused = Err(Refusal::plain(13));
        assert_eq!(to_font(&image[1..], &mut [0; FONT_ROWS]), refused);
        assert_eq!(to_font(&[0xFF; IMAGE_BYTES + 1], &mut [0; FONT_ROWS]), refused);
        assert_eq!(to_font(&image, &mut [0; FONT_ROWS - 1]), refused);
        assert_eq!(to_font(&image, &mut [0; FONT_ROWS + 1]), refused);
        assert_eq!(to_font(&image, &mut [0; FONT_ROWS]), Ok(()));
    }

    #[test]
    fn the_lowest_missing_bit_is_named_and_the_font_is_left() {
        let whole = of_font(&[0; FONT_ROWS]);
        for (address, byte) in
            [(18, 0xFE), (31, 0x7F), (1984, 0x00), (4095, 0xFE), (4096, 0xEF), (4113, 0x70), (4114, 0xFB), (8191, 0x0F)]
        {
            let mut image = whole.clone();
            image[8191] = 0;
            image[address] = byte;
            let mut font = [77; FONT_ROWS];
            assert_eq!(to_font(&image, &mut font), Err(Refusal { number: 13, place: address as u32 }));
            assert_eq!(font, [77; FONT_ROWS]);
        }
    }

    #[test]
    fn an_all_set_image_is_a_font_of_lit_rows() {
        let mut font = [0; FONT_ROWS];
        assert_eq!(to_font(&[0xFF; IMAGE_BYTES], &mut font), Ok(()));
        assert_eq!(font, [4095; FONT_ROWS]);
    }
}
