//! Fonts with rows that are too large, for the calls that take a font.

use crate::model::image::FONT_ROWS;
use crate::random::Random;

const WAYS: usize = 8;

/// Every row in every way.
pub(crate) const SPOILT_FONTS: u64 = (WAYS * FONT_ROWS) as u64;

fn too_large(random: &mut Random) -> u16 {
    match random.below(4) {
        0 => random.pick(&[4096, 4097, 0x7FFF, 0x8000, u16::MAX]),
        _ => random.between(4096, usize::from(u16::MAX)) as u16,
    }
}

/// Makes one row of a font too large, alone or with others; which row, and how, the number says.
pub(crate) fn spoil(font: &mut [u16], number: u64, random: &mut Random) {
    let row = number as usize / WAYS;
    match number as usize % WAYS {
        0 => font[row] = 4096,
        1 => font[row] = u16::MAX,
        2 => font[row] |= 1 << random.between(12, 15),
        3 => font[row] = too_large(random),
        // As large as can be on both sides.
        4 => {
            font.fill(4095);
            font[row] = 4096;
        }
        // It is the first of several: with the last, with all after it, with some at random.
        5 => (font[row], font[FONT_ROWS - 1]) = (4096, u16::MAX),
        6 => font[row..].fill_with(|| too_large(random)),
        _ => {
            font[row] = too_large(random);
            for _ in 0..random.between(1, 5) {
                font[random.below(FONT_ROWS)] = too_large(random);
            }
        }
    }
}

#[cfg(test)]
mod tests {
    use super::*;
    use crate::model::image::judge_font;
    use std::collections::BTreeMap;

    #[test]
    fn every_row_is_the_first_too_large_in_seven_ways() {
        let mut first = BTreeMap::new();
        for number in 0..SPOILT_FONTS {
            let mut font = vec![0xABC; FONT_ROWS];
            spoil(&mut font, number, &mut Random::of_case(1, number));
            let refusal = judge_font(&font).unwrap_err();
            assert_eq!(refusal.number, 18);
            *first.entry(refusal.place).or_insert(0) += 1;
        }
        assert_eq!(first.len(), FONT_ROWS);
        assert!(first.values().all(|&times| times >= 7));
    }
}
