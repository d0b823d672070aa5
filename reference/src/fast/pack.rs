//! The packer by a map from a glyph's rows to its cell.

use super::{Fast, FONT_ROWS};
use crate::parts::{Answer, Pack};
use std::collections::HashMap;

impl Pack for Fast {
    fn pack(&self, glyphs: &[u16], font: &mut [u16], cells: &mut [u8]) -> Answer {
        let count = glyphs.len() / 18;
        if glyphs.len() % 18 != 0 || count > 256 || glyphs.iter().fold(0, |all, row| all | row) > 4095 {
            return Answer::refused(16, 0);
        }
        // Nothing lent may be touched before the patterns are known to be few enough.
        let mut draft = [0; FONT_ROWS];
        let mut places = [0; 256];
        let mut known = HashMap::with_capacity(62);
        for (rows, place) in glyphs.chunks_exact(18).zip(&mut places) {
            let fresh = known.len();
            *place = *known.entry(rows).or_insert(fresh as u8);
            if known.len() > fresh {
                if fresh == 62 {
                    return Answer::refused(17, 0);
                }
                draft[18 * fresh..18 * fresh + 18].copy_from_slice(rows);
            }
        }
        if font.len() < FONT_ROWS || cells.len() < count {
            return Answer::refused(6, 0);
        }
        font[..FONT_ROWS].copy_from_slice(&draft);
        cells[..count].copy_from_slice(&places[..count]);
        Answer::accepted(known.len() as u32)
    }
}
