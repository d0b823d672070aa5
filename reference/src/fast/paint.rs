//! The painter row by row: the words before the line's row are skimmed, the row's own are painted from left to right.

use super::{font_refusal, Fast};
use crate::parts::{Answer, Paint, PaintOrder, Settings};

fn refusal(order: &PaintOrder, room: usize) -> Option<Answer> {
    let plain = |number| Some(Answer::refused(number, 0));
    let Settings { mode, colour, h, v, ratio, frequency, .. } = order.settings;
    if (mode | ratio | frequency) > 3 || colour > 7 || (h | v) > 63 {
        return plain(1);
    }
    if ratio == 3 {
        return plain(2);
    }
    // Or-ing before the test lets the compiler take many words at a time.
    if order.words.len() != 64 || order.words.iter().fold(0, |all, word| all | word) > 1023 {
        return plain(3);
    }
    if let Some(refusal) = font_refusal(order.font) {
        return Some(refusal);
    }
    if order.line > 1023 || order.width > 1024 {
        return plain(5);
    }
    if (order.width as usize) > room {
        return plain(6);
    }
    None
}

fn blinked_out(settings: &Settings, frame: u32) -> bool {
    let quarter = 4 << settings.frequency;
    frame & (4 * quarter - 1) >= (3 - settings.ratio) * quarter
}

/// The bytes of a cell.
struct Ink {
    lit: u8,
    unlit: u8,
}

const SHADOW: u8 = 8;

/// Paints one font row at its size, with the columns that a shadow falls on; a cell at the right edge may be cut.
fn paint_cell<const SIZE: usize>(bits: u16, shadow: u16, ink: &Ink, dots: &mut [u8]) {
    let has = |row: u16, column: usize| row >> (11 - column) & 1 == 1;
    let byte = |column: usize| match has(bits, column) {
        true => ink.lit,
        false if has(shadow, column) => SHADOW,
        false => ink.unlit,
    };
    if let Some(whole) = dots.first_chunk_mut::<48>().filter(|_| SIZE == 4) {
        for column in 0..12 {
            whole[4 * column..4 * column + 4].fill(byte(column));
        }
    } else {
        for (column, run) in dots.chunks_mut(SIZE).take(12).enumerate() {
            run.fill(byte(column));
        }
    }
}

impl Paint for Fast {
    fn paint(&self, order: &PaintOrder, dots: &mut [u8]) -> Answer {
        if let Some(refusal) = refusal(order, dots.len()) {
            return refusal;
        }
        let settings = &order.settings;
        let dots = &mut dots[..order.width as usize];
        let outside = if settings.on && settings.mode == 3 { 8 + settings.colour as u8 } else { 0 };
        dots.fill(outside);
        if !settings.on {
            return Answer::accepted(0);
        }

        let boxed = settings.mode >= 2;
        let hidden = blinked_out(settings, order.frame);
        let mut background = 8 + settings.colour as u8;
        let mut top = 4 * settings.v;
        let mut size = 1;
        let mut left = 4 * settings.h as usize;
        let mut in_row = order.line >= top && order.line < top + 18;
        // What the latest cell throws on the column right of it, as a bit.
        let mut thrown = 0;
        for &word in order.words {
            let code = usize::from(word >> 4);
            let attributes = word & 15;
            let space = code == 63;
            if code == 62 {
                if in_row {
                    break;
                }
                top += 18 * size + 4 * u32::from(attributes & 3);
                size = u32::from(attributes >> 2) + 1;
                left = 4 * settings.h as usize;
                if top > order.line {
                    break;
                }
                in_row = order.line < top + 18 * size;
                continue;
            }
            if space {
                if attributes & 1 == 1 {
                    break;
                }
                background = 8 + (attributes >> 1) as u8;
            }
            if !in_row {
                continue;
            }
            let width = 12 * size as usize;
            if left >= dots.len() {
                break;
            }
            let end = dots.len().min(left + width);
            let cell = &mut dots[left..end];
            left += width;
            let (mut bits, mut above) = (0, 0);
            let blinked_out = hidden && attributes & 1 == 1;
            if !space && !blinked_out {
                let row = ((order.line - top) / size) as usize;
                bits = order.font[18 * code + row];
                if settings.mode == 1 && row > 0 {
                    above = order.font[18 * code + row - 1];
                }
            }
            let shadow = thrown << 11 | above >> 1;
            thrown = above & 1;
            let ink = Ink { lit: 8 + (attributes >> 1) as u8, unlit: if boxed { background } else { 0 } };
            match size {
                _ if bits | shadow == 0 => cell.fill(ink.unlit),
                1 => paint_cell::<1>(bits, shadow, &ink, cell),
                2 => paint_cell::<2>(bits, shadow, &ink, cell),
                3 => paint_cell::<3>(bits, shadow, &ink, cell),
                _ => paint_cell::<4>(bits, shadow, &ink, cell),
            }
        }
        if thrown == 1 && left < dots.len() {
            let end = dots.len().min(left + size as usize);
            dots[left..end].fill(SHADOW);
        }
        Answer::accepted(0)
    }
}
