//! The hex text in one pass over its bytes, with tables for the digits.

use super::{font_refusal, Fast, FONT_ROWS};
use crate::parts::{Answer, Hex};

const IMAGE_BYTES: usize = 8192;
const TEXT_BYTES: usize = 22_540;

/// The value of a digit; anything else has the top bit set, so that a whole record can be judged by one or.
const VALUE: [u8; 256] = {
    let mut table = [0x80; 256];
    let mut value = 0;
    while value < 10 {
        table[b'0' as usize + value] = value as u8;
        value += 1;
    }
    while value < 16 {
        table[b'A' as usize + value - 10] = value as u8;
        table[b'a' as usize + value - 10] = value as u8;
        value += 1;
    }
    table
};

/// The two digits of every byte.
const DIGITS: [[u8; 2]; 256] = {
    let digits = b"0123456789ABCDEF";
    let mut table = [[0; 2]; 256];
    let mut byte = 0;
    while byte < 256 {
        table[byte] = [digits[byte >> 4], digits[byte & 15]];
        byte += 1;
    }
    table
};

/// Decodes pairs of digits; returns false if one is no digit.
fn decode(digits: &[u8], bytes: &mut [u8]) -> bool {
    let mut all = 0;
    for (pair, byte) in digits.chunks_exact(2).zip(bytes) {
        let high = VALUE[usize::from(pair[0])];
        let low = VALUE[usize::from(pair[1])];
        all |= high | low;
        *byte = high << 4 | low;
    }
    all & 0x80 == 0
}

/// The bytes of the record at the start of `rest` and where the next line starts, if the line has the shape.
fn record<'a>(rest: &[u8], bytes: &'a mut [u8; 260]) -> Option<(&'a [u8], usize)> {
    let head = rest.get(..3)?;
    let mut length = [0];
    if head[0] != b':' || !decode(&head[1..], &mut length) {
        return None;
    }
    let count = usize::from(length[0]) + 5;
    let digits = rest.get(1..1 + 2 * count)?;
    let bytes = &mut bytes[..count];
    if !decode(digits, bytes) {
        return None;
    }
    let end = 1 + 2 * count;
    let next = match rest[end..] {
        [] => end,
        [b'\n', ..] => end + 1,
        [b'\r', b'\n', ..] => end + 2,
        _ => return None,
    };
    Some((bytes, next))
}

/// What is said of a line that starts here and has not the shape: the good bytes at its front are passed over, and what
/// stands behind them is the line's end or a bad character.
fn misshapen(text: &[u8], start: usize) -> Answer {
    let line = &text[start..];
    let good = match line {
        [b':', digits @ ..] => 1 + digits.iter().take_while(|&&byte| VALUE[usize::from(byte)] < 16).count(),
        _ => 0,
    };
    match line[good..] {
        [] | [b'\n', ..] | [b'\r', b'\n', ..] => Answer::refused(20, start as u32),
        _ => Answer::refused(19, (start + good) as u32),
    }
}

fn image_of(font: &[u16], image: &mut [u8; IMAGE_BYTES]) {
    image.fill(0xFF);
    let (low, high) = image.split_at_mut(4096);
    for ((rows, low), high) in font.chunks_exact(18).zip(low.chunks_exact_mut(32)).zip(high.chunks_exact_mut(32)) {
        for ((row, low), high) in rows.iter().zip(low).zip(high) {
            *low = *row as u8;
            *high = (*row >> 8) as u8 | 0xF0;
        }
    }
}

fn put(byte: u8, text: &mut [u8]) {
    text.copy_from_slice(&DIGITS[usize::from(byte)]);
}

/// The bits that must be set at each address.
const DUE: [u8; IMAGE_BYTES] = {
    let mut due = [0xFF; IMAGE_BYTES];
    let mut row = 0;
    while row < FONT_ROWS {
        let address = row / 18 * 32 + row % 18;
        due[address] = 0x00;
        due[4096 + address] = 0xF0;
        row += 1;
    }
    due
};

impl Hex for Fast {
    fn read(&self, text: &[u8], image: &mut [u8]) -> Answer {
        if image.len() < IMAGE_BYTES {
            return Answer::refused(6, 0);
        }
        if text.len() > 65_535 {
            return Answer::refused(7, 0);
        }
        // Nothing lent may be touched before the whole text is known to be good.
        let mut draft = [0xFF; IMAGE_BYTES];
        let mut given = [false; IMAGE_BYTES];
        let mut buffer = [0; 260];
        let mut count = 0;
        let mut start = 0;
        while start < text.len() {
            let place = start as u32;
            let Some((bytes, length)) = record(&text[start..], &mut buffer) else {
                return misshapen(text, start);
            };
            start += length;
            if bytes.iter().fold(0u8, |sum, &byte| sum.wrapping_add(byte)) != 0 {
                return Answer::refused(8, place);
            }
            let address = usize::from(bytes[1]) << 8 | usize::from(bytes[2]);
            if bytes[3] == 1 && bytes[0] == 0 && address == 0 {
                if start < text.len() {
                    return Answer::refused(12, start as u32);
                }
                image[..IMAGE_BYTES].copy_from_slice(&draft);
                return Answer::accepted(count);
            }
            if bytes[3] != 0 {
                return Answer::refused(9, place);
            }
            let data = &bytes[4..bytes.len() - 1];
            let Some(target) = draft.get_mut(address..address + data.len()) else {
                return Answer::refused(10, place);
            };
            let marks = &mut given[address..address + data.len()];
            if marks.iter().fold(false, |any, &mark| any | mark) {
                return Answer::refused(11, place);
            }
            marks.fill(true);
            target.copy_from_slice(data);
            count += data.len() as u32;
        }
        Answer::refused(12, text.len() as u32)
    }

    fn write(&self, font: &[u16], text: &mut [u8]) -> Answer {
        if let Some(refusal) = font_refusal(font) {
            return refusal;
        }
        if text.len() < TEXT_BYTES {
            return Answer::refused(6, 0);
        }
        let mut image = [0; IMAGE_BYTES];
        image_of(font, &mut image);
        let (records, rest) = text.split_at_mut(512 * 44);
        for ((number, data), line) in image.chunks_exact(16).enumerate().zip(records.chunks_exact_mut(44)) {
            let address = (16 * number as u16).to_be_bytes();
            line[..3].copy_from_slice(b":10");
            put(address[0], &mut line[3..5]);
            put(address[1], &mut line[5..7]);
            line[7..9].copy_from_slice(b"00");
            let mut sum = 16u8.wrapping_add(address[0]).wrapping_add(address[1]);
            for (byte, digits) in data.iter().zip(line[9..41].chunks_exact_mut(2)) {
                sum = sum.wrapping_add(*byte);
                put(*byte, digits);
            }
            put(sum.wrapping_neg(), &mut line[41..43]);
            line[43] = b'\n';
        }
        rest[..12].copy_from_slice(b":00000001FF\n");
        Answer::accepted(0)
    }

    fn image_to_font(&self, image: &[u8], font: &mut [u16]) -> Answer {
        if image.len() != IMAGE_BYTES || font.len() != FONT_ROWS {
            return Answer::refused(13, 0);
        }
        // One pass that vectorises finds whether anything is missing; only then is the place looked for.
        if image.iter().zip(&DUE).fold(0, |missing, (byte, due)| missing | !byte & due) != 0 {
            let place = image.iter().zip(&DUE).position(|(byte, due)| !byte & due != 0);
            return Answer::refused(13, place.unwrap_or(0) as u32);
        }
        let (low, high) = image.split_at(4096);
        for ((rows, low), high) in font.chunks_exact_mut(18).zip(low.chunks_exact(32)).zip(high.chunks_exact(32)) {
            for ((row, low), high) in rows.iter_mut().zip(low).zip(high) {
                *row = u16::from(*high & 15) << 8 | u16::from(*low);
            }
        }
        Answer::accepted(0)
    }
}
