//! Readers and writers that tell the wrong number or the wrong place: each must be found by the cases made for these.

use super::places::{SORTS, TEXTS};
use super::tests::some;
use super::{PLACES_FROM, ROWS_FROM};
use crate::compare::rows::SPOILT_FONTS;
use crate::fast::Fast;
use crate::model::image::{FONT_ROWS, IMAGE_BYTES};
use crate::parts::{Answer, Hex};

const LONGEST_TEXT: usize = 65_535;

/// A line that was refused for a bad character or its shape.
struct Line<'a> {
    text: &'a [u8],
    start: usize,
    /// Its bytes without its end.
    body: &'a [u8],
    /// How far from its start it was refused.
    at: usize,
}

impl<'a> Line<'a> {
    fn of(text: &'a [u8], place: usize) -> Self {
        let start = text[..place].iter().rposition(|&byte| byte == b'\n').map_or(0, |end| end + 1);
        let rest = &text[start..];
        let body = match rest.iter().position(|&byte| byte == b'\n') {
            None => rest,
            Some(end) => rest[..end].strip_suffix(b"\r").unwrap_or(&rest[..end]),
        };
        Line { text, start, body, at: place - start }
    }

    /// The byte it was refused for.
    fn byte(&self) -> u8 {
        self.body[self.at]
    }

    /// Where the body ends.
    fn end(&self) -> usize {
        self.start + self.body.len()
    }

    /// Where the next line starts.
    fn next(&self) -> usize {
        self.end() + self.line_end().len()
    }

    fn line_end(&self) -> &[u8] {
        let rest = &self.text[self.end()..];
        &rest[..rest.iter().position(|&byte| byte == b'\n').map_or(0, |lf| lf + 1)]
    }

    fn is_last_of_text(&self, place: usize) -> bool {
        place + 1 == self.text.len()
    }

    /// How long the body would have to be, if two digits say so.
    fn due(&self) -> Option<usize> {
        let length = self.body.get(1..3).and_then(|two| std::str::from_utf8(two).ok())?;
        u8::from_str_radix(length, 16).ok().map(|length| 11 + 2 * usize::from(length))
    }

    /// The first byte from a place of the body on for which the test fails, told as a bad character; else the shape.
    fn first_bad(&self, from: usize, good: fn(u8) -> bool) -> (u32, usize) {
        let bad = (from..self.body.len()).find(|&at| !good(self.body[at]));
        bad.map_or((20, self.start), |at| (19, self.start + at))
    }

    /// The record that this line would be, bad characters read as digits 0.
    fn bytes(&self) -> Vec<u8> {
        let value = |&byte: &u8| char::from(byte).to_digit(16).unwrap_or(0) as u8;
        let digits: Vec<u8> = self.body.iter().skip(1).map(value).collect();
        digits.chunks_exact(2).map(|two| 16 * two[0] + two[1]).collect()
    }

    fn sum(&self) -> u8 {
        self.bytes().iter().fold(0, |sum: u8, byte| sum.wrapping_add(*byte))
    }
}

fn is_digit(byte: u8) -> bool {
    byte.is_ascii_hexdigit()
}

/// Given the right number and the line, the number and the place that are told instead.
type Retold = fn(u32, &Line) -> Option<(u32, usize)>;

fn when(applies: bool, number: u32, place: usize) -> Option<(u32, usize)> {
    applies.then_some((number, place))
}

/// Mistakes about the place of a bad character.
const CHARACTERS: &[(&str, Retold)] = &[
    ("counted from 1", |number, line| when(number == 19, 19, line.start + line.at + 1)),
    ("the line's start", |number, line| when(number == 19, 19, line.start)),
    ("the offset in the line", |number, line| when(number == 19, 19, line.at)),
    ("counted from the first digit", |number, line| {
        when(number == 19 && line.at > 0, 19, line.start + line.at.saturating_sub(1))
    }),
    ("always 0", |number, _| when(number == 19, 19, 0)),
    ("the line's number", |number, line| {
        when(number == 19, 19, line.text[..line.start].iter().filter(|&&byte| byte == b'\n').count())
    }),
    ("the line's end", |number, line| when(number == 19, 19, line.end())),
    ("the next line's start", |number, line| when(number == 19, 19, line.next())),
    ("the last bad character", |number, line| {
        let last = line.body.iter().skip(1).rposition(|&byte| !is_digit(byte)).map_or(0, |at| at + 1);
        when(number == 19, 19, line.start + last)
    }),
    ("the first digit of the byte", |number, line| {
        when(number == 19 && line.at > 0, 19, line.start + line.at - line.at.saturating_sub(1) % 2)
    }),
    ("the last digit of the byte", |number, line| {
        when(number == 19 && line.at > 0, 19, line.start + line.at + line.at % 2)
    }),
    ("the byte's number", |number, line| {
        when(number == 19 && line.at > 0, 19, line.start + line.at.saturating_sub(1) / 2)
    }),
    ("each CR LF counted once", |number, line| {
        let crs = line.text[..line.start].windows(2).filter(|two| two == b"\r\n").count();
        when(number == 19, 19, line.start + line.at - crs)
    }),
    ("8 bits of the place", |number, line| when(number == 19, 19, (line.start + line.at) % 256)),
    ("8 bits of the offset in the line", |number, line| when(number == 19, 19, line.start + line.at % 256)),
];

/// Mistakes about which characters are bad.
const JUDGED: &[(&str, Retold)] = &[
    ("the colon's place not looked at", |number, line| {
        (number == 19 && line.at == 0).then(|| line.first_bad(1, is_digit))
    }),
    ("a digit in the colon's place", |number, line| {
        (number == 19 && line.at == 0 && is_digit(line.byte())).then(|| line.first_bad(1, is_digit))
    }),
    ("a missing colon told as shape", |number, line| when(number == 19 && line.at == 0, 20, line.start)),
    ("a colon looked for, then anything", |number, line| when(number == 19 && line.at > 0, 20, line.start)),
    ("a second colon passed over", |number, line| {
        let good = |byte| is_digit(byte) || byte == b':';
        (number == 19 && line.at > 0 && line.byte() == b':').then(|| line.first_bad(1, good))
    }),
    ("a CR told as shape", |number, line| when(number == 19 && line.byte() == b'\r', 20, line.start)),
    ("a CR at the text's end told as shape", |number, line| {
        when(number == 19 && line.byte() == b'\r' && line.is_last_of_text(line.start + line.at), 20, line.start)
    }),
    ("a CR inside a line told as shape", |number, line| {
        when(number == 19 && line.byte() == b'\r' && line.at + 1 < line.body.len(), 20, line.start)
    }),
    ("of CR CR LF the second", |number, line| {
        let last = line.at + 1 == line.body.len() && line.line_end() == b"\r\n";
        when(number == 19 && line.byte() == b'\r' && last, 19, line.start + line.at + 1)
    }),
    ("CR CR LF told as shape", |number, line| {
        let last = line.at + 1 == line.body.len() && line.line_end() == b"\r\n";
        when(number == 19 && line.byte() == b'\r' && last, 20, line.start)
    }),
    ("a NUL told as shape", |number, line| when(number == 19 && line.byte() == 0, 20, line.start)),
    ("a byte above 127 told as shape", |number, line| when(number == 19 && line.byte() > 127, 20, line.start)),
    ("a blank at the line's end told as shape", |number, line| {
        when(number == 19 && line.byte() == b' ' && line.at + 1 == line.body.len(), 20, line.start)
    }),
    ("the last byte of a line not looked at", |number, line| {
        when(number == 19 && line.at > 0 && line.at + 1 == line.body.len(), 20, line.start)
    }),
    ("the last byte of the text not looked at", |number, line| {
        when(number == 19 && line.is_last_of_text(line.start + line.at), 20, line.start)
    }),
    ("only so many bytes of a line as a record has at most", |number, line| {
        when(number == 19 && line.at > 520, 20, line.start)
    }),
];

/// Mistakes about the shape, and which of the two numbers comes first.
const SHAPES: &[(&str, Retold)] = &[
    ("an empty line told as a character", |number, line| when(number == 20 && line.body.is_empty(), 19, line.start)),
    ("the CR of an empty line told as a character", |number, line| {
        when(number == 20 && line.body.is_empty() && line.line_end() == b"\r\n", 19, line.start)
    }),
    ("the CR of a CR LF told as a character", |number, line| {
        when(number == 20 && !line.body.is_empty() && line.line_end() == b"\r\n", 19, line.end())
    }),
    ("a colon alone told as a character", |number, line| when(number == 20 && line.body == b":", 19, line.end())),
    ("a missing digit told as a character", |number, line| {
        when(number == 20 && !line.body.is_empty() && line.body.len() % 2 == 0, 19, line.end())
    }),
    ("missing bytes told as a character", |number, line| {
        when(number == 20 && line.due().is_some_and(|due| line.body.len() < due), 19, line.end())
    }),
    ("a digit too many told as a character", |number, line| {
        let due = line.due().unwrap_or(line.body.len());
        when(number == 20 && line.body.len() > due, 19, line.start + due)
    }),
    ("the place of a digit too many", |number, line| {
        let due = line.due().unwrap_or(line.body.len());
        when(number == 20 && line.body.len() > due, 20, line.start + due)
    }),
    ("the line's end", |number, line| when(number == 20, 20, line.end())),
    ("behind the colon", |number, line| when(number == 20, 20, line.start + 1)),
    ("the next line's start", |number, line| when(number == 20, 20, line.next())),
    ("always 0", |number, _| when(number == 20, 20, 0)),
    ("the line's number", |number, line| {
        when(number == 20, 20, line.text[..line.start].iter().filter(|&&byte| byte == b'\n').count())
    }),
    ("20 at the character", |number, line| when(number == 19, 20, line.start + line.at)),
    ("an odd number before a character", |number, line| when(number == 19 && line.body.len() % 2 == 0, 20, line.start)),
    ("too few bytes for a record before a character", |number, line| {
        when(number == 19 && line.body.len() < 11, 20, line.start)
    }),
    ("too few for the length before a character", |number, line| {
        when(number == 19 && line.due().is_some_and(|due| line.body.len() < due), 20, line.start)
    }),
    ("too many for the length before a character", |number, line| {
        when(number == 19 && line.due().is_some_and(|due| line.body.len() > due), 20, line.start)
    }),
    ("what stands behind the record told as shape", |number, line| {
        when(number == 19 && line.due().is_some_and(|due| line.at >= due), 20, line.start)
    }),
    ("both with the old number", |_, line| Some((7, line.start))),
    ("the shape with the old number", |number, line| when(number == 20, 7, line.start)),
    ("the character with the old number", |number, line| when(number == 19, 7, line.start + line.at)),
    ("the two numbers exchanged", |number, line| Some((39 - number, line.start + line.at))),
    ("a sum before a character", |number, line| when(number == 19 && line.sum() != 0, 8, line.start)),
    ("a sum before the shape", |number, line| when(number == 20 && line.sum() != 0, 8, line.start)),
    ("a type before a character", |number, line| {
        when(number == 19 && line.bytes().get(3).is_some_and(|&kind| kind > 1), 9, line.start)
    }),
    ("a type before the shape", |number, line| {
        when(number == 20 && line.bytes().get(3).is_some_and(|&kind| kind > 1), 9, line.start)
    }),
    ("an end record's length before the shape", |number, line| {
        let bytes = line.bytes();
        when(number == 20 && bytes.get(3) == Some(&1) && bytes[0] != 0, 9, line.start)
    }),
];

/// The fast one, but for what it tells of a bad character or shape.
struct Told(Retold);

impl Hex for Told {
    fn read(&self, text: &[u8], image: &mut [u8]) -> Answer {
        let answer = Fast.read(text, image);
        if ![19, 20].contains(&answer.number) {
            return answer;
        }
        let line = Line::of(text, answer.place as usize);
        (self.0)(answer.number, &line).map_or(answer, |(number, place)| Answer::refused(number, place as u32))
    }

    fn write(&self, font: &[u16], text: &mut [u8]) -> Answer {
        Fast.write(font, text)
    }

    fn image_to_font(&self, image: &[u8], font: &mut [u16]) -> Answer {
        Fast.image_to_font(image, font)
    }
}

#[test]
fn a_wrong_number_or_place_is_found() {
    for (name, retold) in [CHARACTERS, JUDGED, SHAPES].concat() {
        let difference = some(&Told(retold), PLACES_FROM, TEXTS).expect_err(name);
        assert!(difference.report.starts_with("the answers differ"), "{name}");
    }
}

type Read = fn(&[u8], &mut [u8]) -> Answer;

/// The text with each byte exchanged, the fast one being right of the rest.
fn with(text: &[u8], image: &mut [u8], exchange: impl Fn(&[u8], usize) -> u8) -> Answer {
    let other: Vec<u8> = (0..text.len()).map(|at| exchange(text, at)).collect();
    Fast.read(&other, image)
}

/// The text without some of its bytes.
fn without(text: &[u8], image: &mut [u8], drop: impl Fn(&[u8], usize) -> bool) -> Answer {
    let kept: Vec<u8> = (0..text.len()).filter(|&at| !drop(text, at)).map(|at| text[at]).collect();
    Fast.read(&kept, image)
}

fn is_lone_cr(text: &[u8], at: usize) -> bool {
    text[at] == b'\r' && text.get(at + 1) != Some(&b'\n')
}

/// The first line of the text that is refused with one of these numbers when it is read alone: its start, and how.
fn first_refused(text: &[u8], numbers: &[u32]) -> Option<(usize, Answer)> {
    let mut start = 0;
    for line in text.split_inclusive(|&byte| byte == b'\n') {
        let alone = Fast.read(line, &mut [0; IMAGE_BYTES]);
        if numbers.contains(&alone.number) {
            return Some((start, alone));
        }
        start += line.len();
    }
    None
}

/// Whole texts read wrongly: what is no digit taken for one, line ends seen where there are none, things in another order.
const READERS: &[(&str, Read)] = &[
    ("a lone CR taken for a line's end", |text, image| {
        with(text, image, |text, at| if is_lone_cr(text, at) { b'\n' } else { text[at] })
    }),
    ("a lone CR passed over", |text, image| without(text, image, is_lone_cr)),
    ("a CR at the text's end passed over", |text, image| {
        without(text, image, |text, at| at + 1 == text.len() && text[at] == b'\r')
    }),
    ("all CRs before an LF passed over", |text, image| {
        without(text, image, |text, at| {
            text[at..].iter().find(|&&byte| byte != b'\r') == Some(&b'\n') && text[at] == b'\r'
        })
    }),
    ("the CR of a CR LF is bad", |text, image| {
        let cr = text.windows(2).position(|two| two == b"\r\n").unwrap_or(text.len());
        let answer = Fast.read(text, image);
        let before = answer.number > 6 && answer.number != 12 && (answer.place as usize) < cr;
        if before || cr == text.len() || answer.number == 6 {
            answer
        } else {
            Answer::refused(19, cr as u32)
        }
    }),
    ("/ taken for a digit", |text, image| with(text, image, |text, at| if text[at] == b'/' { b'0' } else { text[at] })),
    (": taken for a digit", |text, image| {
        let first = |text: &[u8], at: usize| at == 0 || text[at - 1] == b'\n';
        with(text, image, |text, at| if text[at] == b':' && !first(text, at) { b'0' } else { text[at] })
    }),
    ("@ taken for a digit", |text, image| with(text, image, |text, at| if text[at] == b'@' { b'9' } else { text[at] })),
    ("G taken for a digit", |text, image| with(text, image, |text, at| if text[at] == b'G' { b'0' } else { text[at] })),
    ("` taken for a digit", |text, image| with(text, image, |text, at| if text[at] == b'`' { b'9' } else { text[at] })),
    ("g taken for a digit", |text, image| with(text, image, |text, at| if text[at] == b'g' { b'0' } else { text[at] })),
    ("small digits are bad", |text, image| {
        with(text, image, |text, at| if text[at].is_ascii_lowercase() { b'g' } else { text[at] })
    }),
    ("seven bits of each byte", |text, image| with(text, image, |text, at| text[at] & 127)),
    ("a NUL ends the text", |text, image| Fast.read(text.split(|&byte| byte == 0).next().unwrap_or_default(), image)),
    ("blanks passed over", |text, image| without(text, image, |text, at| b" \t".contains(&text[at]))),
    ("blanks at a line's end passed over", |text, image| {
        without(text, image, |text, at| {
            text[at] == b' ' && text[at..].iter().find(|&&byte| byte != b' ').is_none_or(|byte| b"\r\n".contains(byte))
        })
    }),
    ("empty lines passed over", |text, image| {
        without(text, image, |text, at| text[at] == b'\n' && (at == 0 || text[at - 1] == b'\n'))
    }),
    ("characters of the whole text first", |text, image| {
        let answer = Fast.read(text, image);
        let bad = first_refused(text, &[19]).filter(|_| answer.number > 7);
        bad.map_or(answer, |(start, alone)| Answer::refused(19, start as u32 + alone.place))
    }),
    ("shapes of the whole text first", |text, image| {
        let answer = Fast.read(text, image);
        let bad = first_refused(text, &[19, 20]).filter(|_| answer.number > 7);
        bad.map_or(answer, |(start, alone)| Answer::refused(alone.number, start as u32 + alone.place))
    }),
    ("characters before shapes over the whole text", |text, image| {
        let answer = Fast.read(text, image);
        let bad = first_refused(text, &[19]).filter(|_| answer.number == 20);
        bad.map_or(answer, |(start, alone)| Answer::refused(19, start as u32 + alone.place))
    }),
    ("the last faulty line decides", |text, image| {
        let answer = Fast.read(text, image);
        let starts = (0..text.len()).rev().filter(|&at| at == 0 || text[at - 1] == b'\n');
        let mut alone = starts.map(|start| (start, Fast.read(&text[start..], &mut [0; IMAGE_BYTES])));
        let faulty = [19, 20].contains(&answer.number) && text.len() < 200;
        let last = alone.find(|(_, alone)| faulty && [19, 20].contains(&alone.number));
        last.map_or(answer, |(start, alone)| Answer::refused(alone.number, start as u32 + alone.place))
    }),
    ("a bad character after the end record", |text, image| {
        let answer = Fast.read(text, image);
        let after = &text[(answer.place as usize).min(text.len())..];
        let alone = Fast.read(after, &mut [0; IMAGE_BYTES]);
        if answer.number == 12 && [19, 20].contains(&alone.number) {
            Answer::refused(alone.number, answer.place + alone.place)
        } else {
            answer
        }
    }),
    ("the room judged after the characters", |text, image| {
        let answer = Fast.read(text, &mut [0; IMAGE_BYTES]);
        if [19, 20].contains(&answer.number) {
            answer
        } else {
            Fast.read(text, image)
        }
    }),
    ("the image filled before a bad character is met", |text, image| {
        let answer = Fast.read(text, image);
        if answer.number == 19 {
            image[..IMAGE_BYTES].fill(0xFF);
        }
        answer
    }),
    ("the image filled before a bad shape is met", |text, image| {
        let answer = Fast.read(text, image);
        if answer.number == 20 {
            image[IMAGE_BYTES - 1] = 0xFF;
        }
        answer
    }),
];

/// Mistakes that only the longest texts show.
const LONG_READERS: &[(&str, Read)] = &[
    ("too long told with its length", |text, image| match Fast.read(text, image) {
        Answer { number: 7, .. } => Answer::refused(7, text.len() as u32),
        answer => answer,
    }),
    ("too long told with the first byte too many", |text, image| match Fast.read(text, image) {
        Answer { number: 7, .. } => Answer::refused(7, LONGEST_TEXT as u32),
        answer => answer,
    }),
    ("too long told as shape", |text, image| match Fast.read(text, image) {
        Answer { number: 7, .. } => Answer::refused(20, 0),
        answer => answer,
    }),
    ("the length judged after the records", |text, image| match Fast.read(text, image) {
        Answer { number: 7, .. } => match Fast.read(&text[..LONGEST_TEXT], image) {
            Answer { number: 0 | 12, .. } => Answer::refused(7, 0),
            answer => answer,
        },
        answer => answer,
    }),
    ("the length judged before the room", |text, image| match Fast.read(text, image) {
        Answer { number: 6, .. } if text.len() > LONGEST_TEXT => Answer::refused(7, 0),
        answer => answer,
    }),
    ("a place of 15 bits", |text, image| match Fast.read(text, image) {
        Answer { number: 19, place, .. } => Answer::refused(19, place & 0x7FFF),
        answer => answer,
    }),
    ("a place of 16 bits with a sign", |text, image| match Fast.read(text, image) {
        Answer { number: 19, place, .. } => Answer::refused(19, place as u16 as i16 as u32),
        answer => answer,
    }),
    ("only the first 4096 bytes of a line looked at", |text, image| match Fast.read(text, image) {
        Answer { number: 19, place, .. } if Line::of(text, place as usize).at >= 4096 => {
            Answer::refused(20, Line::of(text, place as usize).start as u32)
        }
        answer => answer,
    }),
];

/// A reader and a writer in place of the fast one's.
struct Other {
    read: Read,
    write: fn(&[u16], &mut [u8]) -> Answer,
}

impl Hex for Other {
    fn read(&self, text: &[u8], image: &mut [u8]) -> Answer {
        (self.read)(text, image)
    }

    fn write(&self, font: &[u16], text: &mut [u8]) -> Answer {
        (self.write)(font, text)
    }

    fn image_to_font(&self, image: &[u8], font: &mut [u16]) -> Answer {
        Fast.image_to_font(image, font)
    }
}

#[test]
fn a_text_that_is_read_wrongly_is_found() {
    for (name, read) in READERS {
        let planted = Other { read: *read, write: |font, text| Fast.write(font, text) };
        some(&planted, PLACES_FROM, TEXTS).expect_err(name);
    }
}

#[test]
fn what_only_the_longest_texts_show_is_found_among_them() {
    let count = SORTS.last().map_or(0, |sort| sort.count);
    for (name, read) in LONG_READERS {
        let planted = Other { read: *read, write: |font, text| Fast.write(font, text) };
        some(&planted, ROWS_FROM - count, count).expect_err(name);
    }
}

/// The first row too large of a font, and the last.
fn rows(font: &[u16]) -> Option<(u32, u32)> {
    let first = font.iter().position(|&row| row > 4095)?;
    let last = font.iter().rposition(|&row| row > 4095)?;
    Some((first as u32, last as u32))
}

type Write = fn(&[u16], &mut [u8], Answer) -> Answer;

/// Mistakes about a font, given the right answer.
const WRITERS: &[(&str, Write)] = &[
    ("a row with the old number", |_, _, answer| match answer.number {
        18 => Answer::refused(4, 0),
        _ => answer,
    }),
    ("4 with the row", |_, _, answer| match answer.number {
        18 => Answer::refused(4, answer.place),
        _ => answer,
    }),
    ("18 without the row", |_, _, answer| match answer.number {
        18 => Answer::refused(18, 0),
        _ => answer,
    }),
    ("18 for a length too", |_, _, answer| match answer.number {
        4 => Answer::refused(18, 0),
        _ => answer,
    }),
    ("the length as the place", |font, _, answer| match answer.number {
        4 => Answer::refused(4, font.len() as u32),
        _ => answer,
    }),
    ("counted from 1", |_, _, answer| match answer.number {
        18 => Answer::refused(18, answer.place + 1),
        _ => answer,
    }),
    ("the last row too large", |font, _, answer| match (answer.number, rows(font)) {
        (18, Some((_, last))) => Answer::refused(18, last),
        _ => answer,
    }),
    ("the largest row", |font, _, answer| match answer.number {
        18 => {
            let largest = font.iter().max();
            Answer::refused(18, font.iter().position(|row| Some(row) == largest).unwrap_or(0) as u32)
        }
        _ => answer,
    }),
    ("the cell", |_, _, answer| match answer.number {
        18 => Answer::refused(18, answer.place / 18),
        _ => answer,
    }),
    ("the row in the cell", |_, _, answer| match answer.number {
        18 => Answer::refused(18, answer.place % 18),
        _ => answer,
    }),
    ("the row's place in bytes", |_, _, answer| match answer.number {
        18 => Answer::refused(18, 2 * answer.place),
        _ => answer,
    }),
    ("the row's address in the image", |_, _, answer| match answer.number {
        18 => Answer::refused(18, answer.place / 18 * 32 + answer.place % 18),
        _ => answer,
    }),
    ("8 bits of the row", |_, _, answer| match answer.number {
        18 => Answer::refused(18, answer.place % 256),
        _ => answer,
    }),
    ("18 before the length", |font, _, answer| match (answer.number, rows(font)) {
        (4, Some((first, _))) => Answer::refused(18, first),
        _ => answer,
    }),
    ("18 before a length too great", |font, _, answer| match (answer.number, rows(font)) {
        (4, Some((first, _))) if font.len() > FONT_ROWS => Answer::refused(18, first),
        _ => answer,
    }),
    ("18 before a length too small", |font, _, answer| match (answer.number, rows(font)) {
        (4, Some((first, _))) if font.len() < FONT_ROWS => Answer::refused(18, first),
        _ => answer,
    }),
    ("6 before 18", |_, text, answer| match answer.number {
        18 if text.len() < 22_540 => Answer::refused(6, 0),
        _ => answer,
    }),
    ("6 before 4", |_, text, answer| match answer.number {
        4 if text.len() < 22_540 => Answer::refused(6, 0),
        _ => answer,
    }),
    ("4096 taken", |font, text, answer| match answer.number {
        18 => taken(font, text, |row| row > 4096),
        _ => answer,
    }),
    ("the sign taken for a small row", |font, text, answer| match answer.number {
        18 => taken(font, text, |row| row as i16 > 4095),
        _ => answer,
    }),
    ("only bit 12 looked at", |font, text, answer| match answer.number {
        18 => taken(font, text, |row| row & 4096 != 0),
        _ => answer,
    }),
    ("the last row not looked at", |font, text, answer| match (answer.number, rows(font)) {
        (18, Some((1115, _))) => taken(font, text, |_| false),
        _ => answer,
    }),
    ("the first row not looked at", |font, text, answer| match (answer.number, rows(font)) {
        (18, Some((0, 0))) => taken(font, text, |_| false),
        _ => answer,
    }),
    ("a refusal that touches", |_, text, answer| {
        if answer.number == 18 && !text.is_empty() {
            text[0] ^= 1;
        }
        answer
    }),
];

/// What a writer answers for which only these rows are too large.
fn taken(font: &[u16], text: &mut [u8], too_large: fn(u16) -> bool) -> Answer {
    match font.iter().position(|&row| too_large(row)) {
        Some(row) => Answer::refused(18, row as u32),
        None => {
            let cut: Vec<u16> = font.iter().map(|row| row & 4095).collect();
            Fast.write(&cut, text)
        }
    }
}

/// The fast one but for its writer.
struct Writer(Write);

impl Hex for Writer {
    fn read(&self, text: &[u8], image: &mut [u8]) -> Answer {
        Fast.read(text, image)
    }

    fn write(&self, font: &[u16], text: &mut [u8]) -> Answer {
        let answer = Fast.write(font, text);
        (self.0)(font, text, answer)
    }

    fn image_to_font(&self, image: &[u8], font: &mut [u16]) -> Answer {
        Fast.image_to_font(image, font)
    }
}

#[test]
fn a_wrong_row_is_found() {
    for (name, mistake) in WRITERS {
        some(&Writer(*mistake), ROWS_FROM, SPOILT_FONTS).expect_err(name);
    }
}
