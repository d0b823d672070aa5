//! The hex text and the character image.
//!
//! First a short text changed in every single place, then an image with a bit of each byte cleared in turn, texts made
//! for the places of refusals, fonts with a row too large, then texts, fonts and images drawn at random. Numbers, places,
//! counts and the whole rooms are compared.

pub(crate) mod places;
#[cfg(test)]
mod planted;
pub(crate) mod texts;

use super::rooms::{judge, Rooms};
use super::rows::{self, SPOILT_FONTS};
use super::{run as drive, CaseResult, Difference, Part, Plan};
use crate::model::hex::WRITTEN_TEXT;
use crate::model::image::{self, FONT_ROWS, IMAGE_BYTES};
use crate::model::Model;
use crate::parts::{Answer, Hex};
use crate::random::Random;

const CHANGED_SHORT: u64 =
    256 * texts::SHORT.len() as u64 + 2 * texts::SHORT.len() as u64 + 256 * (texts::SHORT.len() as u64 + 1);
/// One bit of each byte: every call carries a whole image, so all of them would take too long.
const IMAGE_BITS: u64 = IMAGE_BYTES as u64;
const RANDOM: u64 = 180_000;

/// Where the texts for places begin, then the fonts with rows too large, then what is drawn at random.
const PLACES_FROM: u64 = CHANGED_SHORT + IMAGE_BITS;
const ROWS_FROM: u64 = PLACES_FROM + places::TEXTS;
const RANDOM_FROM: u64 = ROWS_FROM + SPOILT_FONTS;

/// Bytes as they can be pasted between quotes.
fn shown(bytes: &[u8]) -> String {
    format!("b\"{}\"", bytes.escape_ascii())
}

/// Also returns the room after the call.
fn compare_read(subject: &dyn Hex, text: &[u8], room: usize, random: &mut Random) -> Result<(Answer, Vec<u8>), String> {
    let mut rooms = Rooms::of_bytes(room, random);
    let answers = [Model.read(text, rooms.model()), subject.read(text, rooms.library())];
    let answer = judge(answers, rooms.difference(), || {
        format!("read, room {room}, text of {} bytes {}", text.len(), shown(text))
    })?;
    Ok((answer, rooms.model().to_vec()))
}

fn compare_write(subject: &dyn Hex, font: &[u16], room: usize, random: &mut Random) -> Result<Answer, String> {
    let mut rooms = Rooms::of_bytes(room, random);
    let answers = [Model.write(font, rooms.model()), subject.write(font, rooms.library())];
    judge(answers, rooms.difference(), || format!("write, room {room}, font {font:?}"))
}

/// Also returns the room after the call.
fn compare_image(
    subject: &dyn Hex,
    image: &[u8],
    room: usize,
    random: &mut Random,
) -> Result<(Answer, Vec<u16>), String> {
    let mut rooms = Rooms::of_rows(room, random);
    let answers = [Model.image_to_font(image, rooms.model()), subject.image_to_font(image, rooms.library())];
    let answer = judge(answers, rooms.difference(), || {
        format!("image to font, font room {room}, image of {} bytes {image:?}", image.len())
    })?;
    Ok((answer, rooms.model().to_vec()))
}

fn image_room(text: &[u8], random: &mut Random) -> usize {
    // The longest texts are few, and a short room must be seen to come before a text too long.
    match random.below(if text.len() > 65_000 { 4 } else { 24 }) {
        0 => random.pick(&[0, 1, 8191, 8191, 4096]),
        1..=8 => IMAGE_BYTES + random.between(1, 60),
        _ => IMAGE_BYTES,
    }
}

/// Reads a text, takes the font from an accepted one, and now and then writes that font again.
fn text_case(subject: &dyn Hex, text: &[u8], random: &mut Random) -> CaseResult {
    let room = image_room(text, random);
    let (answer, image) = compare_read(subject, text, room, random)?;
    if answer.number != 0 {
        return Ok(1);
    }
    let (answer, font) = compare_image(subject, &image[..IMAGE_BYTES], FONT_ROWS, random)?;
    if answer.number != 0 || !random.one_in(40) {
        return Ok(2);
    }
    compare_write(subject, &font, WRITTEN_TEXT, random)?;
    Ok(3)
}

/// One bit of a font's image cleared.
fn bit_case(subject: &dyn Hex, base: &[u8], number: u64, random: &mut Random) -> CaseResult {
    let mut image = base.to_vec();
    image[number as usize] &= !(1 << random.below(8));
    compare_image(subject, &image, FONT_ROWS, random)?;
    Ok(1)
}

fn random_image_case(subject: &dyn Hex, random: &mut Random) -> CaseResult {
    let mut image = image::of_font(&texts::random_font(random));
    for _ in 0..random.below(4) {
        let place = match random.below(4) {
            0 => random.pick(&[0, 17, 18, 31, 32, 1983, 1984, 4095, 4096, 4113, 4114, 6079, 6080, 8191]),
            _ => random.below(IMAGE_BYTES),
        };
        image[place] = random.byte();
    }
    match random.below(8) {
        0 => {
            image.pop();
        }
        1 => image.push(0xFF),
        2 if random.one_in(4) => image.clear(),
        _ => {}
    }
    let room = match random.below(8) {
        0 => random.pick(&[0, 1, 1115, 1117, 1116 + 62]),
        _ => FONT_ROWS,
    };
    compare_image(subject, &image, room, random)?;
    Ok(1)
}

fn text_room(random: &mut Random) -> usize {
    match random.below(4) {
        0 => random.pick(&[0, 12, 22_528, 22_539, 22_539]),
        1 => WRITTEN_TEXT + random.between(1, 60),
        _ => WRITTEN_TEXT,
    }
}

fn write_case(subject: &dyn Hex, random: &mut Random) -> CaseResult {
    let mut font = texts::random_font(random);
    match random.below(12) {
        0 => {
            font.pop();
        }
        1 => font.push(0),
        2 => font.clear(),
        3 | 4 => {
            let number = random.number() % SPOILT_FONTS;
            rows::spoil(&mut font, number, random);
        }
        _ => {}
    }
    let room = text_room(random);
    compare_write(subject, &font, room, random)?;
    Ok(1)
}

/// A font with rows too large, as long as a font is and not.
fn rows_case(subject: &dyn Hex, number: u64, random: &mut Random) -> CaseResult {
    let mut font = texts::random_font(random);
    rows::spoil(&mut font, number, random);
    // No byte of the room is due, so most have few.
    let room = if random.one_in(8) { text_room(random) } else { random.below(20) };
    compare_write(subject, &font, room, random)?;
    match random.below(4) {
        0 => font.truncate(FONT_ROWS - 1),
        1 => font.truncate(random.below(FONT_ROWS)),
        _ => font.extend([0, 4096, u16::MAX, 4095].iter().take(random.between(1, 4))),
    }
    compare_write(subject, &font, room, random)?;
    Ok(2)
}

fn random_case(subject: &dyn Hex, random: &mut Random) -> CaseResult {
    // The text itself comes first: there are to be as many texts as cases.
    let text = texts::random_text(random);
    let mut made = text_case(subject, &text, random)?;
    if random.one_in(50) {
        made += write_case(subject, random)?;
    }
    if random.one_in(10) {
        made += random_image_case(subject, random)?;
    }
    Ok(made)
}

pub fn run(subject: &dyn Hex, plan: &Plan, say: &mut dyn FnMut(String)) -> Result<u64, Difference> {
    let base = image::of_font(&texts::random_font(&mut Random::new(1)));
    if plan.count.is_none() {
        for sort in places::SORTS {
            say(format!("compare hex: {} {}", sort.count, sort.what));
        }
        say(format!("compare hex: {SPOILT_FONTS} fonts with rows too large"));
    }
    let part = Part {
        name: "hex",
        what: "a short text changed everywhere, images with a bit cleared, texts and fonts for places, then random",
        cases: RANDOM_FROM + RANDOM,
        case: &|index, random| match index {
            0..CHANGED_SHORT => {
                let text = texts::changed_short(index).expect("the count covers every change");
                text_case(subject, &text, random)
            }
            CHANGED_SHORT..PLACES_FROM => bit_case(subject, &base, index - CHANGED_SHORT, random),
            PLACES_FROM..ROWS_FROM => {
                let text = places::text(index - PLACES_FROM, random);
                text_case(subject, &text, random)
            }
            ROWS_FROM..RANDOM_FROM => rows_case(subject, index - ROWS_FROM, random),
            _ => random_case(subject, random),
        },
    };
    drive(&part, plan, say)
}

#[cfg(test)]
pub(crate) mod tests {
    use super::*;
    use crate::compare::testing::silent;
    use crate::fast::Fast;
    use std::cell::RefCell;
    use std::collections::BTreeMap;

    pub fn some(subject: &dyn Hex, from: u64, count: u64) -> Result<u64, Difference> {
        run(subject, &Plan { from, count: Some(count), ..Plan::default() }, &mut silent)
    }

    #[test]
    fn the_changes_of_the_short_text_are_all_there() {
        assert!(texts::changed_short(CHANGED_SHORT - 1).is_some());
        assert!(texts::changed_short(CHANGED_SHORT).is_none());
    }

    #[test]
    fn the_fast_one_agrees_with_the_model() {
        assert_eq!(some(&Fast, CHANGED_SHORT, 500).unwrap(), 500);
        assert!(some(&Fast, RANDOM_FROM, 3000).unwrap() > 3000);
        assert!(some(&Fast, 0, 2000).unwrap() >= 2000);
        assert!(some(&Fast, CHANGED_SHORT - 1000, 1000).unwrap() >= 1000);
        assert_eq!(some(&Fast, ROWS_FROM, 3000).unwrap(), 6000);
        assert!(some(&Fast, PLACES_FROM, places::TEXTS).unwrap() >= places::TEXTS);
    }

    /// Counts what the cases come to.
    #[derive(Default)]
    struct Notes {
        reads: RefCell<BTreeMap<u32, u32>>,
        writes: RefCell<BTreeMap<u32, u32>>,
        fonts: RefCell<BTreeMap<u32, u32>>,
        longest: RefCell<BTreeMap<usize, u32>>,
    }

    fn note(notes: &RefCell<BTreeMap<u32, u32>>, answer: Answer) -> Answer {
        *notes.borrow_mut().entry(answer.number).or_default() += 1;
        answer
    }

    impl Hex for Notes {
        fn read(&self, text: &[u8], image: &mut [u8]) -> Answer {
            let answer = Fast.read(text, image);
            if text.len() > 65_000 && (answer.number == 0 || text.len() > 65_535) {
                *self.longest.borrow_mut().entry(text.len()).or_default() += 1;
            }
            note(&self.reads, answer)
        }

        fn write(&self, font: &[u16], text: &mut [u8]) -> Answer {
            note(&self.writes, Fast.write(font, text))
        }

        fn image_to_font(&self, image: &[u8], font: &mut [u16]) -> Answer {
            note(&self.fonts, Fast.image_to_font(image, font))
        }
    }

    #[test]
    fn the_cases_reach_every_number_often() {
        let notes = Notes::default();
        some(&notes, RANDOM_FROM, 8000).unwrap();
        let reads = notes.reads.into_inner();
        for number in [0, 6, 8, 9, 10, 11, 12, 19, 20] {
            assert!(reads.get(&number).is_some_and(|&times| times >= 20), "{number} of {reads:?}");
        }
        assert!(reads[&0] > 2000 && reads[&7] >= 3, "{reads:?}");
        let writes = notes.writes.into_inner();
        assert!([0, 4, 6, 18].iter().all(|number| writes.contains_key(number)), "{writes:?}");
        let fonts = notes.fonts.into_inner();
        assert!([0, 13].iter().all(|number| fonts[number] > 100), "{fonts:?}");
        let longest = notes.longest.into_inner();
        assert!([65_535, 65_536].iter().all(|length| longest.contains_key(length)), "{longest:?}");
    }

    type Read = fn(&[u8], &mut [u8]) -> Answer;

    /// The fast one with one mistake in reading.
    struct Planted(Read);

    impl Hex for Planted {
        fn read(&self, text: &[u8], image: &mut [u8]) -> Answer {
            (self.0)(text, image)
        }

        fn write(&self, font: &[u16], text: &mut [u8]) -> Answer {
            Fast.write(font, text)
        }

        fn image_to_font(&self, image: &[u8], font: &mut [u16]) -> Answer {
            Fast.image_to_font(image, font)
        }
    }

    #[test]
    fn every_planted_mistake_in_reading_is_found() {
        let mistakes: &[(&str, Read)] = &[
            ("always refuses", |_, _| Answer::refused(12, 0)),
            ("a count from the text's length", |text, image| {
                let answer = Fast.read(text, image);
                if answer.number == 0 {
                    Answer::accepted((text.len() as u32).saturating_sub(12) / 44 * 16)
                } else {
                    answer
                }
            }),
            ("fills the image before it sees a bad sum", |text, image| {
                let answer = Fast.read(text, image);
                if answer.number == 8 {
                    image[..IMAGE_BYTES].fill(0xFF);
                }
                answer
            }),
            ("a byte past the image", |text, image| {
                let answer = Fast.read(text, image);
                if answer.number == 0 && image.len() > IMAGE_BYTES {
                    image[IMAGE_BYTES] = 0xFF;
                }
                answer
            }),
            ("the address 8192 refused for no data", |text, image| {
                let marked = text.windows(9).any(|part| part == b":00200000");
                let answer = Fast.read(text, image);
                if marked && answer.number == 0 {
                    Answer::refused(10, 0)
                } else {
                    answer
                }
            }),
            ("65,535 bytes too long", |text, image| {
                if text.len() == 65_535 && image.len() >= IMAGE_BYTES {
                    Answer::refused(7, 0)
                } else {
                    Fast.read(text, image)
                }
            }),
            ("a CR at the very end passed over", |text, image| {
                let answer = Fast.read(text, image);
                let cut = text.strip_suffix(b"\r");
                if answer.number == 19 {
                    cut.map_or(answer, |cut| Fast.read(cut, image))
                } else {
                    answer
                }
            }),
            ("the room judged after the text's length", |text, image| {
                if text.len() > 65_535 {
                    Answer::refused(7, 0)
                } else {
                    Fast.read(text, image)
                }
            }),
        ];
        for (name, mistake) in mistakes {
            let planted = Planted(*mistake);
            let difference = some(&planted, RANDOM_FROM, 30_000).expect_err(name);
            assert!(difference.report.contains("library"), "{name}");
        }
    }

    /// The fast one with one mistake in the other two calls.
    struct Other {
        write: fn(&[u16], &mut [u8]) -> Answer,
        image_to_font: fn(&[u8], &mut [u16]) -> Answer,
    }

    impl Hex for Other {
        fn read(&self, text: &[u8], image: &mut [u8]) -> Answer {
            Fast.read(text, image)
        }

        fn write(&self, font: &[u16], text: &mut [u8]) -> Answer {
            (self.write)(font, text)
        }

        fn image_to_font(&self, image: &[u8], font: &mut [u16]) -> Answer {
            (self.image_to_font)(image, font)
        }
    }

    #[test]
    fn planted_mistakes_in_writing_and_taking_are_found() {
        let good = Other { write: |f, t| Fast.write(f, t), image_to_font: |i, f| Fast.image_to_font(i, f) };
        assert!(some(&good, RANDOM_FROM, 3000).is_ok());
        let mistakes = [
            Other { write: |_, _| Answer::refused(6, 0), ..good },
            Other {
                write: |font, text| {
                    let answer = Fast.write(font, text);
                    if answer.number == 0 && text.len() > WRITTEN_TEXT {
                        text[WRITTEN_TEXT] = 0;
                    }
                    answer
                },
                ..good
            },
            Other {
                image_to_font: |image, font| {
                    let answer = Fast.image_to_font(image, font);
                    if answer.number == 13 {
                        Answer::refused(13, 0)
                    } else {
                        answer
                    }
                },
                ..good
            },
            Other {
                image_to_font: |image, font| {
                    if font.len() > FONT_ROWS {
                        Answer::accepted(0)
                    } else {
                        Fast.image_to_font(image, font)
                    }
                },
                ..good
            },
        ];
        for mistake in mistakes {
            assert!(some(&mistake, RANDOM_FROM, 6000).is_err());
        }
    }
}
