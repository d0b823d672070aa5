//! Random fonts, screens and events, each typed in one of the many ways that the command line takes.

use super::case::Case;
use super::expect::{font, play, show, whole_font, Paint, To};
use super::screen::COLOURS;
use super::table::SAMPLE_TEXT;
use super::text::drawing;
use crate::compare::hex::texts::{random_font, record};
use crate::model::display::{kind, Kind};
use crate::model::hex::written_text;
use crate::model::image;
use crate::parts::Settings;
use crate::random::Random;

/// A number in one of its forms.
pub fn number(value: u32, random: &mut Random) -> String {
    match random.below(8) {
        0 => format!("0x{value:x}"),
        1 => format!("0x{value:04X}"),
        2 => format!("{value:05}"),
        _ => value.to_string(),
    }
}

fn colour(value: u32, random: &mut Random) -> String {
    if random.one_in(3) {
        number(value, random)
    } else {
        COLOURS[value as usize].to_string()
    }
}

pub fn to(index: u64) -> To {
    [To::Nowhere, To::Dash, To::New, To::Old][index as usize % 4]
}

pub fn line_end(random: &mut Random) -> &'static str {
    if random.one_in(6) {
        "\r\n"
    } else {
        "\n"
    }
}

/// Lines as a person might leave them: blanks, comments, empty lines, either line end, perhaps none at the last.
pub fn typed(lines: &[String], random: &mut Random) -> String {
    let mut text = String::new();
    for line in lines {
        if random.one_in(10) {
            text += random.pick(&["; words", "", " \t", "# 14", "\t;"]);
            text += line_end(random);
        }
        text += random.pick(&["", "", "", " ", "\t "]);
        text += &line.replace(' ', random.pick(&[" ", " ", "  ", "\t"]));
        text += random.pick(&["", "", "", " ", " ; 14", "#14", "\t# words"]);
        text += line_end(random);
    }
    if random.one_in(8) {
        text.truncate(text.trim_end().len());
    }
    text
}

pub fn font_text(random: &mut Random) -> Vec<u8> {
    if random.one_in(4) {
        return SAMPLE_TEXT.to_vec();
    }
    written_text(&image::of_font(&random_font(random))).into_bytes()
}

/// A text that lacks one byte.
fn text_but_one(random: &mut Random) -> Vec<u8> {
    let image = image::of_font(&random_font(random));
    let short = random.below(512);
    let lines = image.chunks(16).enumerate().map(|(number, bytes)| {
        let bytes = if number == short { &bytes[..15] } else { bytes };
        [record(16 * number, 0, bytes), b"\n".to_vec()].concat()
    });
    lines.chain([b":00000001FF".to_vec()]).flatten().collect()
}

/// The text with some records left out.
fn partial_text(random: &mut Random) -> Vec<u8> {
    if random.one_in(6) {
        return text_but_one(random);
    }
    let text = font_text(random);
    let one_in = random.pick(&[2, 20, 300]);
    let records = text.split_inclusive(|&byte| byte == b'\n');
    records.filter(|record| record.len() < 44 || !random.one_in(one_in)).flatten().copied().collect()
}

/// Cells in random order, some of them missing.
fn scattered_drawing(random: &mut Random) -> String {
    let font = random_font(random);
    // Whether two neighbours are listed one by one or as a run is left open, so an odd cell is missing alone.
    let mut cells: Vec<usize> = (0..62).filter(|cell| cell % 2 == 0 || !random.one_in(3)).collect();
    if random.one_in(3) {
        cells.retain(|&cell| !(20..50).contains(&cell));
    }
    for place in (1..cells.len()).rev() {
        cells.swap(place, random.below(place + 1));
    }
    let mut drawn = String::new();
    for cell in cells {
        let plain = drawing(&font, &[cell]);
        let heading = format!("cell {cell:02}");
        let name = random.pick(&["", " A", " a longer name", "\t; # ."]);
        drawn += &plain.replacen(&heading, &format!("cell {cell}{name}"), 1);
        drawn += random.pick(&["", "\n", "; words\n"]);
    }
    if random.one_in(3) {
        drawn = drawn.replace('\n', "\r\n");
    }
    drawn
}

/// `font` and `show` of random fonts.
pub fn fonts(index: u64, random: &mut Random) -> Case {
    let name = format!("a random font, {index}");
    let to = to(index / 4);
    match index % 4 {
        0 => show(&name, "f.hex", &font_text(random), &[], to),
        1 => show(&name, "f.hex", &partial_text(random), &[], to),
        2 => {
            let cells: Vec<usize> = (0..random.between(1, 9)).map(|_| random.below(62)).collect();
            show(&name, "-", &font_text(random), &cells, to)
        }
        _ if random.one_in(3) => whole_font(&name, "d.txt", scattered_drawing(random).as_bytes(), to),
        _ => font(&name, "d.txt", scattered_drawing(random).as_bytes(), to),
    }
}

fn random_word(style: usize, random: &mut Random) -> u16 {
    let character = |random: &mut Random| 16 * random.below(62) as u16 + random.word() % 16;
    match (style, random.below(16)) {
        // Text with a few rows, as a maker would have it.
        (0, 0) => 992 + random.word() % 16,
        (0, 1..=3) => 1008 + 2 * random.below(8) as u16,
        (0, _) => character(random),
        // Short rows of every size.
        (1, 0..=5) => 992 + random.word() % 16,
        (1, 6) => 1008 + 2 * random.below(8) as u16,
        (1, _) => character(random),
        // Long rows, some of them too long.
        (2, 0) if random.one_in(3) => 992 + random.word() % 16,
        (2, 0..=2) => 1008 + 2 * random.below(8) as u16,
        (2, _) => character(random),
        // Any word, an end among them once in a while.
        _ => random.word() % 1024,
    }
}

/// A word in one of its forms; where there are names, most characters have one.
fn word_line(word: u16, names: &[String], random: &mut Random) -> String {
    // The colour of an end is dropped, and only the number can say it.
    if random.one_in(if names.is_empty() { 4 } else { 12 }) || (word > 1009 && word % 2 == 1) {
        return number(u32::from(word), random);
    }
    match kind(word) {
        Kind::Character { code, colour: of, blink } => {
            let blink = if blink { " blink" } else { "" };
            let by_cell = names.is_empty() || random.one_in(6);
            let which =
                if by_cell { number(u32::from(code), random) } else { names[random.below(names.len())].clone() };
            format!("character {which} {}{blink}", colour(u32::from(of), random))
        }
        Kind::Space { background } => format!("space {}", colour(u32::from(background), random)),
        Kind::Return { size, spacing } => format!("return {} {}", number(size, random), number(spacing, random)),
        Kind::End => "end".to_string(),
    }
}

pub fn screen_text(random: &mut Random) -> String {
    screen_naming(&[], random)
}

/// A screen with some of these names.
pub fn screen_naming(names: &[String], random: &mut Random) -> String {
    let style = random.below(4);
    let words = if random.one_in(3) { 64 } else { random.below(65) };
    let lines: Vec<String> = (0..words)
        .map(|_| {
            let word = random_word(style, random);
            word_line(word, names, random)
        })
        .collect();
    typed(&lines, random)
}

/// Sets an option, now and then, and notes how it is typed.
fn option(words: &mut String, name: &str, value: u32, random: &mut Random) -> u32 {
    let typed = if name == "--colour" { colour(value, random) } else { number(value, random) };
    let between = if random.one_in(3) { "=" } else { " " };
    *words += &format!(" {name}{between}{typed}");
    value
}

/// Settings, and how they are typed; most are left at their defaults. Of the modes it is mostly the one with shadows.
pub fn random_settings(paint: &mut Paint, random: &mut Random) {
    let mut words = String::new();
    let mut some = |name: &str, default: u32, value: u32, random: &mut Random| {
        if random.one_in(2) {
            return default;
        }
        option(&mut words, name, value, random)
    };
    paint.settings = Settings {
        on: true,
        mode: some("--mode", 2, random.pick(&[0, 1, 1, 1, 2, 3]), random),
        colour: some("--colour", 0, random.below(8) as u32, random),
        h: some("--h", 0, random.below(64) as u32, random),
        v: some("--v", 0, random.below(64) as u32, random),
        ratio: some("--ratio", 0, random.below(3) as u32, random),
        frequency: some("--frequency", 0, random.below(4) as u32, random),
    };
    if random.one_in(12) {
        words += " --off";
        paint.settings.on = false;
    }
    if random.one_in(2) {
        let frame = if random.one_in(4) { random.double_word() } else { random.below(130) as u32 };
        paint.frame = option(&mut words, "--frame", frame, random);
    }
    if random.one_in(4) {
        let width = if random.one_in(4) { 1024 } else { random.between(1, 400) as u32 };
        paint.width = Some(option(&mut words, "--width", width, random));
    }
    if random.one_in(4) {
        let lines = if random.one_in(8) { 1024 } else { random.between(1, 200) as u32 };
        paint.lines = Some(option(&mut words, "--lines", lines, random));
    }
    paint.words = words;
}

/// `paint` of random screens with random fonts and settings.
pub fn pictures(index: u64, random: &mut Random) -> Case {
    let (screen, font) = (screen_text(random), font_text(random));
    let mut paint = Paint { to: to(index / 2), text: index % 2 == 1, ..Paint::new(screen.as_bytes(), &font) };
    random_settings(&mut paint, random);
    match random.below(6) {
        0 => paint.screen.0 = "-",
        1 => paint.font.0 = "-",
        _ => {}
    }
    paint.case(&format!("a random screen, {index}"))
}

pub fn events_text(random: &mut Random) -> String {
    let most = random.pick(&[300, 2_000, 40_000, 100_000]);
    let mut left = most;
    let mut lines = Vec::new();
    for _ in 0..random.between(0, 60) {
        let line = match random.below(16) {
            0..=3 => format!("low {}", number(u32::from(random.byte()), random)),
            4..=7 => format!("high {}", number(u32::from(random.byte()), random)),
            8 => "reset".to_string(),
            _ => {
                let clocks = match random.below(7) {
                    0 => 0,
                    1 => random.between(1, 16384),
                    6 => 1,
                    2 | 3 => 16384,
                    _ => random.between(1, 300),
                };
                let clocks = clocks.min(left);
                left -= clocks;
                format!("play {}", number(clocks as u32, random))
            }
        };
        lines.push(line);
    }
    typed(&lines, random)
}

/// `play` of random events.
pub fn waves(index: u64, random: &mut Random) -> Case {
    let file = if random.one_in(6) { "-" } else { "e.txt" };
    // A file's wave by turns with the periods alone.
    let to = [To::New, To::Old, To::Dash, To::Nowhere][index as usize % 4];
    play(&format!("random events, {index}"), file, events_text(random).as_bytes(), to)
}

#[cfg(test)]
mod tests {
    use super::*;
    use crate::cli::case::Said;
    use crate::cli::glyphs::Naming;
    use crate::cli::screen::screen;
    use crate::cli::wave::{events, Wave};

    #[test]
    fn every_screen_is_good_and_every_sort_of_word_is_there() {
        let mut random = Random::new(5);
        let texts: Vec<String> = (0..300).map(|_| screen_text(&mut random)).collect();
        assert!(texts.iter().all(|text| screen(text.as_bytes(), &Naming::default()).is_ok()));
        for sort in ["character", "space", "return", "end", "blink", "0x", "\r\n", ";", "#"] {
            assert!(texts.iter().any(|text| text.contains(sort)), "{sort}");
        }
    }

    #[test]
    fn every_file_of_events_is_good_and_periods_are_whole_and_cut() {
        let mut random = Random::new(6);
        let mut lines = String::new();
        for _ in 0..60 {
            lines += &Wave::of(&events(events_text(&mut random).as_bytes()).unwrap()).lines();
        }
        assert!(lines.lines().filter(|line| line.ends_with("clocks")).count() > 40);
        assert!(lines.lines().filter(|line| !line.ends_with("clocks")).count() > 40);
        assert!(lines.lines().filter(|line| line.ends_with(" in 1 clock")).count() > 2);
    }

    /// Of the random cases as many as the program is given, how many say a line with this in it.
    fn saying(make: fn(u64, &mut Random) -> Case, number: u64, what: &str) -> usize {
        let said = |index: u64| match make(index, &mut Random::of_case(crate::compare::DEFAULT_SEED, index)).said {
            Said::Lines(lines) => lines.iter().any(|line| line.start.contains(what)),
            _ => false,
        };
        (0..number).filter(|&index| said(index)).count()
    }

    #[test]
    fn every_warning_is_due_somewhere() {
        assert!(saying(pictures, 300, ": warning: the cells reach ") > 10);
        assert!(saying(pictures, 300, ": warning: no word is given") > 0);
        assert!(saying(waves, 300, ": warning: no clock is played") > 3);
        assert!(saying(fonts, 200, " cells are not drawn and are empty") > 10);
        assert!(saying(fonts, 200, ": 1 of 8192 bytes is not given") > 2);
        assert!(saying(fonts, 200, " cells are not drawn: ") > 5);
    }

    #[test]
    fn drawings_are_good_and_some_are_not_whole() {
        let mut random = Random::new(7);
        let missing = |random: &mut Random| {
            let drawing = scattered_drawing(random);
            crate::draw::drawn(drawing.as_bytes()).unwrap().missing.len()
        };
        assert!((0..20).map(|_| missing(&mut random)).max() > Some(30));
    }
}
