//! Damaged inputs: whatever comes in, the program ends by itself, says what is wrong, and leaves the output alone.
//!
//! What the files must come to is asked of the model here too. Only words that are typed at random have no expected
//! answer; of those the rules that hold for every run are left: a status of 0, 1 or 2, a message unless it is 0, and an
//! output file that is complete or as it was.

use super::case::{case, Case, Said};
use super::expect::{check, font, pack, play, show, whole_font, Paint, To, OUTPUT, PAINT_OPTIONS, TABLE};
use super::random_glyphs::{drawings_text, packed, table_by_hand};
use super::randomly::{events_text, font_text, number, screen_naming, screen_text};
use super::table::{SAMPLE_DRAWING, SAMPLE_GLYPHS, SAMPLE_TEXT};
use super::text::BYTE_ORDER_MARK;
use crate::cases::all as texts_by_hand;
use crate::compare::hex::places;
use crate::compare::hex::texts::random_text;
use crate::model::hex::WRITTEN_TEXT;
use crate::random::Random;

/// Words that mean something somewhere, or nearly.
const WORDS: &[&str] = &[
    "character",
    "space",
    "return",
    "end",
    "blink",
    "red",
    "white",
    "low",
    "high",
    "play",
    "reset",
    "cell",
    "cell 1 A",
    "glyph",
    "glyph A",
    "font",
    "font 00000000",
    ";",
    "#",
    "-1",
    "0x",
    "0",
    "61",
    "62",
    "64",
    "255",
    "256",
    "1009",
    "1023",
    "1024",
    "16384",
    "16385",
    "4294967295",
    "4294967296",
    "18446744073709551616",
    "99999999999999999999999999999999",
    "0xFFFFFFFF",
    "0x100000000",
    ":00000001FF",
    "%s%n",
    "\u{e9}",
    "\u{3a9}",
    "\u{200b}",
];

/// Where the lines start.
fn starts(bytes: &[u8]) -> Vec<usize> {
    let ends = bytes.iter().enumerate().filter(|(_, &byte)| byte == b'\n').map(|(at, _)| at + 1);
    std::iter::once(0).chain(ends).collect()
}

fn insert(bytes: &mut Vec<u8>, place: usize, more: &[u8]) {
    bytes.splice(place..place, more.iter().copied());
}

/// Changes whole lines: one twice, one away, two exchanged, a new one.
fn damage_lines(bytes: &mut Vec<u8>, random: &mut Random) {
    let starts = starts(bytes);
    let at = random.below(starts.len());
    let (start, end) = (starts[at], starts.get(at + 1).copied().unwrap_or(bytes.len()));
    let line = bytes[start..end].to_vec();
    match random.below(4) {
        0 => insert(bytes, start, &line),
        1 => drop(bytes.drain(start..end)),
        2 => {
            bytes.drain(start..end);
            let to = random.pick(&starts).min(bytes.len());
            insert(bytes, to, &line);
        }
        _ => {
            let words: Vec<&str> = (0..random.between(1, 4)).map(|_| random.pick(WORDS)).collect();
            insert(bytes, start, (words.join(" ") + "\n").as_bytes());
        }
    }
}

fn damage_once(bytes: &mut Vec<u8>, random: &mut Random) {
    let place = random.below(bytes.len() + 1);
    match random.below(15) {
        0 | 1 if place < bytes.len() => bytes[place] ^= 1 << random.below(8),
        2 if place < bytes.len() => bytes[place] = random.byte(),
        3 => bytes.truncate(place),
        4 => drop(bytes.drain(..place)),
        5 => insert(bytes, place, &[random.pick(b"\0\r\n\t \x1b\x7f;#:0F.x")]),
        6 => insert(bytes, place, &[0x80 | random.byte()]),
        7 => insert(bytes, place, random.pick(WORDS).as_bytes()),
        8 => {
            let length = random.pick(&[300, 5_000, 70_000]);
            insert(bytes, place, &vec![random.pick(b"0#. x\0\xff9"); length]);
        }
        9 => {
            let mut noise = vec![0; random.below(60)];
            random.fill(&mut noise);
            insert(bytes, place, &noise);
        }
        14 => insert(bytes, 0, BYTE_ORDER_MARK),
        10 => *bytes = bytes.iter().flat_map(|&byte| if byte == b'\n' { vec![13, 10] } else { vec![byte] }).collect(),
        _ => damage_lines(bytes, random),
    }
}

fn damaged(bytes: impl Into<Vec<u8>>, random: &mut Random) -> Vec<u8> {
    let mut bytes = bytes.into();
    for _ in 0..random.pick(&[1, 1, 1, 2, 3, 8]) {
        damage_once(&mut bytes, random);
    }
    bytes
}

fn noise(random: &mut Random) -> Vec<u8> {
    let mut bytes = vec![0; random.pick(&[1, 10, 200, 70_000])];
    random.fill(&mut bytes);
    bytes
}

fn a_text(random: &mut Random) -> Vec<u8> {
    match random.below(12) {
        0 => noise(random),
        1 => damaged(SAMPLE_DRAWING, random),
        2..=4 => damaged(SAMPLE_TEXT, random),
        5 => {
            let text = font_text(random);
            damaged(text, random)
        }
        6 | 7 => {
            let number = random.number() % places::TEXTS;
            places::text(number, random)
        }
        _ => random_text(random),
    }
}

/// One of the texts made for `fontcheck`, damaged.
fn a_known_text(random: &mut Random) -> Vec<u8> {
    let mut all = texts_by_hand();
    let text = all.swap_remove(random.below(all.len())).text;
    damaged(text, random)
}

fn with_cells_left_out(random: &mut Random) -> Vec<u8> {
    let drawing = String::from_utf8_lossy(SAMPLE_DRAWING);
    let one_in = random.pick(&[2, 20, 60]);
    let mut cells = drawing.split("\ncell ");
    let remarks = cells.next().unwrap_or_default().to_string();
    let kept = cells.filter(|_| !random.one_in(one_in)).map(|cell| format!("\ncell {cell}"));
    (remarks + &kept.collect::<String>()).into_bytes()
}

fn a_drawing(random: &mut Random) -> Vec<u8> {
    match random.below(10) {
        0 => noise(random),
        1 => damaged(SAMPLE_TEXT, random),
        2 => {
            // A few cells only.
            let end = random.between(200, 3000);
            damaged(&SAMPLE_DRAWING[..end], random)
        }
        3 | 4 => {
            let drawing = with_cells_left_out(random);
            if random.one_in(2) {
                damaged(drawing, random)
            } else {
                drawing
            }
        }
        _ => damaged(SAMPLE_DRAWING, random),
    }
}

/// The sample's glyphs as a careless person leaves them: some are left out, moved or drawn twice, dots are wrong.
fn careless_glyphs(random: &mut Random) -> Vec<u8> {
    let drawings = String::from_utf8_lossy(SAMPLE_GLYPHS);
    let one_in = random.pick(&[2, 20, 60]);
    let mut glyphs: Vec<String> = drawings.split("\nglyph ").map(|glyph| format!("\nglyph {glyph}")).skip(1).collect();
    glyphs.retain(|_| !random.one_in(one_in));
    for glyph in &mut glyphs {
        if random.one_in(one_in) {
            let (dot, other) = random.pick(&[("#.", ".."), (".#", "##"), (".", "#"), ("#", ".")]);
            *glyph = glyph.replacen(dot, other, 1);
        }
    }
    if random.one_in(2) && !glyphs.is_empty() {
        let (from, to) = (random.below(glyphs.len()), random.below(glyphs.len()));
        let glyph = if random.one_in(2) { glyphs.remove(from) } else { glyphs[from].clone() };
        glyphs.insert(to.min(glyphs.len()), glyph);
    }
    glyphs.concat().into_bytes()
}

fn drawn_glyphs(random: &mut Random) -> Vec<u8> {
    match random.below(12) {
        0 => noise(random),
        1 => damaged(SAMPLE_DRAWING, random),
        10 | 11 => careless_glyphs(random),
        2..=4 => {
            let text = drawings_text(random);
            damaged(text, random)
        }
        5 => {
            // A few glyphs only.
            let end = random.between(600, 3000);
            damaged(&SAMPLE_GLYPHS[..end], random)
        }
        _ => damaged(SAMPLE_GLYPHS, random),
    }
}

/// A screen that names glyphs, and the table, of which one is damaged or neither, or the font.
fn named_screen(name: &str, to: To, random: &mut Random) -> Case {
    let (drawn, packed) = packed(random);
    let table = if random.one_in(2) { packed.table.clone() } else { table_by_hand(&drawn, &packed, random) };
    let (mut table, mut font) = (table.into_bytes(), packed.text.into_bytes());
    let mut screen = screen_naming(&drawn.names, random).into_bytes();
    match random.below(10) {
        0 => table = noise(random),
        1..=5 => table = damaged(table, random),
        6 | 7 => screen = damaged(screen, random),
        8 => font = font_text(random),
        _ => (table, screen) = (damaged(table, random), damaged(screen, random)),
    }
    let (file, text) = (named("t.txt", random), random.one_in(2));
    let paint = Paint { to, text, table: Some((file, &table)), ..Paint::new(&screen, &font) };
    paint.case(name)
}

fn a_screen(random: &mut Random) -> Vec<u8> {
    if random.one_in(12) {
        return noise(random);
    }
    let text = screen_text(random);
    damaged(text, random)
}

fn some_events(random: &mut Random) -> Vec<u8> {
    if random.one_in(12) {
        return noise(random);
    }
    let text = events_text(random);
    damaged(text, random)
}

/// A word of a command line, right or not.
fn argument(command: &str, random: &mut Random) -> Vec<u8> {
    // Where the outputs go is said by `words`.
    let output = |option: &str| option == "-o" || option == "--table" && command == "pack";
    let others = ["--whole", "--nothing", "-x"];
    let options: Vec<&str> = PAINT_OPTIONS.iter().copied().filter(|&option| !output(option)).chain(others).collect();
    let value = |random: &mut Random| match random.below(4) {
        0 => number(random.double_word(), random),
        1 => random.pick(WORDS).to_string(),
        _ => random.below(70).to_string(),
    };
    match random.below(8) {
        0..=2 => random.pick(&options).into(),
        3 => format!("{}={}", random.pick(&options), value(random)).into(),
        4 => random.pick(&["f.hex", "d.txt", "g.txt", "t.txt", "s", "e", "-", "", "none", "."]).into(),
        5 if command != "help" => (0..random.between(1, 40)).map(|_| random.byte() | 1).collect(),
        _ => value(random).into(),
    }
}

fn is_text(bytes: &[u8]) -> bool {
    bytes.len() == WRITTEN_TEXT
}

fn is_drawing(bytes: &[u8]) -> bool {
    (bytes.len() + 1) % (8 + 18 * 13 + 1) == 0
}

fn is_table(bytes: &[u8]) -> bool {
    bytes.starts_with(b"; ") && bytes.ends_with(b"\n") && super::glyphs::table(bytes).is_ok()
}

fn is_picture(bytes: &[u8]) -> bool {
    let Some(rest) = bytes.strip_prefix(b"P6\n") else {
        // Lines of equal length.
        let width = bytes.iter().position(|&byte| byte == b'\n').unwrap_or(0);
        return width > 0 && bytes.chunks(width + 1).all(|line| line.len() == width + 1 && line[width] == b'\n');
    };
    let size = rest.split(|&byte| byte == b'\n').next().unwrap_or_default();
    let numbers: Vec<usize> = String::from_utf8_lossy(size).split(' ').filter_map(|word| word.parse().ok()).collect();
    numbers.len() == 2 && rest.len() == size.len() + 5 + 3 * numbers[0] * numbers[1]
}

fn is_wave(bytes: &[u8]) -> bool {
    let last = bytes.strip_suffix(b"\n").and_then(|rest| rest.rsplit(|&byte| byte == b'\n').next());
    last.and_then(|line| line.strip_prefix(b"#")).is_some_and(|digits| crate::lines::number(digits).is_some())
}

type Test = fn(&[u8]) -> bool;

/// The commands with words that do, and the test of their output.
const COMMANDS: &[(&str, &str, Test)] = &[
    ("check", "f.hex", |_| false),
    ("font", "d.txt", is_text),
    ("pack", "g.txt --table table.out", is_text),
    ("show", "f.hex", is_drawing),
    ("paint", "s --font f.hex", is_picture),
    ("play", "e", is_wave),
    ("pulse", "4 194", |_| false),
];

/// Any words at all, with good files or damaged ones.
fn words(name: &str, random: &mut Random) -> Case {
    let (command, usual, complete) = random.pick(COMMANDS);
    let mut made = case(name, &format!("{command} {usual} -o {OUTPUT}"));
    for _ in 0..random.between(1, 5) {
        let place = random.between(1, made.words.len());
        made.words.insert(place, argument(command, random));
        if random.one_in(6) {
            let place = random.below(made.words.len());
            made.words.remove(place);
        }
    }
    // Only files that are named once, and at their places, are watched for what is written.
    let at_its_place = |option: &str, file: &str| {
        let pairs: Vec<&[Vec<u8>]> = made.words.windows(2).filter(|pair| pair[0] == option.as_bytes()).collect();
        pairs.len() == 1 && pairs[0][1] == file.as_bytes() && made.words[0] == command.as_bytes()
    };
    let named = at_its_place("-o", OUTPUT) && (command != "pack" || at_its_place("--table", TABLE));
    let (text, screen) = (if random.one_in(4) { a_text(random) } else { SAMPLE_TEXT.to_vec() }, screen_text(random));
    let made = made.file("f.hex", text).file("d.txt", SAMPLE_DRAWING).file("s", screen).file("e", events_text(random));
    let made = made.file("g.txt", SAMPLE_GLYPHS).file("t.txt", "cell 1 A\n").file(TABLE, "as it was\n");
    let made = made.file(OUTPUT, "as it was\n").input(SAMPLE_TEXT).any_status().said(Said::IfNotDone);
    let made = if command == "check" { made.any_out() } else { made.out_if_done() };
    match (named, command) {
        (true, "pack") => made.writes_if_done(OUTPUT, complete).writes_if_done(TABLE, is_table),
        (true, _) => made.writes_if_done(OUTPUT, complete),
        (false, _) => Case { words: without_output(made.words), ..made },
    }
}

/// Words that name no output, where it is not plain which file that would be.
fn without_output(words: Vec<Vec<u8>>) -> Vec<Vec<u8>> {
    let table = words.first().is_some_and(|word| word == b"pack");
    words.into_iter().filter(|word| word != b"-o" && !(table && word == b"--table")).collect()
}

/// The name of a file, in a few of them with what a terminal would not show.
fn named(usual: &'static str, random: &mut Random) -> &'static str {
    let odd = ["a\x1B[2J", "\x01", "b\nc", "\u{e9}\x7F.hex", "a b", "%n%s%s", "\u{200b}", "x\\x01", "'\"`"];
    if random.one_in(8) {
        random.pick(&odd)
    } else {
        usual
    }
}

/// One damaged input.
pub fn cases(index: u64, random: &mut Random) -> Case {
    let name = format!("damaged input {index}");
    let to = random.pick(&[To::Old, To::Old, To::Old, To::Nowhere, To::Dash]);
    match index % 14 {
        0 => {
            let (one, two) = (a_text(random), a_text(random));
            let file = if random.one_in(4) { "-" } else { named("a.hex", random) };
            check(&name, random.one_in(3), &[(file, Some(&one)), ("b.hex", Some(&two))])
        }
        1 | 2 => {
            let text = if random.one_in(2) { a_text(random) } else { a_known_text(random) };
            check(&name, random.one_in(6), &[(named("a.hex", random), Some(&text))])
        }
        3 | 4 if random.one_in(4) => whole_font(&name, named("d.txt", random), &a_drawing(random), to),
        3 | 4 => font(&name, named("d.txt", random), &a_drawing(random), to),
        5 => {
            let cells: Vec<usize> = (0..random.below(4)).map(|_| random.below(62)).collect();
            show(&name, named("f.hex", random), &a_text(random), &cells, to)
        }
        6 => {
            let screen = a_screen(random);
            let (file, text) = (named("screen", random), random.one_in(2));
            Paint { screen: (file, &screen), to, text, ..Paint::new(b"", SAMPLE_TEXT) }.case(&name)
        }
        7 => {
            let (screen, font) = (screen_text(random), a_text(random));
            Paint { to, ..Paint::new(screen.as_bytes(), &font) }.case(&name)
        }
        8 => play(&name, named("e.txt", random), &some_events(random), to),
        9 | 10 => {
            let table_to = if to == To::Old { random.pick(&[To::Old, To::Nowhere]) } else { To::Nowhere };
            pack(&name, named("g.txt", random), &drawn_glyphs(random), to, table_to)
        }
        11 | 12 => named_screen(&name, to, random),
        _ => words(&name, random),
    }
}

#[cfg(test)]
mod tests {
    use super::*;

    #[test]
    fn damage_is_refused_taken_and_of_every_command() {
        let mut seen = std::collections::BTreeMap::new();
        for index in 0..1120 {
            let case = cases(index, &mut Random::of_case(1, index));
            let command = case.words.first().map(|word| String::from_utf8_lossy(word).into_owned());
            *seen.entry((command.unwrap_or_default(), case.status)).or_insert(0) += 1;
        }
        for command in ["check", "font", "pack", "show", "paint", "play"] {
            for status in [Some(0), Some(1)] {
                let number = seen.get(&(command.to_string(), status)).copied().unwrap_or(0);
                assert!(number >= 3, "{command} {status:?}: {number}");
            }
        }
    }

    #[test]
    fn complete_outputs_are_known() {
        assert!(is_picture(b"P6\n2 1\n255\n123456"));
        assert!(!is_picture(b"P6\n2 1\n255\n12345"));
        assert!(is_picture(b" #\n..\n") && !is_picture(b" #\n.\n") && !is_picture(b""));
        assert!(is_wave(b"$end\n#0\n") && !is_wave(b"$end\n#0") && !is_wave(b"$end\n0l\n"));
        assert!(is_text(SAMPLE_TEXT) && !is_text(&SAMPLE_TEXT[1..]));
        let drawing = super::super::text::drawing(&[0; 1116], &[1, 2]);
        assert!(is_drawing(drawing.as_bytes()) && !is_drawing(b"cell 00\n"));
    }
}
