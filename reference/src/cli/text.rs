//! What the commands say about a font's text, and what `show` prints of it.

use super::case::Line;
use crate::lines::lines;
use crate::model::hex;
use crate::model::image::{self, CELLS, FONT_ROWS, IMAGE_BYTES, ROWS};
use crate::model::Refusal;

/// The program reads no further: so many bytes are enough to know that a text is too long.
const MOST_READ: usize = hex::LONGEST_TEXT + 1;

/// What some editors put before a text, and what a message about it has to name.
pub const BYTE_ORDER_MARK: &[u8] = b"\xEF\xBB\xBF";
pub const MARK_NAMED: &str = "byte order mark";

/// A text that the library accepts.
pub struct Good {
    pub font: Vec<u16>,
    pub count: u32,
    /// The addresses that no record gives.
    pub not_given: Vec<usize>,
}

/// The line that has a place of the text, counted from 1.
fn line_of(text: &[u8], place: usize) -> usize {
    text[..place].iter().filter(|&&byte| byte == b'\n').count() + 1
}

/// Where the line that has a place of the text starts.
fn start_of_line(text: &[u8], place: usize) -> usize {
    text[..place].iter().rposition(|&byte| byte == b'\n').map_or(0, |end| end + 1)
}

/// The last line, which for an empty text is the first.
fn last_line(text: &[u8]) -> usize {
    line_of(text, text.len().saturating_sub(1))
}

/// For each byte of the image the line that gives it, in a text whose records are all in order.
fn givers(text: &[u8]) -> Vec<Option<usize>> {
    let mut givers = vec![None; IMAGE_BYTES];
    for (index, line) in text.split(|&byte| byte == b'\n').enumerate() {
        let digits = String::from_utf8_lossy(line);
        let value = |from: usize, to: usize| digits.get(from..to).and_then(|two| usize::from_str_radix(two, 16).ok());
        // A colon, two digits of length, four of address.
        let (Some(length), Some(address)) = (value(1, 3), value(3, 7)) else {
            continue;
        };
        for giver in &mut givers[address..address + length] {
            *giver = Some(index + 1);
        }
    }
    givers
}

/// The bytes of a line that has only digits after its colon.
fn bytes_of(line: &[u8]) -> Vec<u8> {
    let digits = String::from_utf8_lossy(line.get(1..).unwrap_or_default()).trim_end().to_string();
    let two = |at: usize| digits.get(at..at + 2).and_then(|two| u8::from_str_radix(two, 16).ok());
    (0..digits.len()).step_by(2).map_while(two).collect()
}

/// A line above so many bytes is shown in part.
const SHOWN: usize = 72;
/// What the shown line and the mark begin with.
const INDENT: &str = "    ";

/// A line as it is shown under a message, and below it the mark under one of its characters.
fn shown(line: &[u8], character: usize) -> [String; 2] {
    // Half of what is shown lies before the character, unless the line begins or ends within that.
    let from = character.saturating_sub(SHOWN / 2).min(line.len().saturating_sub(SHOWN));
    let to = line.len().min(from + SHOWN);
    let seen = |&byte: &u8| if (b' '..=b'~').contains(&byte) { char::from(byte) } else { '?' };
    let mut part: String = line[from..to].iter().map(seen).collect();
    if from > 0 {
        part.replace_range(..3, "...");
    }
    if to < line.len() {
        part.replace_range(part.len() - 3.., "...");
    }
    [format!("{INDENT}{part}"), format!("{INDENT}{}^", " ".repeat(character - from))]
}

/// A bad character as a message names it.
fn quoted(byte: u8) -> String {
    match byte {
        b' '..=b'~' => format!("'{}'", char::from(byte)),
        _ => format!("'\\x{byte:02X}'"),
    }
}

/// The message about a bad character of a line, of which start and end are given.
fn character_line(start: &str, end: &str, line: &[u8], character: usize) -> Line {
    let what = quoted(line[character]);
    let message = match character {
        0 => Line::new(start, end).naming(format!("column 1: {what}")).naming("colon"),
        _ => Line::new(format!("{start}column {}: {what} is no hexadecimal digit", character + 1), end).without_more(),
    };
    message.over(shown(line, character))
}

/// What is said of a line that has no bad character and not a record's shape.
fn shape_names(line: &[u8]) -> Vec<String> {
    let digits = line.len().saturating_sub(1);
    let bytes = bytes_of(line);
    match bytes.first() {
        _ if line.is_empty() => vec!["the line is empty: remove it".to_string()],
        _ if digits % 2 == 1 => vec![format!("an odd number of digits, {digits}: each byte has two")],
        None => vec!["no byte follows the colon".to_string()],
        Some(&length) => vec![
            format!("length {length:02X} asks for {} bytes", 5 + usize::from(length)),
            format!("has {}", bytes.len()),
        ],
    }
}

/// What a message names of a record beside its number.
fn record_names(number: u32, line: &[u8], before: &[u8]) -> Vec<String> {
    if number == 20 {
        return shape_names(line);
    }
    let bytes = bytes_of(line);
    let (length, address) = (usize::from(bytes[0]), 256 * usize::from(bytes[1]) + usize::from(bytes[2]));
    let sum = bytes.iter().fold(0u8, |sum, byte| sum.wrapping_add(*byte));
    let found = bytes[bytes.len() - 1];
    match number {
        8 => vec![format!("{found:02X}"), format!("{:02X}", found.wrapping_sub(sum))],
        9 if bytes[3] > 1 => vec![format!("{:02X}", bytes[3])],
        9 if address == 0 => vec!["length".to_string()],
        9 if length == 0 => vec!["address".to_string()],
        10 => vec![format!("{address:04X}")],
        11 => {
            // The lines before this one are in order, so each byte has one giver.
            let givers = givers(before);
            let twice = (address..address + length).find(|&at| givers[at].is_some()).unwrap_or(address);
            vec![format!("{twice:04X}"), format!("line {}", givers[twice].unwrap_or(0))]
        }
        _ => Vec::new(),
    }
}

/// What a message names of an address that has not the bits of a font's image.
fn image_names(address: usize) -> Vec<String> {
    let (cell, row) = (address % 4096 / 32, address % 32);
    let holder = match (cell < CELLS, row < ROWS) {
        (true, true) => format!("cell {cell} row {row}"),
        (true, false) => format!("cell {cell}"),
        _ => "past the last cell".to_string(),
    };
    vec![format!("{address:04X}"), holder]
}

/// What names that a text which is refused at its start is another thing altogether, if it is.
fn something_else(text: &[u8]) -> Option<Vec<String>> {
    if text.starts_with(BYTE_ORDER_MARK) {
        return Some(vec![MARK_NAMED.to_string()]);
    }
    // An image has a hint of its own.
    (text.len() == IMAGE_BYTES && text[0] != b':').then(Vec::new)
}

fn refusal_line(name: &str, text: &[u8], refusal: Refusal) -> Line {
    let Refusal { number, place } = refusal;
    let at = place as usize;
    let end = format!(" (refused {number} at {place})");
    let start_of_record = |line: usize| format!("{name}:{line}: record {line}: ");
    let (start, names) = match (number, something_else(text)) {
        (7, _) => (format!("{name}: "), Vec::new()),
        (12, _) if at == text.len() => (format!("{name}:{}: ", last_line(text)), vec![":00000001FF".to_string()]),
        (12, _) => (format!("{name}:{}: ", line_of(text, at)), Vec::new()),
        (13, _) => {
            let line = givers(text)[at].expect("a byte that is not given is FF");
            (start_of_record(line), image_names(at))
        }
        (19 | 20, Some(names)) if at == 0 => (start_of_record(1), names),
        _ => {
            let (line, first) = (line_of(text, at), start_of_line(text, at));
            let body = lines(&text[first..]).first().copied().unwrap_or_default();
            if number == 19 {
                return character_line(&start_of_record(line), &end, body, at - first);
            }
            (start_of_record(line), record_names(number, body, &text[..at]))
        }
    };
    names.into_iter().fold(Line::new(start, end), Line::naming)
}

/// Reads a text as `check` does, or gives the line that says why it is refused.
pub fn read(name: &str, text: &[u8]) -> Result<Good, Line> {
    let text = &text[..text.len().min(MOST_READ)];
    let mut image = vec![0; IMAGE_BYTES];
    let mut font = vec![0; FONT_ROWS];
    let count = hex::read(text, &mut image).map_err(|refusal| refusal_line(name, text, refusal))?;
    image::to_font(&image, &mut font).map_err(|refusal| refusal_line(name, text, refusal))?;
    let not_given = givers(text).iter().enumerate().filter(|(_, giver)| giver.is_none()).map(|(at, _)| at).collect();
    Ok(Good { font, count, not_given })
}

/// What an address holds: the row of a cell, or no row.
fn holder(address: usize) -> String {
    let (cell, row) = (address % 4096 / 32, address % 32);
    if cell < CELLS && row < ROWS {
        format!("cell {cell} row {row}")
    } else {
        "no row's".to_string()
    }
}

/// What is said of an accepted text that does not give every byte.
pub fn partial(name: &str, good: &Good, word: &str) -> Option<Line> {
    let first = *good.not_given.first()?;
    let what = match good.not_given.len() {
        1 => "1 of 8192 bytes is not given; it counts".to_string(),
        number => format!("{number} of 8192 bytes are not given; they count"),
    };
    Some(Line::exactly(format!(
        "{name}: {word}{what} as FF, which is lit dots in a row: first at address {first:04X} ({})",
        holder(first)
    )))
}

/// The lines that a command which only warns has about a text.
pub fn warnings(name: &str, good: &Good) -> Vec<Line> {
    partial(name, good, "warning: ").into_iter().collect()
}

/// One cell as `show` draws it.
fn drawn_cell(font: &[u16], cell: usize) -> String {
    let mut drawing = format!("cell {cell:02}\n");
    for row in &font[ROWS * cell..ROWS * cell + ROWS] {
        drawing.extend((0..12).rev().map(|bit| if row >> bit & 1 == 1 { '#' } else { '.' }));
        drawing.push('\n');
    }
    drawing
}

/// What `show` prints of these cells.
pub fn drawing(font: &[u16], cells: &[usize]) -> String {
    let cells: Vec<String> = cells.iter().map(|&cell| drawn_cell(font, cell)).collect();
    cells.join("\n")
}

pub fn whole_drawing(font: &[u16]) -> String {
    drawing(font, &(0..CELLS).collect::<Vec<usize>>())
}

#[cfg(test)]
mod tests {
    use super::*;
    use crate::cases;
    use crate::draw;
    use crate::model::hex::written_text;
    use crate::random::Random;

    fn said(text: &[u8]) -> String {
        match read("F", text) {
            Ok(good) => match partial("F", &good, "") {
                Some(line) => line.to_string(),
                None => format!("whole {}", good.count),
            },
            Err(line) => line.to_string(),
        }
    }

    #[test]
    fn lines_are_counted_from_1() {
        assert_eq!(said(b""), "F:1: ..:00000001FF.. (refused 12 at 0)");
        assert_eq!(said(b":0000000000"), "F:1: ..:00000001FF.. (refused 12 at 11)");
        assert_eq!(said(b":0000000000\n"), "F:1: ..:00000001FF.. (refused 12 at 12)");
        assert_eq!(said(b":0000000000\n:0000000000\n"), "F:2: ..:00000001FF.. (refused 12 at 24)");
        assert_eq!(said(b":00000001FF\n\n"), "F:2: .. (refused 12 at 12)");
        let empty = "the line is empty: remove it";
        assert_eq!(said(b":0000000000\n\n"), format!("F:2: record 2: ..{empty}.. (refused 20 at 12)"));
        assert_eq!(said(b":00000001FE"), "F:1: record 1: ..FE..FF.. (refused 8 at 0)");
        assert_eq!(said(&[b'\n'; 65_536]), "F: .. (refused 7 at 0)");
        assert_eq!(said(&[b'\n'; 65_535]), format!("F:1: record 1: ..{empty}.. (refused 20 at 0)"));
    }

    #[test]
    fn reasons_name_what_is_wrong() {
        let reason = |text: &[u8]| said(text).replace("F:1: record 1: ..", "");
        assert_eq!(reason(b":000\r\n"), "an odd number of digits, 3: each byte has two.. (refused 20 at 0)");
        assert_eq!(reason(b":0000\r\n"), "length 00 asks for 5 bytes..has 2.. (refused 20 at 0)");
        assert_eq!(reason(b":0A0000000000"), "length 0A asks for 15 bytes..has 6.. (refused 20 at 0)");
        assert_eq!(reason(b":\n"), "no byte follows the colon.. (refused 20 at 0)");
        assert_eq!(reason(b":00000005FB\n"), "05.. (refused 9 at 0)");
        assert_eq!(reason(b":0100000100FE\n"), "length.. (refused 9 at 0)");
        assert_eq!(reason(b":00000701F8\n"), "address.. (refused 9 at 0)");
        assert_eq!(reason(b":0120000000DF\n"), "2000.. (refused 10 at 0)");
        let twice = b":0100060000F9\n:0100040000FB\n:03000500000000F8\n";
        assert_eq!(said(twice), "F:3: record 3: ..0006..line 1.. (refused 11 at 28)");
    }

    #[test]
    fn the_worked_message() {
        let written = written_text(&[0xFF; IMAGE_BYTES]);
        let due = "F:2: record 2: column 44: ' ' is no hexadecimal digit (refused 19 at 87)
    :10001000FFFFFFFFFFFFFFFFFFFFFFFFFFFFFFFFF0\u{20}
                                               ^";
        assert_eq!(said([&written[..87], " ", &written[87..]].concat().as_bytes()), due);
    }

    #[test]
    fn a_bad_character_is_shown_in_its_line_and_marked() {
        let due = |text: &[u8], column: usize, character: &str, line: &str| {
            let message = format!("F:1: record 1: column {column}: '{character}' is no hexadecimal digit");
            let blanks = " ".repeat(column - 1);
            assert_eq!(said(text), format!("{message} (refused 19 at {})\n    {line}\n    {blanks}^", column - 1));
        };
        due(b":00x0000000\r\n", 4, "x", ":00x0000000");
        due(b":0000000000\r", 12, "\\x0D", ":0000000000?");
        due(b":00\r\r\r\n", 4, "\\x0D", ":00??");
        due(b":\x1B[2J\n", 2, "\\x1B", ":?[2J");
        due(b":0'\xFF\x7F\0\t", 3, "'", ":0'????");
        due(b":00000001FF ", 12, " ", ":00000001FF ");
    }

    #[test]
    fn a_first_byte_that_is_no_colon_is_marked_too() {
        let due = "F:1: record 1: ..column 1: '0'..colon.. (refused 19 at 0)\n    0000000000\n    ^";
        assert_eq!(said(b"0000000000\n"), due);
        let due = "F:2: record 2: ..column 1: '\\xE9'..colon.. (refused 19 at 13)\n    ? \n    ^";
        assert_eq!(said(b":0000000000\r\n\xE9 \r\n:00000001FF\r\n"), due);
    }

    #[test]
    fn of_a_long_line_a_part_is_shown() {
        let line: Vec<u8> = (0..200).map(|at| b"0123456789"[at % 10]).collect();
        let part =
            |length: usize, character: usize| shown(&line[..length], character).map(|line| line[4..].to_string());
        let digits = |from: usize, to: usize| String::from_utf8(line[from..to].to_vec()).unwrap();
        let mark = |before: usize| format!("{}^", " ".repeat(before));
        // Up to 72 bytes all of it.
        for (length, character) in [(1, 0), (44, 43), (72, 0), (72, 36), (72, 37), (72, 71)] {
            assert_eq!(part(length, character), [digits(0, length), mark(character)]);
        }
        // With one byte more the last is left out, or for a character at place 37 or later the first.
        for (character, due, before) in [
            (0, digits(0, 69) + "...", 0),
            (36, digits(0, 69) + "...", 36),
            (37, "...".to_string() + &digits(4, 73), 36),
            (72, "...".to_string() + &digits(4, 73), 71),
        ] {
            assert_eq!(part(73, character), [due, mark(before)], "{character}");
        }
        // Both sides, as long as a byte is left out on the right.
        assert_eq!(part(200, 37), ["...".to_string() + &digits(4, 70) + "...", mark(36)]);
        assert_eq!(part(200, 100), ["...".to_string() + &digits(67, 133) + "...", mark(36)]);
        assert_eq!(part(200, 163), ["...".to_string() + &digits(130, 196) + "...", mark(36)]);
        assert_eq!(part(200, 164), ["...".to_string() + &digits(131, 200), mark(36)]);
        assert_eq!(part(200, 199), ["...".to_string() + &digits(131, 200), mark(71)]);
    }

    #[test]
    fn the_marked_character_is_always_seen() {
        for length in 1..=220 {
            for character in 0..length {
                let mut line = vec![b'0'; length];
                line[character] = b'x';
                let [part, mark] = shown(&line, character);
                assert!(part.len() <= 4 + 72 && part.starts_with("    "));
                assert_eq!(part.as_bytes()[mark.len() - 1], b'x', "{character} of {length}");
                assert_eq!(mark.trim_start(), "^");
            }
        }
    }

    #[test]
    fn a_text_that_is_something_else_has_no_line_shown() {
        assert_eq!(said(b"\xEF\xBB\xBF:00000001FF\n"), "F:1: record 1: ..byte order mark.. (refused 19 at 0)");
        assert_eq!(said(&[0; 8192]), "F:1: record 1: .. (refused 19 at 0)");
        assert_eq!(said(&[b'\n'; 8192]), "F:1: record 1: .. (refused 20 at 0)");
        // One byte less or more is no image, and neither is what begins as a text does.
        assert!(said(&[0; 8191]).contains('^') && said(&[0; 8193]).contains('^'));
        assert!(said(&[b':'; 8192]).contains("column 2: ':' is no hexadecimal digit (refused 19 at 1)\n"));
    }

    #[test]
    fn a_bit_that_is_missing_is_its_records() {
        let text = b":0100000000FF\r\n:0200110000FFEE\r\n:0110000000EF\r\n:00000001FF\r\n";
        assert_eq!(said(text), "F:3: record 3: ..1000..cell 0 row 0.. (refused 13 at 4096)");
    }

    #[test]
    fn the_first_byte_not_given_is_named() {
        let lit = "they count as FF, which is lit dots in a row: first at address";
        assert_eq!(said(b":00000001FF"), format!("F: 8192 of 8192 bytes are not given; {lit} 0000 (cell 0 row 0)"));
        let text = written_text(&[0xFF; IMAGE_BYTES]);
        assert_eq!(said(text.as_bytes()), "whole 8192");
        let without = |record: usize| [&text[..44 * record], &text[44 * (record + 1)..]].concat();
        let one = [&text[..44 * 511], ":0F1FF000FFFFFFFFFFFFFFFFFFFFFFFFFFFFFFF1\n:00000001FF\n"].concat();
        let least = "F: 1 of 8192 bytes is not given; it counts as FF, which is lit dots in a row: first at address";
        assert_eq!(said(one.as_bytes()), format!("{least} 1FFF (no row's)"));
        let line = |place| format!("F: 16 of 8192 bytes are not given; {lit} {place}");
        assert_eq!(said(without(255).as_bytes()), line("0FF0 (no row's)"));
        assert_eq!(said(without(258).as_bytes()), line("1020 (cell 1 row 0)"));
        assert_eq!(said(without(379).as_bytes()), line("17B0 (cell 61 row 16)"));
        assert_eq!(said(without(380).as_bytes()), line("17C0 (no row's)"));
    }

    #[test]
    fn every_text_of_the_cases_has_its_line() {
        for case in cases::all() {
            let line = case.expected();
            match read("F", &case.text) {
                Ok(good) => assert_eq!(format!("cells 62 bytes {}\n", good.count), line, "{}", case.name),
                Err(said) => assert_eq!(said.end, format!(" ({})", line.trim_end()), "{}", case.name),
            }
        }
    }

    #[test]
    fn a_drawing_gives_its_font_again() {
        let mut random = Random::new(9);
        let font: Vec<u16> = (0..FONT_ROWS).map(|_| random.word() % 4096).collect();
        let drawing = whole_drawing(&font);
        assert_eq!(drawing.len(), 62 * (8 + 18 * 13) + 61);
        assert_eq!(draw::drawn(drawing.as_bytes()).unwrap().font, font);
        assert!(drawing.starts_with("cell 00\n") && drawing.contains("\n\ncell 61\n"));
    }
}
