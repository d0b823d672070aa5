//! The hex text: reading it and writing it.

use super::image::{self, IMAGE_BYTES};
use super::Refusal;

pub const LONGEST_TEXT: usize = 65_535;
pub const WRITTEN_TEXT: usize = 22_540;
const RECORD_DATA: usize = 16;

/// One line of a text.
struct Line<'a> {
    /// Where it starts in the text.
    start: usize,
    /// Its bytes without the line end.
    body: &'a [u8],
    /// Where the next line would start.
    next: usize,
}

/// Cuts a text into its lines. A CR belongs to the line end only if an LF follows it; the last line may have none.
fn lines(text: &[u8]) -> Vec<Line<'_>> {
    let mut lines = Vec::new();
    let mut start = 0;
    while start < text.len() {
        let rest = &text[start..];
        let line = match rest.iter().position(|&byte| byte == b'\n') {
            None => Line { start, body: rest, next: text.len() },
            Some(length) => {
                let body = &rest[..length];
                Line { start, body: body.strip_suffix(b"\r").unwrap_or(body), next: start + length + 1 }
            }
        };
        start = line.next;
        lines.push(line);
    }
    lines
}

/// A line that has a record's shape.
struct Record {
    address: usize,
    kind: u8,
    data: Vec<u8>,
    /// The sum of every byte of the record, without the carries.
    sum: u8,
}

fn digit(byte: u8) -> Option<u8> {
    match byte {
        b'0'..=b'9' => Some(byte - b'0'),
        b'A'..=b'F' => Some(byte - b'A' + 10),
        b'a'..=b'f' => Some(byte - b'a' + 10),
        _ => None,
    }
}

/// Where a line has its first bad character: it begins with a colon, and all that follows are digits.
fn bad_character(body: &[u8]) -> Option<usize> {
    (0..body.len()).find(|&at| match at {
        0 => body[at] != b':',
        _ => digit(body[at]).is_none(),
    })
}

/// The record of a line, or nothing if the line does not have the shape.
fn record(body: &[u8]) -> Option<Record> {
    let digits = body.strip_prefix(b":")?;
    let values: Vec<u8> = digits.iter().map(|&byte| digit(byte)).collect::<Option<_>>()?;
    if values.len() % 2 != 0 {
        return None;
    }
    let bytes: Vec<u8> = values.chunks(2).map(|two| 16 * two[0] + two[1]).collect();
    // Length, two of address, type and checksum are always there; the data is as long as the length says.
    if bytes.len() < 5 || bytes.len() != 5 + usize::from(bytes[0]) {
        return None;
    }
    Some(Record {
        address: 256 * usize::from(bytes[1]) + usize::from(bytes[2]),
        kind: bytes[3],
        data: bytes[4..bytes.len() - 1].to_vec(),
        sum: (bytes.iter().map(|&byte| u32::from(byte)).sum::<u32>() % 256) as u8,
    })
}

/// The number of the first rule of the table that a line without a bad character breaks, if it breaks one.
fn fault(record: Option<&Record>, given: &[Option<u8>]) -> Option<u32> {
    let Some(record) = record else {
        return Some(20);
    };
    if record.sum != 0 {
        return Some(8);
    }
    if record.kind > 1 || (record.kind == 1 && (!record.data.is_empty() || record.address != 0)) {
        return Some(9);
    }
    let end = record.address + record.data.len();
    if end > IMAGE_BYTES {
        return Some(10);
    }
    if given[record.address..end].iter().any(|byte| byte.is_some()) {
        return Some(11);
    }
    None
}

/// Reads a text into the first bytes of the room and returns how many bytes its records give.
pub fn read(text: &[u8], room: &mut [u8]) -> Result<u32, Refusal> {
    if room.len() < IMAGE_BYTES {
        return Err(Refusal::plain(6));
    }
    if text.len() > LONGEST_TEXT {
        return Err(Refusal::plain(7));
    }
    let mut given: Vec<Option<u8>> = vec![None; IMAGE_BYTES];
    let mut count = 0;
    for line in lines(text) {
        if let Some(at) = bad_character(line.body) {
            return Err(Refusal { number: 19, place: (line.start + at) as u32 });
        }
        let record = record(line.body);
        if let Some(number) = fault(record.as_ref(), &given) {
            return Err(Refusal { number, place: line.start as u32 });
        }
        let record = record.expect("a line without a record is faulty");
        if record.kind == 1 {
            if line.next < text.len() {
                return Err(Refusal { number: 12, place: line.next as u32 });
            }
            for (byte, given) in room.iter_mut().zip(given) {
                *byte = given.unwrap_or(0xFF);
            }
            return Ok(count);
        }
        count += record.data.len() as u32;
        for (offset, byte) in record.data.into_iter().enumerate() {
            given[record.address + offset] = Some(byte);
        }
    }
    Err(Refusal { number: 12, place: text.len() as u32 })
}

/// One record as the writer gives it, with its LF.
fn written_record(address: usize, kind: u8, data: &[u8]) -> String {
    let mut bytes = vec![data.len() as u8, (address / 256) as u8, (address % 256) as u8, kind];
    bytes.extend(data);
    let sum: u32 = bytes.iter().map(|&byte| u32::from(byte)).sum();
    bytes.push(((256 - sum % 256) % 256) as u8);
    let digits: String = bytes.iter().map(|byte| format!("{byte:02X}")).collect();
    format!(":{digits}\n")
}

/// The one text of the writer's form for an image.
pub fn written_text(image: &[u8]) -> String {
    let mut text = String::new();
    for (number, data) in image.chunks(RECORD_DATA).enumerate() {
        text += &written_record(RECORD_DATA * number, 0, data);
    }
    text + &written_record(0, 1, &[])
}

/// Writes the text of a font into the first bytes of the room.
pub fn write(font: &[u16], room: &mut [u8]) -> Result<(), Refusal> {
    image::judge_font(font)?;
    if room.len() < WRITTEN_TEXT {
        return Err(Refusal::plain(6));
    }
    let text = written_text(&image::of_font(font));
    room[..WRITTEN_TEXT].copy_from_slice(text.as_bytes());
    Ok(())
}

#[cfg(test)]
mod tests {
    use super::*;
    use crate::model::image::FONT_ROWS;

    const END: &str = ":00000001FF\n";

    fn reading(text: impl AsRef<[u8]>) -> Result<(u32, Vec<u8>), (u32, u32)> {
        let mut room = vec![0xA5; IMAGE_BYTES + 3];
        let outcome = read(text.as_ref(), &mut room);
        assert_eq!(room[IMAGE_BYTES..], [0xA5; 3]);
        match outcome {
            Ok(count) => Ok((count, room[..IMAGE_BYTES].to_vec())),
            Err(refusal) => {
                assert!(room.iter().all(|&byte| byte == 0xA5), "a refusal touched the room");
                Err((refusal.number, refusal.place))
            }
        }
    }

    fn refusal(text: impl AsRef<[u8]>) -> (u32, u32) {
        reading(text).expect_err("should be refused")
    }

    fn count(text: impl AsRef<[u8]>) -> u32 {
        reading(text).expect("should be accepted").0
    }

    /// A good record, without a line end.
    fn good(address: usize, kind: u8, data: &[u8]) -> String {
        written_record(address, kind, data).trim_end().to_string()
    }

    #[test]
    fn the_worked_record() {
        let (count, image) = reading(":04000000000F00F0FD\n".to_string() + END).unwrap();
        assert_eq!(count, 4);
        assert_eq!(image[..5], [0x00, 0x0F, 0x00, 0xF0, 0xFF]);
        assert!(image[4..].iter().all(|&byte| byte == 0xFF));
        assert_eq!(refusal(":04000000000F00F0FC\n".to_string() + END), (8, 0));
    }

    #[test]
    fn the_end_record_alone() {
        assert_eq!(count(END), 0);
        assert_eq!(refusal(":00000001FE"), (8, 0));
        assert_eq!(refusal(""), (12, 0));
    }

    #[test]
    fn the_writer_gives_a_text_that_reads_back() {
        let font: Vec<u16> = (0..FONT_ROWS).map(|row| (row * 37 % 4096) as u16).collect();
        let mut room = vec![0x55; WRITTEN_TEXT + 2];
        assert_eq!(write(&font, &mut room), Ok(()));
        assert_eq!(room[WRITTEN_TEXT..], [0x55; 2]);
        let text = &room[..WRITTEN_TEXT];
        assert!(text.starts_with(b":10000000"));
        assert!(text.ends_with(b"\n:00000001FF\n"));
        assert_eq!(text.iter().filter(|&&byte| byte == b'\n').count(), 513);
        let (count, image) = reading(text).unwrap();
        assert_eq!(count, 8192);
        assert_eq!(image, image::of_font(&font));
    }

    #[test]
    fn the_writer_refuses_the_font_before_the_room() {
        let mut font = vec![0; FONT_ROWS];
        let mut room = vec![1; WRITTEN_TEXT];
        assert_eq!(write(&font[1..], &mut room), Err(Refusal::plain(4)));
        assert_eq!(write(&font, &mut room[1..]), Err(Refusal::plain(6)));
        font[FONT_ROWS - 1] = 4096;
        assert_eq!(write(&font[1..], &mut room[1..]), Err(Refusal::plain(4)));
        assert_eq!(write(&font, &mut room[1..]), Err(Refusal { number: 18, place: 1115 }));
        font[0] = 65_535;
        assert_eq!(write(&font, &mut room), Err(Refusal { number: 18, place: 0 }));
        assert!(room.iter().all(|&byte| byte == 1));
    }

    #[test]
    fn a_short_room_comes_before_a_long_text() {
        let mut text = vec![b'0'; 65_536];
        let mut room = vec![0; IMAGE_BYTES];
        assert_eq!(read(&text, &mut room[1..]), Err(Refusal::plain(6)));
        assert_eq!(read(&text, &mut room), Err(Refusal::plain(7)));
        // And before a bad character or a bad shape; a text that is not too long has these.
        text.truncate(65_535);
        assert_eq!(read(&text, &mut room[1..]), Err(Refusal::plain(6)));
        assert_eq!(refusal(&text), (19, 0));
        text.fill(b'\n');
        assert_eq!(read(&text, &mut room[1..]), Err(Refusal::plain(6)));
        assert_eq!(refusal(&text), (20, 0));
        text.push(b'\n');
        assert_eq!(refusal(&text), (7, 0));
    }

    #[test]
    fn the_longest_text() {
        // 5,457 records of no data, 12 bytes each, and an end record bring it to 65,496; then spread what is left.
        let mut text = ":0000000000\n".repeat(5457) + &good(0, 0, &[7; 16]) + "\r\n" + END;
        assert_eq!(text.len(), 65_541);
        assert_eq!(refusal(&text), (7, 0));
        text = ":0000000000\n".repeat(5457) + &good(0, 0, &[7; 13]) + "\n" + END;
        assert_eq!(text.len(), 65_534);
        assert_eq!(count(&text), 13);
        text = ":0000000000\r\n".to_string() + &text[12..];
        assert_eq!(text.len(), 65_535);
        assert_eq!(count(&text), 13);
        text = ":0000000000\r\n:0000000000\r\n".to_string() + &text[25..];
        assert_eq!(text.len(), 65_536);
        assert_eq!(refusal(&text), (7, 0));
    }

    /// Puts a line first, in the middle and last, with each line end and at the very end of the text, and wants it
    /// refused with this number, at its start or as many bytes after it.
    fn refused_everywhere(line: impl AsRef<[u8]>, number: u32, at: u32) {
        let line = line.as_ref();
        for end in ["\n", "\r\n"] {
            let idle = [b":0000000000", end.as_bytes()].concat();
            let line_and_end = [line, end.as_bytes()].concat();
            for before in 0..3 {
                let before = idle.repeat(before);
                let due = (number, before.len() as u32 + at);
                assert_eq!(refusal([&before, &line_and_end, END.as_bytes()].concat()), due, "{}", line.escape_ascii());
                assert_eq!(refusal([&before, &line_and_end[..]].concat()), due, "{}", line.escape_ascii());
                if !line.is_empty() {
                    assert_eq!(refusal([&before, line].concat()), due, "{}", line.escape_ascii());
                }
            }
        }
    }

    #[test]
    fn a_bad_character_is_told_by_its_own_place() {
        for (line, at) in [
            // The first byte that is no colon, be it a digit.
            ("0", 0),
            ("x", 0),
            ("00000001FF", 0),
            (";00000001FF", 0),
            (" :00000001FF", 0),
            ("\u{0}:00000001FF", 0),
            // Blanks, NUL and the neighbours of the digits among the letters.
            (":00000001FF ", 11),
            (":00000001 FF", 9),
            (":0000 0001FF", 5),
            (":0000000\t1FF", 8),
            (":0000\u{0}001FF", 5),
            (":0000000GFF", 8),
            (":0000000gFF", 8),
            (":0000000/FF", 8),
            (":0000000@FF", 8),
            (":0000000`FF", 8),
            (":00000001FG", 10),
            // A second colon, next to the first one or later.
            ("::00000001FF", 1),
            (":0000:0001FF", 5),
            (":00000001FF:", 11),
            (": ", 1),
        ] {
            refused_everywhere(line, 19, at);
        }
    }

    #[test]
    fn bytes_above_127_are_bad_characters() {
        for byte in 128..=255 {
            refused_everywhere([byte], 19, 0);
            refused_everywhere([b":00000001", &[byte][..], b"F"].concat(), 19, 9);
        }
        refused_everywhere(b"\xEF\xBB\xBF:00000001FF", 19, 0);
    }

    #[test]
    fn no_other_byte_is_a_digit() {
        for byte in (0..=255).filter(|byte| !b"\r\n0123456789ABCDEFabcdef".contains(byte)) {
            refused_everywhere([b":0000000", &[byte][..], b"FF"].concat(), 19, 8);
        }
    }

    #[test]
    fn any_other_fault_of_shape_is_told_by_the_lines_start() {
        for line in [
            "",
            ":",
            // An odd number of digits.
            ":0",
            ":00000001F",
            ":00000001FFF",
            // Too few bytes for any record, for the length, and too many.
            ":00",
            ":000000FF",
            ":01000001FE",
            ":01000000FF",
            ":FF00000001",
            ":00000000FF00",
            ":0000000000FF01",
        ] {
            refused_everywhere(line, 20, 0);
        }
    }

    #[test]
    fn of_several_bad_characters_the_first_is_told() {
        refused_everywhere("xyz", 19, 0);
        refused_everywhere(":0G0H000I", 19, 2);
        refused_everywhere(":00000001F  ", 19, 10);
        refused_everywhere(b"\xFF\xFE", 19, 0);
    }

    #[test]
    fn a_bad_character_comes_before_the_count_of_digits() {
        // One digit less, one more, a length that says more and one that says less, and a colon with nothing good after it.
        refused_everywhere(":0000000G1F", 19, 8);
        refused_everywhere(":000G00001FF", 19, 4);
        refused_everywhere(":01000000GG", 19, 9);
        refused_everywhere(":0000000000G", 19, 11);
        refused_everywhere(":0000000000FFG0", 19, 13);
        refused_everywhere(":G", 19, 1);
    }

    #[test]
    fn a_cr_without_an_lf_is_a_bad_character() {
        // In the middle of a line, and where another record follows it.
        assert_eq!(refusal(":0000\r0001FF\n"), (19, 5));
        assert_eq!(refusal("\r:00000001FF\n"), (19, 0));
        assert_eq!(refusal(":\r00000001FF\n"), (19, 1));
        assert_eq!(refusal(":0000000000\r:00000001FF\n"), (19, 11));
        assert_eq!(refusal(":0000000000\n:0000000000\r:00000001FF"), (19, 23));
        // As the text's last byte.
        assert_eq!(refusal("\r"), (19, 0));
        assert_eq!(refusal(":\r"), (19, 1));
        assert_eq!(refusal(":00000001FF\r"), (19, 11));
        assert_eq!(refusal(":0000000000\n\r"), (19, 12));
        assert_eq!(refusal(":0000000000\r\n:00000001FF\r"), (19, 24));
        // Of several CRs before an LF only the last belongs to the line's end.
        assert_eq!(refusal("\r\r\n"), (19, 0));
        assert_eq!(refusal("\r\r"), (19, 0));
        assert_eq!(refusal(":00000001FF\r\r\n"), (19, 11));
        assert_eq!(refusal(":00000001FF\r\r\r\n"), (19, 11));
        assert_eq!(refusal(":0000000000\r\r\n:00000001FF\r\n"), (19, 11));
        assert_eq!(refusal(":0000000000\n\r\r\n"), (19, 12));
    }

    #[test]
    fn an_empty_line_has_no_character() {
        assert_eq!(refusal("\n"), (20, 0));
        assert_eq!(refusal("\r\n"), (20, 0));
        assert_eq!(refusal("\n\r"), (20, 0));
        assert_eq!(refusal(":0000000000\n\n"), (20, 12));
        assert_eq!(refusal(":0000000000\r\n\r\n:00000001FF"), (20, 13));
    }

    #[test]
    fn line_ends() {
        assert_eq!(count(":00000001FF"), 0);
        assert_eq!(count(":00000001FF\r\n"), 0);
        assert_eq!(refusal(":00000001FF\n\n"), (12, 12));
        assert_eq!(refusal(":00000001FF\r\n\n"), (12, 13));
        assert_eq!(refusal(":00000001FF\n\r\n"), (12, 12));
        assert_eq!(refusal(":00000001FF\n\r"), (12, 12));
        assert_eq!(refusal(":00000001FF\nx"), (12, 12));
        assert_eq!(refusal(format!("{END}{END}")), (12, 12));
    }

    #[test]
    fn a_text_that_just_stops() {
        assert_eq!(refusal(":0000000000"), (12, 11));
        assert_eq!(refusal(":0000000000\n"), (12, 12));
        assert_eq!(refusal(":0000000000\r\n:0000000000\r\n"), (12, 26));
    }

    #[test]
    fn types() {
        assert_eq!(refusal(good(0, 2, &[])), (9, 0));
        assert_eq!(refusal(good(0, 255, &[1])), (9, 0));
        assert_eq!(refusal(good(0, 1, &[0])), (9, 0));
        assert_eq!(refusal(good(1, 1, &[])), (9, 0));
        assert_eq!(refusal(good(256, 1, &[])), (9, 0));
        // Another type with a far address is the type's fault.
        assert_eq!(refusal(good(9000, 4, &[1, 2])), (9, 0));
    }

    #[test]
    fn addresses() {
        assert_eq!(count(good(8192, 0, &[]) + "\n" + END), 0);
        assert_eq!(refusal(good(8193, 0, &[])), (10, 0));
        assert_eq!(count(good(8191, 0, &[3]) + "\n" + END), 1);
        assert_eq!(refusal(good(8191, 0, &[3, 3])), (10, 0));
        assert_eq!(refusal(good(65_535, 0, &[3; 255])), (10, 0));
        assert_eq!(count(good(8192 - 255, 0, &[3; 255]) + "\n" + END), 255);
        assert_eq!(refusal(good(8192 - 254, 0, &[3; 255])), (10, 0));
    }

    #[test]
    fn a_byte_given_twice() {
        let first = good(100, 0, &[0xFF, 1, 2]) + "\n";
        let place = first.len() as u32;
        assert_eq!(refusal(first.clone() + &good(100, 0, &[0xFF])), (11, place));
        assert_eq!(refusal(first.clone() + &good(98, 0, &[0, 0, 0])), (11, place));
        assert_eq!(refusal(first.clone() + &good(102, 0, &[2, 2])), (11, place));
        assert_eq!(count(first.clone() + &good(98, 0, &[0, 0]) + "\n" + END), 5);
        assert_eq!(count(first.clone() + &good(103, 0, &[0]) + "\n" + END), 4);
        assert_eq!(count(first.clone() + &good(101, 0, &[]) + "\n" + END), 3);
        // Both past the end and over a byte already given: the end comes first.
        let last = good(8191, 0, &[1]) + "\n";
        assert_eq!(refusal(last.clone() + &good(8191, 0, &[1, 2])), (10, last.len() as u32));
    }

    #[test]
    fn the_first_faulty_record_decides() {
        // A wrong sum, another type, an address too far and a byte given twice, each before a bad character and a bad shape.
        let given = good(0, 0, &[1]) + "\n";
        for (line, number) in [
            (":00000000FF".to_string(), 8),
            (good(0, 4, &[]), 9),
            (good(8193, 0, &[]), 10),
            (good(0, 0, &[1]), 11),
            (":".to_string(), 20),
        ] {
            for later in ["nonsense", ":0000000G00", ":000", "\n", "\r", ":0000000001"] {
                let text = format!("{given}{line}\n{later}\n{END}");
                assert_eq!(refusal(&text), (number, given.len() as u32), "{text:?}");
                // The other way round the line after it is not looked at.
                let text = format!("{given}xyz\n{line}\n");
                assert_eq!(refusal(&text), (19, given.len() as u32), "{text:?}");
                let text = format!("{given}\n{line}\n");
                assert_eq!(refusal(&text), (20, given.len() as u32), "{text:?}");
            }
        }
        assert_eq!(refusal(":0000000000\n:0000000001\nx\n"), (8, 12));
    }

    #[test]
    fn the_faults_of_one_record_in_the_tables_order() {
        // The sum before the type, the shape before both, the character before all.
        assert_eq!(refusal(":0000000500"), (8, 0));
        assert_eq!(refusal(":0100000500"), (20, 0));
        assert_eq!(refusal(":010000050G"), (19, 10));
        assert_eq!(refusal(":002001050G"), (19, 10));
    }

    #[test]
    fn after_the_end_record_nothing_is_judged() {
        assert_eq!(refusal(format!("{END}nonsense")), (12, 12));
        assert_eq!(refusal(format!("{END}:0G\n")), (12, 12));
        assert_eq!(refusal(format!("{END}:\n")), (12, 12));
        assert_eq!(refusal(format!("{END}:00000000FF\n")), (12, 12));
    }

    #[test]
    fn either_case_of_digits() {
        let (count, image) = reading(":02000000aBcD86\n:00000001fF\r\n").unwrap();
        assert_eq!((count, image[0], image[1]), (2, 0xAB, 0xCD));
    }

    #[test]
    fn records_in_any_order() {
        let text = good(20, 0, &[1]) + "\n" + &good(3, 0, &[2]) + "\r\n" + END;
        let (count, image) = reading(text).unwrap();
        assert_eq!((count, image[20], image[3], image[4]), (2, 1, 2, 0xFF));
    }
}
