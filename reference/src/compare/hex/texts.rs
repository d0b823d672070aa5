//! Texts to read: good ones in every allowed dress, and ones with faults.

use crate::model::hex::written_text;
use crate::model::image::{self, FONT_ROWS, IMAGE_BYTES};
use crate::random::Random;

pub const SHORT: &[u8] = b":04000000000F00F0FD\r\n:0210000002FFED\n:00000001FF\n";

pub fn random_font(random: &mut Random) -> Vec<u16> {
    let mask = random.pick(&[0x0FFF, 0x0FFF, 0x00FF, 0x0F00]);
    (0..FONT_ROWS).map(|_| random.word() & mask).collect()
}

/// A record as a line without its line end. The checksum is right.
pub fn record(address: usize, kind: u8, data: &[u8]) -> Vec<u8> {
    let mut bytes = vec![data.len() as u8, (address >> 8) as u8, address as u8, kind];
    bytes.extend(data);
    let sum = bytes.iter().fold(0u8, |sum, byte| sum.wrapping_add(*byte));
    bytes.push(sum.wrapping_neg());
    let mut line = vec![b':'];
    for byte in bytes {
        line.extend(format!("{byte:02X}").bytes());
    }
    line
}

fn end_record() -> Vec<u8> {
    record(0, 1, &[])
}

fn random_data(random: &mut Random) -> Vec<u8> {
    let length = match random.below(8) {
        0 => 0,
        1 => 255,
        2 => 16,
        3 => random.between(0, 255),
        _ => random.between(1, 6),
    };
    let mut data = vec![0; length];
    random.fill(&mut data);
    if random.one_in(4) {
        data.fill(0xFF);
    }
    data
}

/// Cuts an image into records of many lengths with gaps between them, in any order.
fn scattered(image: &[u8], records: usize, random: &mut Random) -> Vec<Vec<u8>> {
    let mut lines = Vec::new();
    let mut address = if random.one_in(2) { 0 } else { random.below(4096) };
    while lines.len() < records && address < IMAGE_BYTES {
        let length = match random.below(8) {
            0 => 0,
            1 => 255,
            _ => random.between(1, 40),
        };
        let end = (address + length).min(IMAGE_BYTES);
        lines.push(record(address, 0, &image[address..end]));
        address = end;
        if random.one_in(3) {
            address += random.below(300);
        } else if random.one_in(40) {
            address = address.max(IMAGE_BYTES - random.between(0, 300));
        }
    }
    for place in (1..lines.len()).rev() {
        lines.swap(place, random.below(place + 1));
    }
    lines
}

/// A record at an address where something may go wrong: near the end of the image, or near other records.
fn loose_record(random: &mut Random) -> Vec<u8> {
    let data = random_data(random);
    let address = match random.below(6) {
        0 => random.pick(&[8190, 8191, 8192, 8193, 0xFFFF, 0x8000]),
        1 => (IMAGE_BYTES + random.below(3)).saturating_sub(data.len() + 1),
        2 => random.below(65_536),
        3 => random.below(40),
        _ => random.below(IMAGE_BYTES),
    };
    let kind = match random.below(24) {
        0 => 1,
        1 => random.pick(&[2, 3, 4, 5, 0x10, 0x80, 0xFF]),
        _ => 0,
    };
    record(address, kind, &data)
}

/// Spoils a line's shape, sum or more.
fn spoil(line: &mut Vec<u8>, random: &mut Random) {
    let place = random.below(line.len());
    match random.below(8) {
        0 => line[place] = random.byte(),
        1 => {
            line.remove(place);
        }
        2 => line.insert(place, random.pick(b"0F:x \r\t\0")),
        3 => line.truncate(place),
        4 => line.clear(),
        5 => line.extend(b"00"),
        6 => line.push(b'\r'),
        _ => {
            let last = line.len() - 1;
            line[last] = random.pick(b"0123456789ABCDEFabcdef");
        }
    }
}

/// How the lines of a text are dressed.
#[derive(Clone, Copy)]
enum Dress {
    Plain,
    CrLf,
    Mixed,
}

fn dressed(lines: &[Vec<u8>], random: &mut Random) -> Vec<u8> {
    let dress = random.pick(&[Dress::Plain, Dress::CrLf, Dress::Mixed]);
    let lower = random.pick(&[0, 0, 1, 2]);
    let mut text = Vec::new();
    for line in lines {
        for &byte in line {
            let small = lower == 1 || (lower == 2 && random.one_in(2));
            text.push(if small { byte.to_ascii_lowercase() } else { byte });
        }
        let cr = match dress {
            Dress::Plain => false,
            Dress::CrLf => true,
            Dress::Mixed => random.one_in(2),
        };
        text.extend(if cr { &b"\r\n"[..] } else { b"\n" });
    }
    match random.below(12) {
        0 => {
            text.pop();
        }
        1 => {
            text.pop();
            text.pop();
        }
        2 => text.extend(random.pick(&[&b"\n"[..], b"\r\n", b"\r", b"x", b":", b"\0", b":00000001FF\n"])),
        _ => {}
    }
    text
}

/// A handful of records; most such texts are good.
fn soup(random: &mut Random) -> Vec<u8> {
    let image = image::of_font(&random_font(random));
    let records = random.between(0, 8);
    let mut lines = if random.one_in(3) {
        (0..records).map(|_| loose_record(random)).collect()
    } else {
        scattered(&image, records, random)
    };
    if random.one_in(8) {
        let place = random.below(lines.len() + 1);
        lines.insert(place, loose_record(random));
    }
    if random.one_in(8) && !lines.is_empty() {
        // The same record twice.
        let again = lines[random.below(lines.len())].clone();
        lines.push(again);
    }
    if !random.one_in(10) {
        lines.push(end_record());
    }
    if random.one_in(12) {
        let place = random.below(lines.len() + 1);
        lines.insert(place, end_record());
    }
    if random.one_in(3) && !lines.is_empty() {
        let place = random.below(lines.len());
        spoil(&mut lines[place], random);
    }
    dressed(&lines, random)
}

/// A whole font's text in the writer's form or scattered, whole or with one thing wrong.
fn long(random: &mut Random) -> Vec<u8> {
    let image = image::of_font(&random_font(random));
    let mut text = if random.one_in(2) {
        written_text(&image).into_bytes()
    } else {
        let mut lines = scattered(&image, 600, random);
        lines.push(end_record());
        dressed(&lines, random)
    };
    let place = random.below(text.len());
    match random.below(8) {
        0 => text[place] = random.byte(),
        1 => text[place] = random.pick(b"0123456789ABCDEFabcdef\r\n: "),
        2 => text.truncate(place),
        3 => {
            text.remove(place);
        }
        4 => text.insert(place, random.pick(b"0F\r\n:")),
        5 => text.extend(SHORT),
        _ => {}
    }
    text
}

/// Texts at and around the longest length, good or not in other ways.
pub fn longest(random: &mut Random) -> Vec<u8> {
    let length = random.pick(&[65_534, 65_535, 65_535, 65_536, 65_537]);
    let end = end_record();
    let mut text = match random.below(4) {
        0 => SHORT[..SHORT.len() - end.len() - 1].to_vec(),
        1 => written_text(&image::of_font(&random_font(random))).into_bytes()[..512 * 44].to_vec(),
        2 => b":00000000FF\n".to_vec(),
        _ => Vec::new(),
    };
    // Records without data, 12 bytes with LF or 13 with CR LF, bring it to the very byte.
    loop {
        let left = length - text.len() - (end.len() + 1);
        match left {
            0 => break,
            _ if left % 12 == 0 => text.extend(b":0000000000\n"),
            _ => text.extend(b":0000000000\r\n"),
        }
    }
    text.extend(end);
    text.push(b'\n');
    text
}

pub fn random_text(random: &mut Random) -> Vec<u8> {
    match random.below(64) {
        0 => long(random),
        2 if random.one_in(6) => longest(random),
        3 => {
            let mut text = soup(random);
            text.extend(soup(random));
            text
        }
        4 | 5 => {
            let mut text = soup(random);
            text.truncate(random.below(text.len() + 1));
            text
        }
        6 => {
            let mut noise = vec![0; random.below(40)];
            random.fill(&mut noise);
            noise
        }
        7..=12 => {
            let mut text = SHORT.to_vec();
            for _ in 0..random.between(1, 3) {
                let place = random.below(text.len());
                text[place] = random.pick(b"0123456789ABCDEFabcdef\r\n: \0\xFF");
            }
            text
        }
        _ => soup(random),
    }
}

/// Every way to change a short text in one place: each byte replaced by each value, then cuts, removals and insertions.
pub fn changed_short(number: u64) -> Option<Vec<u8>> {
    let number = number as usize;
    let length = SHORT.len();
    let mut text = SHORT.to_vec();
    if number < 256 * length {
        text[number / 256] = (number % 256) as u8;
        return Some(text);
    }
    let number = number - 256 * length;
    if number < length {
        text.truncate(number);
        return Some(text);
    }
    let number = number - length;
    if number < length {
        text.remove(number);
        return Some(text);
    }
    let number = number - length;
    if number < 256 * (length + 1) {
        text.insert(number / 256, (number % 256) as u8);
        return Some(text);
    }
    None
}
