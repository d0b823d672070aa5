//! Texts for `fontcheck`, each with the line it must print.
//!
//! The name says what is in a text. A name that begins with `refused-K` is a text made for that refusal; the line
//! itself always comes from the model, and a unit test holds the two together.

use crate::compare::hex::texts::{self, record};
use crate::model::fontcheck;
use crate::model::hex::written_text;
use crate::model::image::{self, FONT_ROWS};
use crate::random::Random;

pub struct Case {
    pub name: String,
    pub text: Vec<u8>,
}

impl Case {
    /// The line that `fontcheck` must print.
    pub fn expected(&self) -> String {
        fontcheck::line(&self.text)
    }
}

const END: &[u8] = b":00000001FF\n";
/// A record without data and its LF.
const IDLE: &[u8] = b":0000000000\n";

fn lines(lines: &[&[u8]]) -> Vec<u8> {
    lines.iter().flat_map(|line| [line, &b"\n"[..]].concat()).collect()
}

/// The lines, each with an LF, and the end record.
fn ended(data: &[&[u8]]) -> Vec<u8> {
    [lines(data), END.to_vec()].concat()
}

fn font_text(row: impl Fn(usize) -> u16) -> Vec<u8> {
    let font: Vec<u16> = (0..FONT_ROWS).map(row).collect();
    written_text(&image::of_font(&font)).into_bytes()
}

fn patterned() -> Vec<u8> {
    font_text(|row| (row * 2654 % 4096) as u16)
}

/// The records of a text in another order, the end record last.
fn reordered(text: &[u8], order: impl FnOnce(&mut Vec<&[u8]>)) -> Vec<u8> {
    let body = &text[..text.len() - END.len()];
    let mut records: Vec<&[u8]> = body.split_inclusive(|&byte| byte == b'\n').collect();
    order(&mut records);
    [records.concat(), END.to_vec()].concat()
}

fn with_cr_lf(text: &[u8]) -> Vec<u8> {
    text.iter().flat_map(|&byte| if byte == b'\n' { vec![b'\r', b'\n'] } else { vec![byte] }).collect()
}

/// A good text of exactly this length: records without data, with LF or CR LF as the length needs, and the end record.
fn of_length(length: usize) -> Vec<u8> {
    let mut text = Vec::new();
    while text.len() + END.len() < length {
        let left = length - END.len() - text.len();
        text.extend(if left % 12 == 0 { IDLE } else { b":0000000000\r\n" });
    }
    text.extend(END);
    assert_eq!(text.len(), length);
    text
}

fn good() -> Vec<(&'static str, Vec<u8>)> {
    let pattern = patterned();
    vec![
        ("good-end-lf", END.to_vec()),
        ("good-end-cr-lf", b":00000001FF\r\n".to_vec()),
        ("good-end-no-line-end", b":00000001FF".to_vec()),
        ("good-end-lower-case", b":00000001ff\n".to_vec()),
        ("good-worked-record", ended(&[b":04000000000F00F0FD"])),
        ("good-font-blank", font_text(|_| 0)),
        ("good-font-lit", font_text(|_| 4095)),
        ("good-font-pattern", pattern.clone()),
        ("good-font-lower-case", pattern.to_ascii_lowercase()),
        ("good-font-cr-lf", with_cr_lf(&pattern)),
        (
            "good-font-half-cr-lf",
            [with_cr_lf(&pattern[..11_000 / 44 * 44]), pattern[11_000 / 44 * 44..].to_vec()].concat(),
        ),
        ("good-font-no-last-lf", pattern[..pattern.len() - 1].to_vec()),
        ("good-font-backwards", reordered(&pattern, |records| records.reverse())),
        ("good-font-turned", reordered(&pattern, |records| records.rotate_left(200))),
        (
            "good-font-one-record-less",
            reordered(&pattern, |records| {
                records.remove(7);
            }),
        ),
        ("good-font-low-half-only", reordered(&pattern, |records| records.truncate(256))),
        ("good-one-byte", ended(&[&record(0, 0, &[0xA5])])),
        ("good-last-byte", ended(&[&record(8191, 0, &[0xFF])])),
        ("good-no-data-at-8192", ended(&[&record(8192, 0, &[])])),
        ("good-no-data-over-data", ended(&[&record(5, 0, &[1, 2]), &record(6, 0, &[]), &record(5, 0, &[])])),
        ("good-255-bytes", ended(&[&record(2000, 0, &[0xFF; 255])])),
        ("good-255-bytes-to-the-end", ended(&[&record(8192 - 255, 0, &[0xFF; 255])])),
        ("good-neighbours", ended(&[&record(10, 0, &[1, 2]), &record(12, 0, &[3]), &record(8, 0, &[4, 5])])),
        ("good-set-bytes-in-a-gap", ended(&[&record(18, 0, &[0xFF; 14])])),
        ("good-high-half", ended(&[&record(4096, 0, &[0xF0; 18])])),
        ("good-longest", of_length(65_535)),
        ("good-one-less-than-longest", of_length(65_534)),
    ]
}

fn too_long() -> Vec<(&'static str, Vec<u8>)> {
    vec![
        ("refused-7-too-long", of_length(65_536)),
        ("refused-7-too-long-noise", vec![b'x'; 70_000]),
        ("refused-7-too-long-empty-lines", vec![b'\n'; 65_536]),
        ("refused-7-too-long-bad-sum-first", [b":00000000FF\n".to_vec(), of_length(65_535)].concat()),
        ("refused-7-too-long-bad-character-first", [b":0000000000 \n".to_vec(), of_length(65_535)].concat()),
        ("refused-7-too-long-by-a-byte-at-its-end", [of_length(65_535), b" ".to_vec()].concat()),
        ("refused-7-too-long-by-a-cr-at-its-end", [of_length(65_535), b"\r".to_vec()].concat()),
    ]
}

fn characters() -> Vec<(&'static str, Vec<u8>)> {
    let (pattern, after_cr_lf) = (patterned(), with_cr_lf(IDLE));
    let changed = |place: usize, byte: u8| {
        let mut text = pattern.clone();
        text[place] = byte;
        text
    };
    vec![
        ("refused-19-no-colon", b"00000001FF\n".to_vec()),
        ("refused-19-no-colon-no-line-end", b"00000001FF".to_vec()),
        ("refused-19-no-colon-second-record", [IDLE, b"00000001FF\n"].concat()),
        ("refused-19-no-colon-after-cr-lf", [&after_cr_lf[..], b"00000001FF\r\n"].concat()),
        ("refused-19-other-mark", b";00000001FF\n".to_vec()),
        ("refused-19-two-colons", b"::00000001FF\n".to_vec()),
        ("refused-19-colon-inside", b":0000:0001FF\n".to_vec()),
        ("refused-19-colon-for-a-line-end", [&b":0000000000"[..], END].concat()),
        ("refused-19-blank-before", b" :00000001FF\n".to_vec()),
        ("refused-19-blank-after", b":00000001FF \n".to_vec()),
        ("refused-19-blank-after-cr-lf", b":0000000000\r\n:00000001FF \r\n".to_vec()),
        ("refused-19-blank-after-no-line-end", b":00000001FF ".to_vec()),
        ("refused-19-blank-inside", b":0000 0001FF\n".to_vec()),
        ("refused-19-blank-in-an-empty-line", [IDLE, b" \n", END].concat()),
        ("refused-19-tab-inside", b":000000\t1FF\n".to_vec()),
        ("refused-19-nul-inside", b":000000\x001FF\n".to_vec()),
        ("refused-19-nul-first", b"\0:00000001FF\n".to_vec()),
        ("refused-19-high-byte-inside", b":000000\xB01FF\n".to_vec()),
        ("refused-19-high-byte-last", b":00000001F\xC6\n".to_vec()),
        ("refused-19-letter-g", b":0000000GFF\n".to_vec()),
        ("refused-19-small-letter-g", b":0000000gff\n".to_vec()),
        ("refused-19-letter-o-for-a-zero", b":0000O001FF\n".to_vec()),
        ("refused-19-before-digit-0", b":000000/1FF\n".to_vec()),
        ("refused-19-after-digit-9", b":000000:1FF\n".to_vec()),
        ("refused-19-before-letter-a", b":000000@1FF\n".to_vec()),
        ("refused-19-before-small-letter-a", b":000000`1ff\n".to_vec()),
        ("refused-19-mark-of-utf-8", [b"\xEF\xBB\xBF", END].concat()),
        ("refused-19-comment-after", b":00000001FF ; the end\n".to_vec()),
        ("refused-19-first-of-two", b":0G000H01FF\n".to_vec()),
        ("refused-19-cr-alone", b"\r".to_vec()),
        ("refused-19-two-crs-alone", b"\r\r".to_vec()),
        ("refused-19-cr-cr-lf-alone", b"\r\r\n".to_vec()),
        ("refused-19-cr-at-the-very-end", b":00000001FF\r".to_vec()),
        ("refused-19-cr-at-the-very-end-after-an-lf", [IDLE, b"\r"].concat()),
        ("refused-19-cr-cr-lf", b":00000001FF\r\r\n".to_vec()),
        ("refused-19-cr-cr-lf-between", [&b":0000000000\r\r\n"[..], END].concat()),
        ("refused-19-cr-between-records", [&b":0000000000\r"[..], END].concat()),
        ("refused-19-cr-for-every-lf", pattern.iter().map(|&byte| if byte == b'\n' { b'\r' } else { byte }).collect()),
        ("refused-19-cr-inside", b":0000\r0001FF\n".to_vec()),
        ("refused-19-cr-first", b"\r:00000001FF\n".to_vec()),
        ("refused-19-lf-cr", b":0000000000\n\r:00000001FF\n\r".to_vec()),
        ("refused-19-and-one-digit-less", b":0000000G1F\n".to_vec()),
        ("refused-19-and-one-digit-more", b":000G00001FF\n".to_vec()),
        ("refused-19-and-too-long-a-length", b":01000000 FF\n".to_vec()),
        ("refused-19-and-too-short-a-length", b":0000000000FF.\n".to_vec()),
        ("refused-19-and-other-numbers-too", b":002001050G\n".to_vec()),
        ("refused-19-before-a-later-sum", [&b":0000000 00\n"[..], b":00000000FF\n"].concat()),
        ("refused-19-before-a-later-shape", b":0000000x00\n\n:00000001F\n".to_vec()),
        ("refused-19-first-byte-of-a-font", changed(0, b'.')),
        ("refused-19-last-digit-of-a-font", changed(pattern.len() - 2, b'f' + 1)),
        ("refused-19-in-a-font", changed(300 * 44 + 20, b'O')),
        ("refused-19-after-512-records", [&pattern[..512 * 44], b":0000000lFF\n"].concat()),
        ("refused-19-no-record-at-all", b"<html>\n".to_vec()),
        ("refused-19-end-of-a-long-line", [&b":"[..], &[b'0'; 60_000], b"x\n"].concat()),
        ("refused-19-last-of-the-longest", [&of_length(65_535)[..65_534], b"\r"].concat()),
    ]
}

fn shapes() -> Vec<(&'static str, Vec<u8>)> {
    let pattern = patterned();
    vec![
        ("refused-20-lf-alone", b"\n".to_vec()),
        ("refused-20-cr-lf-alone", b"\r\n".to_vec()),
        ("refused-20-empty-line-first", [b"\n", END].concat()),
        ("refused-20-empty-line-between", [IDLE, b"\n", END].concat()),
        ("refused-20-empty-line-last", [IDLE, b"\n"].concat()),
        ("refused-20-empty-cr-lf-between", [IDLE, b"\r\n", END].concat()),
        ("refused-20-empty-line-in-a-font", [&pattern[..100 * 44], b"\n", &pattern[100 * 44..]].concat()),
        ("refused-20-longest-of-empty-lines", vec![b'\n'; 65_535]),
        ("refused-20-colon-alone", b":\n".to_vec()),
        ("refused-20-colon-alone-cr-lf", b":\r\n".to_vec()),
        ("refused-20-colon-alone-no-line-end", b":".to_vec()),
        ("refused-20-odd-digits", b":00000001FFF\n".to_vec()),
        ("refused-20-one-digit-less", b":00000001F\n".to_vec()),
        ("refused-20-one-digit-less-no-line-end", b":00000001F".to_vec()),
        ("refused-20-eight-digits", b":00000001\n".to_vec()),
        ("refused-20-one-digit", b":0\n".to_vec()),
        ("refused-20-length-above-data", b":01000001FE\n".to_vec()),
        ("refused-20-length-below-data", b":0000000000FF01\n".to_vec()),
        ("refused-20-length-255-no-data", b":FF00000001\n".to_vec()),
        ("refused-20-length-0-with-255-bytes", [&b":"[..], &[b'0'; 520], b"\n"].concat()),
        ("refused-20-two-records-in-a-line", [&b":0000000000"[..], &END[1..]].concat()),
        ("refused-20-second-record", [IDLE, b":00000001\n"].concat()),
        ("refused-20-after-cr-lf", b":0000000000\r\n:00000001FFF\r\n".to_vec()),
        ("refused-20-after-512-records", [&pattern[..512 * 44], b":00000001F\n"].concat()),
        ("refused-20-cut-record", pattern[..20_000].to_vec()),
        ("refused-20-one-long-line", [&b":"[..], &[b'0'; 60_000], b"\n"].concat()),
        ("refused-20-other-numbers-too", b":0100000500\n".to_vec()),
        ("refused-20-before-a-later-character", b":00000001F\nnonsense\n".to_vec()),
        ("refused-20-before-a-later-sum", b"\n:00000000FF\n".to_vec()),
    ]
}

fn record_faults() -> Vec<(&'static str, Vec<u8>)> {
    let far = record(8193, 0, &[]);
    let mut damaged = patterned();
    damaged[300 * 44 + 20] ^= 1;
    vec![
        ("refused-8-worked-record", ended(&[b":04000000000F00F0FC"])),
        ("refused-8-end-record", b":00000001FE".to_vec()),
        ("refused-8-end-record-lf", b":00000001FE\n".to_vec()),
        ("refused-8-second-record", ended(&[b":0000000000", b":0000000001"])),
        ("refused-8-after-cr-lf", b":0000000000\r\n:0000000001\r\n:00000001FF\r\n".to_vec()),
        ("refused-8-in-a-font", damaged),
        ("refused-8-before-its-type", b":0000000500\n".to_vec()),
        ("refused-8-before-its-address", b":0021000000\n".to_vec()),
        ("refused-8-before-a-later-character", ended(&[b":00000000FF", b"nonsense"])),
        ("refused-8-before-a-later-shape", ended(&[b":00000000FF", b""])),
        ("refused-9-type-2", ended(&[&record(0, 2, &[0x10, 0x00])])),
        ("refused-9-type-3", ended(&[&record(0, 3, &[0, 0, 0, 0])])),
        ("refused-9-type-4", ended(&[&record(0, 4, &[0, 0])])),
        ("refused-9-type-5", ended(&[&record(0, 5, &[0, 0, 0, 0])])),
        ("refused-9-type-255", ended(&[&record(0, 255, &[])])),
        ("refused-9-end-with-data", record(0, 1, &[0])),
        ("refused-9-end-with-low-address", record(1, 1, &[])),
        ("refused-9-end-with-high-address", record(256, 1, &[])),
        ("refused-9-before-its-address", ended(&[&record(9000, 4, &[1, 2])])),
        ("refused-9-before-a-later-character", ended(&[&record(0, 2, &[]), b":0000000O00"])),
        ("refused-9-second-record", ended(&[&record(0, 0, &[1]), &record(0, 2, &[])])),
        ("refused-10-no-data-at-8193", ended(&[&far])),
        ("refused-10-two-bytes-at-8191", ended(&[&record(8191, 0, &[0xFF, 0xFF])])),
        ("refused-10-one-byte-at-8192", ended(&[&record(8192, 0, &[0xFF])])),
        ("refused-10-last-address", ended(&[&record(65_535, 0, &[0xFF])])),
        ("refused-10-sum-past-65536", ended(&[&record(65_535, 0, &[0xFF; 255])])),
        ("refused-10-255-bytes", ended(&[&record(8192 - 254, 0, &[0xFF; 255])])),
        ("refused-10-before-a-later-character", ended(&[&far, b" "])),
        ("refused-10-before-given-twice", ended(&[&record(8191, 0, &[0xFF]), &record(8191, 0, &[0xFF, 0xFF])])),
        ("refused-11-same-record-twice", ended(&[&record(0, 0, &[1]), &record(0, 0, &[1])])),
        ("refused-11-set-byte-twice", ended(&[&record(18, 0, &[0xFF]), &record(18, 0, &[0xFF])])),
        ("refused-11-over-its-first", ended(&[&record(10, 0, &[1, 2, 3]), &record(8, 0, &[1, 2, 3])])),
        ("refused-11-over-its-last", ended(&[&record(10, 0, &[1, 2, 3]), &record(12, 0, &[1, 2, 3])])),
        ("refused-11-inside", ended(&[&record(100, 0, &[1; 200]), &record(150, 0, &[1])])),
        ("refused-11-around", ended(&[&record(150, 0, &[1]), &record(100, 0, &[1; 200])])),
        ("refused-11-last-address", ended(&[&record(8191, 0, &[0xFF]), &record(8191, 0, &[0xFF])])),
        ("refused-11-before-a-later-character", ended(&[&record(0, 0, &[1]), &record(0, 0, &[1]), b":0O"])),
        ("refused-11-a-font-twice", [&patterned()[..512 * 44], &patterned()].concat()),
    ]
}

fn ends() -> Vec<(&'static str, Vec<u8>)> {
    vec![
        ("refused-12-nothing", Vec::new()),
        ("refused-12-no-end-record", IDLE.to_vec()),
        ("refused-12-no-end-record-no-lf", b":0000000000".to_vec()),
        ("refused-12-no-end-record-cr-lf", b":0000000000\r\n".to_vec()),
        ("refused-12-font-without-end", patterned()[..512 * 44].to_vec()),
        ("refused-12-lf-after", [END, b"\n"].concat()),
        ("refused-12-cr-lf-after", [END, b"\r\n"].concat()),
        ("refused-12-cr-after", [END, b"\r"].concat()),
        ("refused-12-lf-after-cr-lf", b":00000001FF\r\n\n".to_vec()),
        ("refused-12-end-twice", [END, END].concat()),
        ("refused-12-record-after", [END, IDLE].concat()),
        ("refused-12-noise-after", [END, b"nonsense"].concat()),
        ("refused-12-nul-after", [END, b"\0"].concat()),
        ("refused-12-bad-character-after", [END, b":0000000O00\n"].concat()),
        ("refused-12-colon-after", [END, b":"].concat()),
        ("refused-12-bad-sum-after", [END, b":00000000FF\n"].concat()),
        ("refused-12-font-and-more", [&patterned()[..], b" "].concat()),
        ("refused-12-end-in-the-middle", [&patterned()[..100 * 44], END, &patterned()[100 * 44..]].concat()),
        ("refused-12-before-the-image", [&record(18, 0, &[0])[..], b"\n"].concat()),
    ]
}

fn images() -> Vec<(&'static str, Vec<u8>)> {
    vec![
        ("refused-13-first-gap", ended(&[&record(18, 0, &[0xFE])])),
        ("refused-13-end-of-first-gap", ended(&[&record(31, 0, &[0x7F])])),
        ("refused-13-cell-62", ended(&[&record(1984, 0, &[0])])),
        ("refused-13-cell-63", ended(&[&record(2016, 0, &[0])])),
        ("refused-13-end-of-low-half", ended(&[&record(4095, 0, &[0xEF])])),
        ("refused-13-upper-bits", ended(&[&record(4096, 0, &[0x0F])])),
        ("refused-13-one-upper-bit", ended(&[&record(4096 + 32 * 61 + 17, 0, &[0xE0])])),
        ("refused-13-high-gap", ended(&[&record(4096 + 18, 0, &[0xF0])])),
        ("refused-13-high-cell-62", ended(&[&record(4096 + 1984, 0, &[0xFE])])),
        ("refused-13-last-byte", ended(&[&record(8191, 0, &[0x00])])),
        ("refused-13-lowest-of-two", ended(&[&record(8191, 0, &[0]), &record(50, 0, &[0xFB])])),
        (
            "refused-13-all-clear",
            [(0..512).flat_map(|n| lines(&[&record(16 * n, 0, &[0; 16])])).collect(), END.to_vec()].concat(),
        ),
    ]
}

/// Some of the texts that the comparison draws at random.
fn drawn() -> Vec<Case> {
    (0..80)
        .map(|number| Case {
            name: format!("drawn-{number:02}"),
            text: texts::random_text(&mut Random::of_case(0xCA5E5, number)),
        })
        .collect()
}

pub fn all() -> Vec<Case> {
    let named = [good(), too_long(), characters(), shapes(), record_faults(), ends(), images()].concat();
    let mut cases: Vec<Case> = named.into_iter().map(|(name, text)| Case { name: name.to_string(), text }).collect();
    cases.extend(drawn());
    cases
}

#[cfg(test)]
mod tests {
    use super::*;
    use std::collections::BTreeSet;

    #[test]
    fn every_text_comes_to_what_its_name_says() {
        for case in all() {
            let line = case.expected();
            assert!(line.ends_with('\n'));
            if case.name.starts_with("good-") {
                assert!(line.starts_with("cells 62 bytes "), "{}: {line}", case.name);
            } else if let Some(rest) = case.name.strip_prefix("refused-") {
                let number = rest.split('-').next().unwrap();
                assert!(line.starts_with(&format!("refused {number} at ")), "{}: {line}", case.name);
            }
        }
    }

    #[test]
    fn names_differ_and_the_set_is_always_the_same() {
        let names: BTreeSet<String> = all().into_iter().map(|case| case.name).collect();
        assert_eq!(names.len(), all().len());
        assert!(all().iter().zip(all()).all(|(one, other)| one.text == other.text));
    }

    #[test]
    fn the_drawn_texts_are_of_many_sorts() {
        let sort = |case: &Case| case.expected().split(" at ").next().unwrap_or_default().to_string();
        let refusals: BTreeSet<String> = drawn().iter().map(sort).filter(|sort| sort.starts_with("refused")).collect();
        assert!(refusals.len() >= 6, "{refusals:?}");
    }

    #[test]
    fn worked_lines_are_among_them() {
        let line = |name: &str| all().into_iter().find(|case| case.name == name).unwrap().expected();
        assert_eq!(line("good-end-lf"), "cells 62 bytes 0\n");
        assert_eq!(line("refused-8-end-record"), "refused 8 at 0\n");
        assert_eq!(line("refused-12-nothing"), "refused 12 at 0\n");
        assert_eq!(line("good-font-pattern"), "cells 62 bytes 8192\n");
        assert_eq!(line("refused-13-lowest-of-two"), "refused 13 at 50\n");
    }

    #[test]
    fn places_of_bad_characters_and_shapes() {
        let line = |name: &str| all().into_iter().find(|case| case.name == name).unwrap().expected();
        assert_eq!(line("refused-7-too-long-bad-character-first"), "refused 7 at 0\n");
        assert_eq!(line("refused-19-no-colon-after-cr-lf"), "refused 19 at 13\n");
        assert_eq!(line("refused-19-blank-after-cr-lf"), "refused 19 at 24\n");
        assert_eq!(line("refused-19-cr-for-every-lf"), "refused 19 at 43\n");
        assert_eq!(line("refused-19-first-of-two"), "refused 19 at 2\n");
        assert_eq!(line("refused-19-last-digit-of-a-font"), "refused 19 at 22538\n");
        assert_eq!(line("refused-19-in-a-font"), "refused 19 at 13220\n");
        assert_eq!(line("refused-19-end-of-a-long-line"), "refused 19 at 60001\n");
        assert_eq!(line("refused-19-last-of-the-longest"), "refused 19 at 65534\n");
        assert_eq!(line("refused-20-after-cr-lf"), "refused 20 at 13\n");
        assert_eq!(line("refused-20-empty-line-in-a-font"), "refused 20 at 4400\n");
        assert_eq!(line("refused-20-cut-record"), "refused 20 at 19976\n");
    }
}
