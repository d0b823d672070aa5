//! `check`: every text of the `fontcheck` cases, reasons, lines that are shown, several files, and texts that are not whole.

use super::{with_cr_lf, END_RECORD, SAMPLE_TEXT};
use crate::cases;
use crate::cli::case::{case, Case, Line, Said};
use crate::cli::expect::{check, show, Paint, To};
use crate::cli::folder::Thing;
use crate::compare::hex::texts::record;

fn one(name: &str, text: &[u8]) -> Case {
    check(name, false, &[("a.hex", Some(text))])
}

/// A text with one message that has to name something.
fn naming(name: &str, text: &[u8], names: &[&str]) -> Case {
    let case = one(name, text);
    let Said::Lines(lines) = &case.said else {
        panic!("{}: which lines are said is not known", case.name);
    };
    let line = names.iter().fold(lines[0].clone(), |line, name| line.naming(*name));
    case.said(Said::Lines(vec![line]))
}

fn ended(records: &[Vec<u8>]) -> Vec<u8> {
    let lines: Vec<u8> = records.iter().flat_map(|record| [record, &b"\n"[..]].concat()).collect();
    [&lines[..], END_RECORD].concat()
}

/// What each reason has to tell beside number and place.
fn reasons() -> Vec<Case> {
    let idle = b":0000000000\n";
    vec![
        naming("19: a digit", b":000x000000\n", &["column 5: 'x' is no hexadecimal digit"]),
        naming("19: a digit in the second line", &[idle, &b":000000000G\n"[..]].concat(), &["column 11", "'G'"]),
        naming("19: a control character", b":00\x0100000000\n", &["column 4", "\\x01"]),
        naming("19: a byte above 127", b":00000000\xE90\n", &["column 10", "\\xE9"]),
        naming("19: a NUL", b":00000000\x000\n", &["column 10", "\\x00"]),
        naming("19: a CR alone", b":0000000\r00\n", &["column 9", "\\x0D"]),
        naming("19: a second colon", b"::00000001FF\n", &["column 2", "':'"]),
        naming("19: no colon", b"0000000000\n", &["colon"]),
        naming("19: no colon, and no letter", b"\x1B[0m\n", &["colon", "\\x1B"]),
        naming("20: an empty line", b"\n", &["empty"]),
        naming("20: an empty line between", &[&idle[..], b"\r\n", END_RECORD].concat(), &["empty"]),
        naming("20: an odd number of digits", b":000000000\n", &["odd number of digits, 9"]),
        naming("20: a byte more than the length says", b":000000000000\n", &["length 00 asks for 5"]),
        naming("20: a byte less than the length says", b":01000000FF\n", &["length 01 asks for 6"]),
        naming("20: too few bytes for a record", b":00000000\n", &["length 00 asks for 5"]),
        naming("20: a colon alone", b":\n", &["no byte follows the colon"]),
        one("20: a very long line", &[&b":"[..], &[b'0'; 30_000], b"\n"].concat()),
        naming("8: the end record", b":00000001FE\n", &["FE", "FF"]),
        naming("8: a record of data", b":04000000000F00F0FC\n", &["FC", "FD"]),
        naming("9: type 02", &record(0, 2, &[0x10, 0]), &["02"]),
        naming("9: type A5", &record(0, 0xA5, &[]), &["A5"]),
        naming("9: an end record with a length", &record(0, 1, &[0]), &["length"]),
        naming("9: an end record with an address", &record(7, 1, &[]), &["address"]),
        one("10: past the image", &record(8190, 0, &[1, 2, 3])),
        one("10: far past the image", &record(0xFFFF, 0, &[])),
        naming(
            "11: given in line 1",
            &ended(&[record(5, 0, &[1, 2]), record(9, 0, &[0]), record(4, 0, &[3, 4])]),
            &["line 1"],
        ),
        naming(
            "11: given in line 2",
            &ended(&[record(5, 0, &[1]), record(9, 0, &[0]), record(8, 0, &[3, 4])]),
            &["line 2"],
        ),
        one("12: no end record", idle),
        one("12: an empty text", b""),
        one("12: a line after the end record", &[END_RECORD, idle].concat()),
        naming("13: a row's upper bits", &ended(&[record(4096 + 32 + 2, 0, &[0x7F])]), &["cell 1 row 2", "1022"]),
        naming("13: a spare byte", &ended(&[record(18, 0, &[0xFE])]), &["cell 0", "0012", "FF"]),
        naming("13: past the last cell", &ended(&[record(0x7C0, 0, &[0])]), &["07C0", "FF"]),
        naming(
            "13: of two records the one to blame",
            &ended(&[record(0, 0, &[0]), record(8191, 0, &[0]), record(16, 0, &[0, 0, 0xFF, 0xEF])]),
            &["cell 0", "0013"],
        ),
    ]
}

/// A line of so many bytes, all of them digits that tell their places, but for the bad one.
fn with_a_bad_one(length: usize, place: usize) -> Vec<u8> {
    let mut line: Vec<u8> = (0..length).map(|at| b"0123456789ABCDEFabcdef"[at % 22]).collect();
    line[0] = b':';
    line[place] = b'!';
    line
}

/// Bad characters at both sides of the places where what is shown of a line begins to move and where it stops.
fn long_lines() -> Vec<Case> {
    let mut cases = Vec::new();
    for length in [1, 2, 36, 37, 71, 72, 73, 74, 75, 108, 109, 110, 144, 521, 3000] {
        let edges = [0, 1, 2, 3, 35, 36, 37, 38, 39, 40, 68, 69, 70, 71, 72];
        let from_the_end = [1, 2, 3, 4, 33, 34, 35, 36, 37, 38, 70, 71, 72, 73];
        let mut places: Vec<usize> = edges.iter().copied().filter(|&place| place < length).collect();
        places.extend(from_the_end.iter().filter_map(|&back| length.checked_sub(back)));
        places.sort();
        places.dedup();
        for place in places {
            let line = with_a_bad_one(length, place);
            let name = format!("19: byte {place} of a line of {length}");
            cases.push(one(&name, &[b":0000000000\n", &line[..], b"\n", END_RECORD].concat()));
        }
    }
    cases
}

/// What a shown line has in place of bytes that no terminal should get, and where it is another line than the first.
fn shown_lines() -> Vec<Case> {
    let idle = b":0000000000\r\n";
    let every_byte: Vec<u8> = (0..=255).filter(|&byte| byte != b'\n').collect();
    let mut cases = vec![
        one("a shown line: a bell and colours", b":00\x07\x1B[31m00\n"),
        one("a shown line: a blank at its end", b":00000001FF \n"),
        one("a shown line: blanks only", b"   \n"),
        one("a shown line: a tab before the bad character", b"\t:00000001FF\n"),
        one("a shown line: UTF-8", ":00\u{e9}\u{3a9}\u{200b}00\n".as_bytes()),
        one("a shown line: CRs", b":00\r00\r\r\n"),
        one("a shown line: a CR at the text's end", b":00000001FF\r"),
        one("a shown line: a backslash, a quote and a percent sign", b":\\'\"%s%n`$(x)\n"),
        one("a shown line: DEL and the last of ASCII", b":~}\x7F\x80 \x1F\n"),
        one("a shown line: no line's end", b":0000000000\n:000000 1FF"),
        one("a shown line: the third, after CR LF", &[idle, &idle[..], b":0000000O01FF\r\n", idle].concat()),
        one("a shown line: the last of 513", &[&SAMPLE_TEXT[..512 * 44], b":0000000lFF\n"].concat()),
        one("a shown line: in the middle of the sample", &[&SAMPLE_TEXT[..9000], b"?", &SAMPLE_TEXT[9000..]].concat()),
        one("a shown line: the longest", &[&b":"[..], &[b'0'; 65_532], b"\x1B\n"].concat()),
        one("a shown line: of CRs for LFs", &SAMPLE_TEXT.iter().map(|&b| b.max(13)).collect::<Vec<u8>>()),
        one("a shown line: remarks", b"; a font\n:00000001FF\n"),
    ];
    // Each byte in its turn, as the bad one and beside it.
    for (at, bytes) in every_byte.chunks(16).enumerate() {
        cases.push(one(&format!("a shown line: bytes {}", 16 * at), &[&b":00"[..], bytes, b"00\n"].concat()));
        cases.push(one(&format!("a shown line: a blank, then bytes {}", 16 * at), &[&b": "[..], bytes].concat()));
    }
    cases
}

/// The same from other commands, from standard input and of several files.
fn shown_elsewhere() -> Vec<Case> {
    let bad: &[u8] = b":0000000000\r\n:00\x1B0000001FF\r\n";
    let wide = format!("return 4 0\n{}", "space red\n".repeat(22));
    let named = |file| check(&format!("a shown line: of the file {file:?}"), false, &[(file, Some(bad))]);
    vec![
        check("a shown line: from standard input", false, &[("-", Some(bad))]),
        check("a shown line: to be whole", true, &[("a.hex", Some(bad))]),
        check("a shown line: of three files", false, &[("a", Some(bad)), ("b", Some(SAMPLE_TEXT)), ("c", Some(b"x"))]),
        check(
            "a shown line: and a file that is not there",
            false,
            &[("a", Some(bad)), ("none", None), ("c", Some(bad))],
        ),
        named("a\u{e9}\x07.hex"),
        named("    a"),
        show("a shown line: show", "f.hex", bad, &[], To::Old),
        show("a shown line: show some cells", "-", bad, &[3, 4], To::New),
        Paint { to: To::Old, ..Paint::new(b"14\n", bad) }.case("a shown line: paint"),
        Paint { to: To::New, ..Paint::new(wide.as_bytes(), bad) }.case("a shown line: paint, and perhaps a warning"),
        Paint { to: To::Old, ..Paint::new(b"", bad) }.case("a shown line: paint of an empty screen"),
    ]
}

/// One file named twice.
fn twice(text: &[u8]) -> Case {
    check("a file twice", false, &[("a", Some(text))]).out("a: cells 62 bytes 8192\n".repeat(2))
}

/// Several files, good and bad, there or not.
fn several() -> Vec<Case> {
    let (good, partial, bad) = (Some(SAMPLE_TEXT), Some(END_RECORD), Some(&b":00000001FE"[..]));
    let files = |name: &str, whole: bool, texts: &[(&str, Option<&[u8]>)]| check(name, whole, texts);
    vec![
        files("three good files", false, &[("a", good), ("b", good), ("c", good)]),
        files("a bad file among good ones", false, &[("a", good), ("b", bad), ("c", good)]),
        files("a bad file first", false, &[("a", bad), ("b", good)]),
        files("two bad files", false, &[("a", bad), ("b", Some(b""))]),
        files("a file that is not there", false, &[("none", None)]),
        files("a file that is not there among others", false, &[("a", good), ("none", None), ("c", good)]),
        files("not there wins over bad, before it", false, &[("none", None), ("b", bad)]),
        files("not there wins over bad, after it", false, &[("a", bad), ("none", None), ("c", partial)]),
        files("a partial text is good", false, &[("a", partial), ("b", good)]),
        files("a partial text is bad where it must be whole", true, &[("a", partial), ("b", good)]),
        files("whole texts", true, &[("a", good), ("b", good)]),
        files("a refused text where it must be whole", true, &[("a", bad)]),
        Case { words: case("", "check a a").words, ..twice(SAMPLE_TEXT) },
        files("standard input", false, &[("-", good)]),
        files("standard input among files", false, &[("a", good), ("-", bad), ("b", good)]),
        files("a partial text from standard input", false, &[("-", partial)]),
        files("the same, to be whole", true, &[("-", partial)]),
        files("nothing from standard input", false, &[("-", Some(b""))]),
        files("a text too long from standard input", false, &[("-", Some(&[b'\n'; 70_000]))]),
    ]
}

/// Texts that do not give every byte.
fn partial() -> Vec<Case> {
    let without = |from: usize, to: usize| [&SAMPLE_TEXT[..44 * from], &SAMPLE_TEXT[44 * to..]].concat();
    let mut cases = Vec::new();
    for (name, text) in [
        ("the first record missing", without(0, 1)),
        ("the last record missing", without(511, 512)),
        ("a high half missing", without(258, 259)),
        ("spare bytes first", ended(&[record(0, 0, &[0; 18])])),
        (
            "one byte missing",
            ended(&(0..64).map(|n| record(n * 128, 0, &[0xFF; 128][..128 - n / 63])).collect::<Vec<_>>()),
        ),
        ("a gap among spare bytes", without(381, 512)),
        ("cell 62 of the low half", without(124, 512)),
    ] {
        cases.push(one(name, &text));
        cases.push(check(&format!("{name}, to be whole"), true, &[("a.hex", Some(&text))]));
    }
    cases
}

fn trouble() -> Vec<Case> {
    let unreadable = |name: &str, words: &str| case(name, words).status(2);
    vec![
        unreadable("a folder", "check folder")
            .thing("folder", Thing::Folder)
            .says(Line::exactly("folder: cannot be read: Is a directory")),
        unreadable("a folder that is not there", "check none/a.hex")
            .says(Line::exactly("none/a.hex: cannot be read: No such file or directory")),
        unreadable("a link to nothing", "check link")
            .thing("link", Thing::Link { to: "none".to_string() })
            .says(Line::exactly("link: cannot be read: No such file or directory")),
        case("a device that never ends", "check /dev/zero")
            .status(1)
            .says(Line::new("/dev/zero: ", " (refused 7 at 0)")),
        one("a link to a text", SAMPLE_TEXT).thing("link", Thing::Link { to: "a.hex".to_string() }),
    ]
}

pub fn all() -> Vec<Case> {
    let mut cases: Vec<Case> =
        cases::all().iter().map(|case| one(&format!("check {}", case.name), &case.text)).collect();
    cases.push(one("the sample", SAMPLE_TEXT));
    cases.push(one("the sample with CR LF", &with_cr_lf(SAMPLE_TEXT)));
    cases.extend([reasons(), long_lines(), shown_lines(), shown_elsewhere(), several(), partial(), trouble()].concat());
    cases
}
