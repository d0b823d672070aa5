//! Names of files in messages: control characters are shown by their numbers, all other bytes are as they are.

use super::{drawn, numbered, END_RECORD, SAMPLE_DRAWING, SAMPLE_TEXT};
use crate::cli::case::{case, Case, Line, Said};
use crate::cli::expect::{check, font, named, pack, play, show, whole_font, Paint, To};
use std::ffi::OsStr;
use std::os::unix::ffi::OsStrExt;

/// A name, and how it is shown.
const NAMES: &[(&str, &str)] = &[
    ("a\x01b", "a\\x01b"),
    ("\x1B[31m", "\\x1B[31m"),
    ("a\nb", "a\\x0Ab"),
    ("\t", "\\x09"),
    ("a\x7F\x1F", "a\\x7F\\x1F"),
    ("a b", "a b"),
    ("a\\b", "a\\b"),
    ("%s%n", "%s%n"),
    ("\u{e9}\u{2713}", "\u{e9}\u{2713}"),
    ("\u{e9}\x0D", "\u{e9}\\x0D"),
];

/// Every command, for a name that is shown like this.
fn of_every_command(name: &str, shown: &str) -> Vec<Case> {
    assert_eq!(named(name), shown);
    let title = |what: &str| format!("the name {shown}: {what}");
    let starts = |case: Case, start: String| case.says(Line::new(start, ""));
    let gone = Line::exactly(format!("{shown}: cannot be read: No such file or directory"));
    let paint = Paint::new(b"14\n", SAMPLE_TEXT);
    let one_cell = "cell 5\n".to_string() + &"............\n".repeat(18);
    vec![
        check(&title("check"), false, &[(name, Some(SAMPLE_TEXT))]).out(format!("{shown}: cells 62 bytes 8192\n")),
        check(&title("check, not whole"), true, &[(name, Some(END_RECORD))]),
        check(&title("check, bad"), false, &[(name, Some(b":00000001FE"))]),
        case(&title("check, not there"), "check").word(name).status(2).says(gone.clone()),
        font(&title("font"), name, SAMPLE_DRAWING, To::New),
        font(&title("font, cells missing"), name, one_cell.as_bytes(), To::New),
        whole_font(&title("font, cells missing, to be whole"), name, one_cell.as_bytes(), To::New),
        starts(case(&title("font, no cell"), "font").word(name).file(name, "").status(1), format!("{shown}: ")),
        starts(case(&title("font, bad"), "font").word(name).file(name, "\nx").status(1), format!("{shown}:2: ")),
        pack(&title("pack"), name, drawn("\u{3A9}", "............").as_bytes(), To::Nowhere, To::Nowhere),
        pack(&title("pack, no glyph"), name, b"", To::New, To::New),
        pack(&title("pack, bad"), name, b"\nglyph 7\n", To::New, To::New),
        pack(&title("pack, refused"), name, numbered(0..63).as_bytes(), To::New, To::New),
        case(&title("pack, not there"), "pack").word(name).status(2).says(gone.clone()),
        Paint { table: Some((name, b"cell 1 A\ncell 62 B\n")), ..paint.clone() }.case(&title("paint, a bad table")),
        Paint { table: Some((name, b"font 00000000\ncell 1 A\n")), ..paint.clone() }
            .case(&title("paint, another font's table")),
        show(&title("show, not whole"), name, END_RECORD, &[3], To::Nowhere),
        case(&title("show, not there"), "show").word(name).status(2).says(gone.clone()),
        Paint { screen: (name, b""), ..paint.clone() }.case(&title("paint, nothing there")),
        Paint { screen: (name, b"14\nstop\n"), ..paint.clone() }.case(&title("paint, a bad screen")),
        Paint { font: (name, b":00000001FE"), ..paint }.case(&title("paint, a bad font")),
        play(&title("play, no clock"), name, b"", To::New),
        play(&title("play, refused"), name, b"\nplay 16385\n", To::New),
        case(&title("play, not there"), "play").word(name).status(2).says(gone),
        starts(
            case(&title("output"), "play e -o").word(format!("none/{name}")).file("e", "play 1\n").status(2),
            format!("none/{shown}: "),
        ),
        starts(
            case(&title("table"), "pack g -o out --table")
                .word(format!("none/{name}"))
                .file("g", drawn("A", "............"))
                .status(2),
            format!("none/{shown}: "),
        ),
        case(&title("table is input"), "pack").word(name).word("--table").word(name).file(name, "").status(2).says(
            Line::exactly(format!(
                "dirgeflint: --table {shown} is also an input: name another file; try: dirgeflint help pack"
            )),
        ),
        case(&title("output is input"), "play").word(name).word("-o").word(name).file(name, "play 1\n").status(2).says(
            Line::exactly(format!(
                "dirgeflint: -o {shown} is also an input: name another file; try: dirgeflint help play"
            )),
        ),
    ]
}

/// Bytes that are no letters of UTF-8.
fn odd_bytes() -> Vec<Case> {
    let name = b"a\xE9\x80\x02\xFF";
    let shown = b"a\xE9\x80\\x02\xFF";
    let said = |rest: &str| Said::Exactly([&shown[..], rest.as_bytes()].concat());
    let file = OsStr::from_bytes(name);
    vec![
        case("odd bytes in a name: check", "check")
            .word(name)
            .file(file, SAMPLE_TEXT)
            .out([&shown[..], b": cells 62 bytes 8192\n"].concat()),
        case("odd bytes in a name: play", "play")
            .word(name)
            .file(file, "\n")
            .said(said(": warning: no clock is played\n")),
        case("odd bytes in a name: paint", "paint --font f.hex")
            .word(name)
            .file(file, ";")
            .file("f.hex", SAMPLE_TEXT)
            .said(said(": warning: no word is given: the screen is empty\n"))
            .out(" \n"),
        case("odd bytes in a name: pack", "pack").word(name).file(file, "").status(1).said(Said::IfNotDone),
        case("odd bytes in a name: show", "show")
            .word(name)
            .status(2)
            .said(said(": cannot be read: No such file or directory\n")),
        case("odd bytes in a name: written", "font d.txt -o")
            .word(name)
            .file("d.txt", SAMPLE_DRAWING)
            .writes(file, SAMPLE_TEXT),
    ]
}

pub fn all() -> Vec<Case> {
    let named = NAMES.iter().flat_map(|(name, shown)| of_every_command(name, shown));
    named.chain(odd_bytes()).collect()
}
