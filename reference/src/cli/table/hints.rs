//! Mistakes that are often made, each told what to do about it: where, with which number, and what the message names.

use super::{drawn, naming, with_cr_lf, SAMPLE_DRAWING, SAMPLE_GLYPHS, SAMPLE_TEXT};
use crate::cli::case::{case, Case, Line, Said};
use crate::cli::expect::{check, font, misused, pack, play, show, Paint, To};
use crate::cli::text::BYTE_ORDER_MARK;
use crate::draw;

/// Every sort of file with a byte order mark before it, and with nothing else.
fn marks() -> Vec<Case> {
    let marked = |bytes: &[u8]| [BYTE_ORDER_MARK, bytes].concat();
    let mut cases = Vec::new();
    for (name, rest) in [("", None), (" and CR LF", Some(true)), (" and nothing", Some(false))] {
        let rest = |bytes: &[u8]| match rest {
            None => marked(bytes),
            Some(true) => marked(&with_cr_lf(bytes)),
            Some(false) => marked(b""),
        };
        let title = |what: &str| format!("a byte order mark{name}: {what}");
        let (text, drawing) = (rest(SAMPLE_TEXT), rest(SAMPLE_DRAWING));
        let (screen, events) = (rest(b"character 1 red\n"), rest(b"play 1\n"));
        let (glyphs, table) = (rest(SAMPLE_GLYPHS), rest(b"cell 1 A\n"));
        let paint = Paint { to: To::Old, ..Paint::new(b"character 1 red\n", SAMPLE_TEXT) };
        cases.extend([
            check(&title("check"), false, &[("a.hex", Some(&text))]),
            check(&title("check of standard input"), true, &[("-", Some(&text))]),
            show(&title("show"), "f.hex", &text, &[], To::Old),
            font(&title("font"), "d.txt", &drawing, To::Old),
            pack(&title("pack"), "g.txt", &glyphs, To::Old, To::Old),
            Paint { table: Some(("t.txt", &table)), ..paint }.case(&title("paint, the table")),
            Paint { to: To::Old, ..Paint::new(&screen, SAMPLE_TEXT) }.case(&title("paint")),
            Paint { to: To::Old, ..Paint::new(b"14\n", &text) }.case(&title("paint, the font")),
            play(&title("play"), "e.txt", &events, To::Old),
        ]);
    }
    // Two bytes of it are none.
    cases.push(font("a byte order mark cut short", "d.txt", b"\xEF\xBB", To::Old));
    cases.push(check("a byte order mark inside a text", false, &[("a.hex", Some(b":0000000000\n\xEF\xBB\xBF"))]));
    cases
}

/// Numbers that are negative, too large or written with 0X: the range that is due is told.
fn ranges() -> Vec<Case> {
    let mut cases = Vec::new();
    for number in ["-1", "0X1", "4294967296", "-0", "0X", "-99999999999999999999"] {
        for (option, most) in [
            ("--mode", "3"),
            ("--colour", "7"),
            ("--h", "63"),
            ("--v", "63"),
            ("--ratio", "2"),
            ("--frequency", "3"),
            ("--frame", "4294967295"),
            ("--width", "1024"),
            ("--lines", "1024"),
        ] {
            let words = format!("{option}={number}");
            let paint = Paint { words: words.clone(), to: To::Old, ..Paint::new(b"14\n", SAMPLE_TEXT) };
            cases.push(naming(paint.misused(&format!("the range of {words}")), most));
        }
        for (line, most) in [
            ("character N red", "61"),
            ("character 1 N", "7"),
            ("space N", "7"),
            ("return N 0", "4"),
            ("return 1 N", "12"),
            ("N", "1023"),
        ] {
            let text = format!("end\n{}\n", line.replace('N', number));
            let paint = Paint { to: To::Old, ..Paint::new(text.as_bytes(), SAMPLE_TEXT) };
            cases
                .push(naming(paint.case(&format!("the range in a screen: {}", text.trim().replace('\n', ", "))), most));
        }
        for (line, most) in [("low N", "255"), ("high N", "255"), ("play N", "16384")] {
            let text = format!("play 1\n{}\n", line.replace('N', number));
            let title = format!("the range in events: {}", text.trim().replace('\n', ", "));
            cases.push(naming(play(&title, "e.txt", text.as_bytes(), To::Old), most));
        }
        let table = format!("cell 1 A\ncell {number} B\n");
        let paint = Paint { table: Some(("t", table.as_bytes())), to: To::Old, ..Paint::new(b"14\n", SAMPLE_TEXT) };
        cases.push(naming(paint.case(&format!("the range in a table: {number}")), "61"));
        let cell = format!("cell {number}\n");
        let drawn = font(&format!("the range of a cell: {number}"), "d.txt", cell.as_bytes(), To::Old);
        cases.push(naming(drawn, "61"));
        for (words, most) in [("show f.hex -- N", "61"), ("pulse -- N 0", "7"), ("pulse -- 0 N", "255")] {
            let words = words.replace('N', number);
            let command = words.split(' ').next().unwrap_or_default();
            let made = case(&format!("the range: {words}"), &words).file("f.hex", SAMPLE_TEXT);
            cases.push(naming(misused(made, command), most));
        }
    }
    cases
}

/// Remarks of the other languages in a drawing.
fn remarks() -> Vec<Case> {
    let lit = "############\n".repeat(18);
    let drawings = [
        ("a remark with # first", "# a font\ncell 0\n".to_string() + &lit),
        ("a remark with # after others", "; a font\n\n#\ncell 0\n".to_string() + &lit),
        ("a remark with # that looks like a row", "############\ncell 0\n".to_string() + &lit),
    ];
    let hinted = drawings.iter().map(|(name, drawing)| naming(font(name, "d.txt", drawing.as_bytes(), To::Old), ";"));
    let later = "cell 0\n".to_string() + &lit + "# more\n";
    let glyphs = "# glyphs\n".to_string() + &drawn("A", "............");
    let glyphs = pack("a remark with # before glyphs", "g.txt", glyphs.as_bytes(), To::Old, To::Old);
    let later = font("a remark with # after a cell", "d.txt", later.as_bytes(), To::Old);
    hinted.chain([later, naming(glyphs, ";")]).collect()
}

/// Headings and rows that do not begin their lines, blanks for unlit dots, and a drawing that ends after a row or a dot.
fn lines() -> Vec<Case> {
    let whole = drawn("A", "............");
    let glyphs = |name: &str, drawings: String, said: &str| {
        naming(pack(&format!("glyphs: {name}"), "g.txt", drawings.as_bytes(), To::Old, To::Old), said)
    };
    let cells = |name: &str, drawing: &str, said: &str| {
        naming(font(&format!("cells: {name}"), "d.txt", drawing.as_bytes(), To::Old), said)
    };
    vec![
        glyphs("a heading after blanks", format!("  {whole}"), "blanks at its start"),
        glyphs("a row after a tab", whole.replacen("\n.", "\n\t.", 1), "blanks at its start"),
        glyphs("blanks for unlit dots", whole.replacen("............", "     ##     ", 1), "write . for them"),
        glyphs("one row", "glyph A\n............\n".to_string(), "has 1 row so far"),
        glyphs("no row", "glyph A\n".to_string(), "has 0 rows so far"),
        glyphs("one dot", "glyph A\n#\n".to_string(), "has 1 dot:"),
        glyphs("no name", whole.replacen("glyph A", "glyph", 1), "one word"),
        cells("a heading after blanks", " cell 1\n", "blanks at its start"),
        cells("one row", "cell 1\n############\n", "has 1 row so far"),
        cells("two rows", "cell 1\n############\n############\ncell 2\n", "has 2 rows so far"),
    ]
}

/// Drawings of one sort where the other is due.
fn sorts() -> Vec<Case> {
    let glyphs = font("glyphs where cells are due", "g.txt", SAMPLE_GLYPHS, To::Old);
    let cells = pack("cells where glyphs are due", "d.txt", SAMPLE_DRAWING, To::Old, To::Old);
    vec![naming(glyphs, "dirgeflint pack"), naming(cells, "dirgeflint font")]
}

/// An image where a text is due, and texts that are too long.
fn texts() -> Vec<Case> {
    let image = draw::image(SAMPLE_DRAWING).unwrap_or_default();
    let check = |name: &str, bytes: &[u8]| check(&format!("check {name}"), false, &[("a.hex", Some(bytes))]);
    let objcopy = "objcopy -I binary -O ihex";
    vec![
        naming(check("an image", &image), objcopy),
        naming(check("an image of zeros", &[0; 8192]), objcopy),
        naming(check("an image of FF", &[0xFF; 8192]), objcopy),
        naming(check("an image that begins with a line's end", &[b'\n'; 8192]), objcopy),
        check("a byte less than an image", &image[1..]),
        check("8192 bytes that begin with a colon", &[b':'; 8192]),
        show("show an image", "f.hex", &image, &[], To::Old),
        Paint { to: To::Old, ..Paint::new(b"14\n", &image) }.case("paint with an image"),
        check("a text of 65536 bytes", &SAMPLE_TEXT.repeat(3)[..65_536]),
        check("a text far too long", &SAMPLE_TEXT.repeat(9)),
        check("a text of 65535 bytes", &SAMPLE_TEXT.repeat(3)[..65_535]),
        Case {
            said: Said::Lines(vec![Line::new("<stdin>: ", " (refused 7 at 0)")]),
            ..show("show a text too long from standard input", "-", &SAMPLE_TEXT.repeat(9), &[], To::Nowhere)
        },
    ]
}

pub fn all() -> Vec<Case> {
    [marks(), ranges(), remarks(), lines(), sorts(), texts()].concat()
}
