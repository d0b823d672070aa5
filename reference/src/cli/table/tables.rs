//! `paint --table`: screens that name glyphs, tables as `pack` writes them and as people change them, and tables of
//! another font.

use super::{naming, typed, with_cr_lf, END_RECORD, SAMPLE_GLYPHS, SAMPLE_MENU, SAMPLE_TEXT};
use crate::cli::case::{case, Case, Line, Said};
use crate::cli::expect::{Paint, To};
use crate::cli::folder::Thing;
use crate::cli::glyphs::{drawings, sum, sum_of_font, Drawings, Packed};
use crate::cli::text;
use crate::compare::hex::texts::record;

/// The sample's glyphs, and what they are packed into.
fn sample() -> (Drawings, Packed) {
    let drawings = drawings(SAMPLE_GLYPHS).expect("the sample is good");
    let packed = drawings.packed().expect("the sample has cells");
    (drawings, packed)
}

/// The words that name glyphs, with the cells in their places.
fn by_cells(screen: &str, packed: &Packed) -> String {
    let cell = |name: &str| {
        let mut lines = packed.table.lines().filter_map(|line| line.strip_prefix("cell "));
        lines.find_map(|line| line.split(' ').nth(1).filter(|other| *other == name).map(|_| line[..2].to_string()))
    };
    let word = |word: &str| cell(word).unwrap_or(word.to_string());
    let line = |line: &str| match line.strip_prefix("character ") {
        Some(rest) => format!("character {}\n", rest.split(' ').map(word).collect::<Vec<String>>().join(" ")),
        None => format!("{line}\n"),
    };
    screen.lines().map(line).collect()
}

/// A screen painted with the sample's glyphs, the picture made of the glyphs.
fn named(name: &str, screen: &str, change: impl Fn(&mut Paint)) -> Case {
    let (drawn, packed) = sample();
    let table = Some(("table.txt", packed.table.as_bytes()));
    let mut paint = Paint { table, drawn: Some(&drawn), ..Paint::new(screen.as_bytes(), packed.text.as_bytes()) };
    change(&mut paint);
    paint.case(&format!("named: {name}"))
}

fn menu() -> String {
    String::from_utf8_lossy(SAMPLE_MENU).into_owned()
}

fn screens() -> Vec<Case> {
    let menu = menu();
    let cells = by_cells(&menu, &sample().1);
    let every: Vec<String> = sample().0.names.iter().map(|name| format!("character {name} white\n")).collect();
    let plain = |name: &str, screen: &str| named(name, screen, |_| {});
    let in_frame = |frame: u32, words: &'static str| {
        named(words, &menu, move |paint| (paint.frame, paint.words) = (frame, words.to_string()))
    };
    let mut cases = vec![
        plain("the menu", &menu),
        plain("the menu by cells", &cells),
        named("the menu without its table", &cells, |paint| (paint.table, paint.drawn) = (None, None)),
        named("the menu as a picture", &menu, |paint| paint.to = To::New),
        named("the menu by cells as a picture", &cells, |paint| paint.to = To::New),
        named("the menu as text over a file", &menu, |paint| (paint.to, paint.text) = (To::Old, true)),
        named("the menu to -", &menu, |paint| paint.to = To::Dash),
        named("the table from standard input", &menu, |paint| paint.table = paint.table.map(|(_, table)| ("-", table))),
        named("the screen from standard input", &menu, |paint| paint.screen.0 = "-"),
        named("the font from standard input", &menu, |paint| (paint.font.0, paint.to) = ("-", To::Old)),
        in_frame(12, "--frame 12"),
        in_frame(11, "--frame=11"),
        plain("the menu with CR LF", &menu.replace('\n', "\r\n")),
        plain("the first 64 glyphs", &every[..64].concat()),
        plain("the other glyphs", &every[64..].concat()),
        plain(
            "glyphs that share a cell",
            "character A red\ncharacter \u{391} red blink\nreturn 2 4\ncharacter \u{391} 3\n",
        ),
        plain(
            "names and cells",
            "character A red\ncharacter 10 red\ncharacter 0x0A red\ncharacter 010 red\n14\n0x0ae\n",
        ),
        plain("cells that are left over", "character 57 red\ncharacter 61 red\nspace blue\ncharacter A 7\n"),
        plain("no name at all", "character 1 red\n"),
        plain("nothing", ""),
        plain("blanks and comments", "\tcharacter \t\u{3A3}\tred ;\u{3A3}\n character A red#A\n# character B red\n"),
        plain("a name and no last line end", "character \u{3A9} red"),
        named("a partial font", "character A red\n", |paint| {
            (paint.font.1, paint.table, paint.drawn) = (END_RECORD, Some(("t", &b"cell 3 A"[..])), None)
        }),
    ];
    let with = named("", "character A red\n", |_| {});
    for words in [
        "paint --table table.txt screen --font font.hex",
        "paint --table=table.txt --font=font.hex screen",
        "paint --font font.hex --table table.txt -- screen",
    ] {
        cases.push(Case { name: format!("named: {words}"), ..typed(with.clone(), words) });
    }
    cases
}

/// A table, for a screen that names what it may have.
fn with_table(name: &str, table: impl AsRef<[u8]>, screen: &str) -> Case {
    let paint = Paint::new(screen.as_bytes(), SAMPLE_TEXT);
    Paint { table: Some(("t.txt", table.as_ref())), to: To::Old, ..paint }.case(&format!("table: {name}"))
}

/// The sum of the sample font.
fn sample_sum() -> u32 {
    sum(SAMPLE_TEXT)
}

/// Tables by hand that are good.
fn by_hand() -> Vec<Case> {
    let one = |name: &str, table: &str| with_table(name, table, "character A red\n");
    let sum = sample_sum();
    let many: String = (0..256).map(|name| format!("cell {} n{name}\n", name % 62)).collect();
    let all: String =
        (0..62).rev().map(|cell| format!("cell {cell:02} {}{cell}\n", if cell == 11 { "A" } else { "c" })).collect();
    let longest = "\u{3A9}".repeat(32);
    vec![
        one("one name", "cell 11 A\n"),
        one("no last line end", "cell 11 A"),
        one("CR LF", "cell 11 A\r\ncell 12 B\r\n"),
        one("blanks", " \tcell\t11  A \t\n"),
        one("comments", "; words\n# words\n\ncell 11 A;words\ncell 12 B#words\n \t\n;\n"),
        one("odd bytes in a comment", "cell 11 A ; \0\u{1b}\u{200b}\n"),
        one("leading zeros", "cell 0000000000000000000000011 A\n"),
        one("cell 0 and cell 61", "cell 61 B\ncell 0 A\n"),
        one("names in any order", "cell 12 B\ncell 11 A\ncell 0 C\n"),
        one("a cell with many names", "cell 11 B\ncell 11 A\ncell 11 C\n"),
        one("names that mean something elsewhere", "cell 11 A\ncell 1 cell\ncell 2 font\ncell 3 red\ncell 4 -1\n"),
        one("the sum first", &format!("font {sum:08X}\ncell 11 A\n")),
        one("the sum last", &format!("cell 11 A\nfont {sum:08X}")),
        one("the sum in small letters", &format!("font {sum:08x} ; words\ncell 11 A\n")),
        with_table("a name that is a colour", "cell 11 red\n", "character red red\n"),
        with_table("a name that is blink", "cell 11 blink\n", "character blink red blink\n"),
        with_table("a name with a sign", "cell 11 -1\ncell 12 +\n", "character -1 red\ncharacter + blue\n"),
        with_table("a name like an option", "cell 11 --off\n", "character --off red\n"),
        with_table("small letters", "cell 11 A\ncell 12 a\n", "character A red\ncharacter a red\n"),
        with_table("the longest name", format!("cell 11 {longest}\n"), &format!("character {longest} red\n")),
        with_table("256 names", &many, "character n255 red\ncharacter n0 red\ncharacter n61 red\n"),
        with_table("256 names and comments", format!("{many};\n\n"), "character n9 red\n"),
        with_table("every cell", &all, "character c0 red\ncharacter c61 red\ncharacter A11 red\n"),
        with_table(
            "a letter by two",
            "cell 11 e\u{301}\ncell 12 \u{E9}\n",
            "character \u{E9} red\ncharacter e\u{301} red\n",
        ),
    ]
}

/// Tables with faults: the line is told, the screen is not looked at, and nothing is touched.
fn faults() -> Vec<Case> {
    let sum = sample_sum();
    let mut cases = Vec::new();
    for line in [
        "cell 62 B",
        "cell 99 B",
        "cell 4294967296 B",
        "cell 99999999999999999999 B",
        "cell 0x10 B",
        "cell -1 B",
        "cell +1 B",
        "cell 1x B",
        "cell x B",
        "cell",
        "cell 1",
        "cell B",
        "cell B 1",
        "cell 1 B C",
        "cell 1 B blink",
        "cell 1 ;B",
        "Cell 1 B",
        "cells 1 B",
        "cell1 B",
        "glyph B",
        "character 1 red",
        "B 1",
        "1 B",
        "............",
        ":00000001FF",
        "cell 1 7",
        "cell 1 7up",
        "cell 1 \u{1}",
        "cell 1 a\u{200b}",
        "cell 1 \u{a0}",
        "cell 1 \u{feff}",
        "cell 1 B\0",
        "cell 62 7",
        "cell 1 A",
        "cell 11 A",
        "cell 2 \u{391}",
        "font",
        "font 1",
        "font 1234567",
        "font 123456789",
        "font 0x123456",
        "font 1234567G",
        "font -1234567",
        "font 12345678 9",
        "font A B",
        "Font 12345678",
        "x",
        "\0",
        "\u{1b}[31m",
        "\u{e9}",
    ] {
        let table = format!("; words\ncell 11 A\ncell 12 \u{391}\n\n{line}\ncell 13 C\n");
        cases.push(with_table(&format!("a fault, {}", line.escape_default()), &table, "character A red\n"));
        cases.push(with_table(&format!("a fault, {}, and a bad screen", line.escape_default()), &table, "stop\n"));
    }
    let many: String = (0..257).map(|name| format!("cell {} n{name}\n", name % 62)).collect();
    let long = format!("cell 1 {}\n", "x".repeat(65));
    let endless = format!("cell 1 A\n{}\n", "x".repeat(70_000));
    let bytes: [(&str, &[u8]); 13] = [
        ("empty", b""),
        ("an empty line", b"\n"),
        ("comments only", b"; words\n# words"),
        ("blanks only", b" \t\r\n"),
        ("257 names", many.as_bytes()),
        ("a name of 65 bytes", long.as_bytes()),
        ("a very long word", endless.as_bytes()),
        ("not UTF-8", b"cell 1 \xE9\n"),
        ("a text of a font", SAMPLE_TEXT),
        ("drawings of glyphs", SAMPLE_GLYPHS),
        ("a screen", SAMPLE_MENU),
        ("binary", &[0xFF; 3000]),
        ("NULs", &[0; 3000]),
    ];
    cases.extend(bytes.iter().map(|(name, table)| with_table(&format!("a fault, {name}"), table, "character A red\n")));
    let sums = [
        ("a sum only", format!("font {sum:08X}\n")),
        ("a sum twice", format!("font {sum:08X}\ncell 1 A\nfont {sum:08X}\n")),
        ("another sum", "cell 1 A\nfont 00000000\n".to_string()),
        ("a sum with a digit changed", format!("font {:08X}\ncell 1 A\n", sum ^ 0x10)),
        ("a sum turned round", format!("font {:08X}\ncell 1 A\n", sum.swap_bytes())),
        ("another sum, and a bad line", "font 00000000\ncell 62 A\n".to_string()),
        ("a right sum, and a bad line", format!("font {sum:08X}\ncell 62 A\n")),
    ];
    cases.extend(sums.iter().map(|(name, table)| with_table(&format!("a fault, {name}"), table, "character A red\n")));
    for (name, screen) in
        [("a bad screen", "stop\n"), ("a name that is not there", "character B red\n"), ("no word", "")]
    {
        let table = "font 00000000\ncell 1 A\n";
        cases.push(with_table(&format!("a fault, another sum, and {name}"), table, screen));
    }
    let paint = Paint { table: Some(("-", b"cell 1 A\nx\n")), to: To::New, ..Paint::new(b"14\n", SAMPLE_TEXT) };
    cases.push(paint.case("table: a fault in standard input"));
    cases.push(Paint { font: ("f", b":00000001FE"), ..paint.clone() }.case("table: a fault, and a bad font"));
    cases.push(
        Paint { table: Some(("t", b"cell 1 A")), font: ("f", b""), ..paint }.case("table: good, with a bad font"),
    );
    cases
}

/// Fonts and tables that belong together, and those that do not.
fn fonts() -> Vec<Case> {
    let (_, packed) = sample();
    let mut records: Vec<&str> = packed.text.lines().collect();
    let end = records.pop().unwrap_or_default();
    records.reverse();
    let backwards = records.join("\n") + "\n" + end;
    let small = packed.text.to_lowercase();
    let changed = packed.text.replacen(records[511], &String::from_utf8_lossy(&record(0, 0, &[0; 16])), 1);
    // Bytes that are not given count as FF, and the sum is of the font that this makes.
    let spare = packed.text.replacen(&format!("{}\n", records[0]), "", 1);
    let lit = packed.text.replacen(&format!("{}\n", records[511]), "", 1);
    let lit_sum = text::read("", lit.as_bytes()).map_or(0, |good| sum_of_font(&good.font));
    let of_lit =
        packed.table.replacen(packed.table.lines().nth(1).unwrap_or_default(), &format!("font {lit_sum:08X}"), 1);
    let without = packed.table.lines().filter(|line| !line.starts_with("font")).collect::<Vec<&str>>().join("\n");
    let with = |name: &str, font: &[u8], table: &str| {
        let paint = Paint::new(b"character A red\ncharacter \xCE\x91 red\n", font);
        Paint { table: Some(("t.txt", table.as_bytes())), to: To::Old, ..paint }.case(&format!("sum: {name}"))
    };
    vec![
        with("the font's own", packed.text.as_bytes(), &packed.table),
        with("CR LF in the font", &with_cr_lf(packed.text.as_bytes()), &packed.table),
        with("CR LF in the table", packed.text.as_bytes(), &packed.table.replace('\n', "\r\n")),
        with("records backwards", backwards.as_bytes(), &packed.table),
        with("small digits", small.as_bytes(), &packed.table),
        with("spare bytes that are not given", spare.as_bytes(), &packed.table),
        with("bytes that are not given", lit.as_bytes(), &packed.table),
        with("bytes that are not given, and their sum", lit.as_bytes(), &of_lit),
        with("one row changed", changed.as_bytes(), &packed.table),
        with("one row changed, and no sum", changed.as_bytes(), &without),
        with("another font", SAMPLE_TEXT, &packed.table),
        with("another font, and no sum", SAMPLE_TEXT, &without),
        with("an end record alone", END_RECORD, &packed.table),
        with(
            "the sum of the file and not of the font",
            small.as_bytes(),
            &packed.table.replacen(
                &format!("{:08X}", sum(packed.text.as_bytes())),
                &format!("{:08X}", sum(small.as_bytes())),
                1,
            ),
        ),
    ]
}

/// Names that are not there.
fn missing() -> Vec<Case> {
    let (drawn, packed) = sample();
    let with = |name: &str, line: &str| {
        let text = format!("; words\ncharacter A red\n{line}\n");
        let paint = Paint {
            table: Some(("t.txt", packed.table.as_bytes())),
            to: To::Old,
            ..Paint::new(b"", packed.text.as_bytes())
        };
        Paint { screen: ("screen", text.as_bytes()), drawn: Some(&drawn), ..paint }.case(&format!("named: {name}"))
    };
    let mut cases = Vec::new();
    // The message tells the nearest.
    for (name, near) in [
        ("bar-ful", "bar-full"),
        ("bar-fulll", "bar-full"),
        ("bar-fill", "bar-full"),
        ("bar_half", "bar-half"),
        ("Bar-full", "bar-full"),
        ("speeker", "speaker"),
        ("a", "A"),
        ("sound-wave", "sound-waves"),
    ] {
        cases.push(naming(with(&format!("near {near}, {name}"), &format!("character {name} red")), near));
    }
    for line in [
        "character qqqqqqqq red",
        "character \u{411} red",
        "character -1 red",
        "character 62 red",
        "character 0x3E red",
        "character 1A red",
        "character 0x red",
        "character 5digit red",
        "character digit-5",
        "character digit-5 purple",
        "character A red blinks",
        "character A red blink blink",
        "character A A red",
        "A",
        "A red",
        "character",
        "character A",
        "space A",
        "return A 0",
        "character \u{1b}[31m red",
        "character a\u{200b} red",
        "character \u{e9} red",
        "character A\0 red",
        "Character A red",
        "character 'A' red",
        "character U+03A9 red",
        "character \u{3a9}\u{3a9} red",
    ] {
        cases.push(with(&format!("not so, {}", line.escape_default()), line));
    }
    for name in ["A", "\u{3A9}", "bar-full", "-", "\u{1b}[2J", "a\u{200b}b", "\u{a0}"] {
        let text = format!("character {name} red\n");
        let paint = Paint { to: To::Old, ..Paint::new(text.as_bytes(), SAMPLE_TEXT) };
        cases.push(naming(paint.case(&format!("named: without a table, {}", name.escape_default())), "--table"));
    }
    let long = with("a long name", &format!("character {} red", "x".repeat(60_000)));
    let odd = Paint {
        screen: ("s", b"character \xE9 red\n"),
        table: Some(("t", b"cell 1 A")),
        ..Paint::new(b"", SAMPLE_TEXT)
    };
    cases.extend([long, odd.case("named: not UTF-8")]);
    cases
}

fn trouble() -> Vec<Case> {
    let none = Line::exactly("none: cannot be read: No such file or directory");
    let there = |name: &str, words: &str| {
        case(name, words).file("s", "14\n").file("f.hex", SAMPLE_TEXT).file("out", "old").status(2)
    };
    vec![
        there("a table that is not there", "paint s --font f.hex --table none -o out").says(none),
        there("a table that is a folder", "paint s --font f.hex --table folder -o out")
            .thing("folder", Thing::Folder)
            .says(Line::exactly("folder: cannot be read: Is a directory")),
        there("a table without a name", "paint s --font f.hex --table= -o out").said(Said::IfNotDone),
        case("a table that is empty", "paint s --font f.hex --table /dev/null")
            .file("s", "14\n")
            .file("f.hex", SAMPLE_TEXT)
            .status(1)
            .says(Line::new("/dev/null: ", "")),
    ]
}

pub fn all() -> Vec<Case> {
    [screens(), by_hand(), faults(), fonts(), missing(), trouble()].concat()
}

#[cfg(test)]
mod tests {
    use super::*;
    use crate::cli::case::Out;

    #[test]
    fn names_and_cells_come_to_the_same() {
        let cases = screens();
        let out = |name: &str| match &cases.iter().find(|case| case.name == format!("named: {name}")).unwrap().out {
            Out::Exactly(bytes) => bytes.clone(),
            _ => Vec::new(),
        };
        assert!(out("the menu").len() > 5000);
        assert_eq!(out("the menu"), out("the menu by cells"));
        assert_eq!(out("the menu"), out("the menu without its table"));
    }

    #[test]
    fn sums_agree_where_they_should() {
        let status = |name: &str| fonts().iter().find(|case| case.name == format!("sum: {name}")).unwrap().status;
        for good in ["the font's own", "records backwards", "small digits", "spare bytes that are not given"] {
            assert_eq!(status(good), Some(0), "{good}");
        }
        for good in
            ["bytes that are not given, and their sum", "one row changed, and no sum", "another font, and no sum"]
        {
            assert_eq!(status(good), Some(0), "{good}");
        }
        for bad in
            ["bytes that are not given", "one row changed", "another font", "the sum of the file and not of the font"]
        {
            assert_eq!(status(bad), Some(1), "{bad}");
        }
    }
}
