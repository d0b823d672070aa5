//! `pack`: drawings of glyphs in all their forms, names by every rule, what is refused, and where text and table go.

use super::{drawn, naming, numbered, typed, with_cr_lf, SAMPLE_GLYPHS, SAMPLE_TEXT};
use crate::cli::case::{case, Case, Line, Said};
use crate::cli::expect::{pack, To, TABLE};
use crate::cli::folder::Thing;

const EMPTY: &str = "............";
const LIT: &str = "############";
const ROUTES: [(&str, To); 4] =
    [("nowhere", To::Nowhere), ("to -", To::Dash), ("to a new file", To::New), ("over a file", To::Old)];

/// Text and table to files that are there.
fn made(name: &str, drawings: impl AsRef<[u8]>) -> Case {
    pack(&format!("pack: {name}"), "g.txt", drawings.as_ref(), To::Old, To::Old)
}

/// Every way that text and table can go; some are wrong usage.
fn routes() -> Vec<Case> {
    let mut cases = Vec::new();
    let three = numbered([5, 9, 5]);
    for (text, to) in ROUTES {
        for (table, table_to) in ROUTES {
            let name = |what: &str| format!("pack: {what}, text {text}, table {table}");
            cases.push(pack(&name("glyphs"), "g.txt", three.as_bytes(), to, table_to));
            cases.push(pack(&name("glyphs of standard input"), "-", three.as_bytes(), to, table_to));
            cases.push(pack(&name("a fault"), "g.txt", b"glyph A\nx\n", to, table_to));
            cases.push(pack(&name("63 glyphs"), "g.txt", numbered(0..63).as_bytes(), to, table_to));
        }
    }
    let sample = |name: &str, to, table_to| pack(name, "g.txt", SAMPLE_GLYPHS, to, table_to);
    let both = || sample("", To::New, To::New);
    let orders = [
        ("the options first", "pack -o out --table table.out g.txt"),
        ("the table first", "pack --table table.out g.txt -o out"),
        ("with an equals sign", "pack g.txt --table=table.out -o out"),
        ("after the options", "pack --table=table.out -o out -- g.txt"),
    ];
    cases.extend(orders.map(|(name, words)| Case { name: format!("pack: {name}"), ..typed(both(), words) }));
    cases.push(sample("pack: the sample", To::Nowhere, To::Nowhere));
    cases.push(sample("pack: the sample to two files", To::Old, To::New));
    cases.push(sample("pack: the sample's table", To::New, To::Nowhere));
    cases
}

/// The forms of a drawing.
fn forms() -> Vec<Case> {
    let two = drawn("A", "#..........#") + &drawn("B", EMPTY);
    let among = two.replace('\n', "\n\n; words\n \t\n;\n");
    let odd = b"glyph A ; \xE9\0\x1B\xFF\n".to_vec();
    vec![
        made("CR LF", with_cr_lf(SAMPLE_GLYPHS)),
        made("no last line end", two.trim_end()),
        made("CR LF and no last line end", with_cr_lf(two.trim_end().as_bytes())),
        made("comments and empty lines among rows", &among),
        made("comments first and last", format!("; words\n;\n\n{two}\n;words\n")),
        made("blanks at the ends of lines", two.replace('\n', " \t\n")),
        made("blanks around a name", drawn("\t A\t ", LIT)),
        made("a comment after a name", drawn("A ; the first", LIT)),
        made("a comment with #", drawn("A\t#the first", LIT)),
        made("a comment of nothing", drawn("A ;", LIT)),
        made("a comment in a comment", drawn("A ; one ; two # three", LIT)),
        made("odd bytes in a comment", [odd, two.as_bytes()[8..].to_vec()].concat()),
    ]
}

/// How many glyphs there are, how many of them are different, and in which order.
fn numbers() -> Vec<Case> {
    let row = |row: usize| {
        format!(
            "glyph at-{row}\n{}{LIT}\n{}",
            [EMPTY, "\n"].concat().repeat(row),
            [EMPTY, "\n"].concat().repeat(17 - row)
        )
    };
    let rows: String = (0..18).map(row).collect();
    let columns: String = (0..12)
        .map(|column| drawn(&format!("at-{column}"), &format!("{}#{}", &EMPTY[..column], &EMPTY[column + 1..])))
        .collect();
    let again = |numbers: &[usize]| numbered(numbers.iter().copied());
    let mut cases = vec![
        made("one empty glyph", drawn("blank", EMPTY)),
        made("one lit glyph", drawn("block", LIT)),
        made("an empty glyph has a cell of its own", again(&[0, 5, 0, 7])),
        made("an empty glyph last", again(&[5, 7, 0])),
        made("cells by first appearance", again(&[30, 10, 30, 20, 10, 40, 20])),
        made("falling numbers", numbered((0..62).rev())),
        made("a row of its own for each", rows),
        made("a column of its own for each", columns),
        made("62 and one again at the end", numbered((0..62).chain([0]))),
        made("62 and one again at the front", numbered([61].into_iter().chain(0..62))),
        made("256 glyphs in neighbours", numbered((0..256).map(|glyph| (glyph / 4).min(61)))),
    ];
    for glyphs in [1, 2, 61, 62, 63, 255, 256] {
        cases.push(made(&format!("{glyphs} glyphs, all alike"), numbered(vec![9; glyphs])));
        cases
            .push(made(&format!("{glyphs} glyphs, 62 different"), numbered((0..glyphs).map(|glyph| 7 * (glyph % 62)))));
    }
    cases
}

/// Names that may be.
fn good_names() -> Vec<Case> {
    let longest = "x".repeat(64);
    let letters = "\u{3A9}".repeat(32);
    let fours = "\u{1D11E}".repeat(16);
    let names: Vec<&str> = vec![
        "A",
        "a",
        "x0",
        "-1",
        "+1",
        "-",
        "--table",
        "cell",
        "glyph",
        "font",
        "blink",
        "red",
        "end",
        "x",
        "a.b",
        "a=b",
        "'",
        "\"",
        "\\x01",
        "\\",
        "%s%n",
        "$HOME",
        "*",
        "~",
        "!",
        "(U+03A9)",
        "'A'",
        "a:1:",
        "<stdin>",
        "refused",
        // Letters of other alphabets, and digits that are not 0 to 9.
        "\u{C4}",
        "\u{3A9}",
        "\u{391}",
        "\u{410}",
        "\u{5D0}",
        "\u{661}",
        "\u{B2}",
        "\u{4E2D}",
        "\u{1D11E}",
        "\u{2713}",
        "\u{FF11}",
        // One letter by two, and a mark alone.
        "e\u{301}",
        "\u{E9}",
        "\u{301}",
        // The neighbours of those that do not show.
        "\u{A1}",
        "\u{AC}",
        "\u{AE}",
        "\u{1FFF}",
        "\u{2010}",
        "\u{2027}",
        "\u{2030}",
        "\u{205E}",
        "\u{2070}",
        "\u{2FFF}",
        "\u{3001}",
        "\u{FEFE}",
        "\u{FF00}",
        "\u{D7FF}",
        "\u{E000}",
        "\u{FFFF}",
        "\u{10000}",
        "\u{10FFFF}",
        "\u{7FF}",
        "\u{800}",
        "~\u{A1}",
        &longest,
        &letters,
        &fours,
    ];
    let all: String = names.iter().map(|name| drawn(name, EMPTY)).collect();
    let shared: String = names.iter().rev().map(|name| drawn(name, LIT)).collect();
    let mut cases = vec![made("every sort of name", all), made("every sort of name, backwards", shared)];
    for (at, name) in names.iter().enumerate() {
        let text = drawn(name, LIT) + &drawn("second", LIT) + &drawn("third", EMPTY);
        cases.push(made(&format!("the name {at}, {}", name.escape_default()), text));
        // The message about a name that stands twice shows it as it is.
        let twice = drawn("first", LIT) + &drawn(name, LIT) + &drawn(name, EMPTY);
        cases.push(made(&format!("the name {at} twice, {}", name.escape_default()), twice));
    }
    cases
}

/// Names that break a rule, or are not there.
fn bad_names() -> Vec<Case> {
    let good = drawn("A", EMPTY);
    let with = |what: String, name: &[u8]| {
        let rows = [EMPTY, "\n"].concat().repeat(18);
        made(&format!("no name: {what}"), [good.as_bytes(), b"\nglyph ", name, b"\n", rows.as_bytes()].concat())
    };
    let mut cases: Vec<Case> = (0..10).map(|digit| with(format!("{digit}"), format!("{digit}").as_bytes())).collect();
    let letters = [
        "7up",
        "0",
        "007",
        "0x10",
        "a;",
        ";a",
        "a;b",
        "a#",
        "#",
        "#a",
        ";",
        "; words",
        "# words",
        "a b",
        "a b ; words",
        "a ;words\u{1}; b",
        "\u{1}",
        "a\u{1}",
        "\u{1F}b",
        "a\u{8}b",
        "a\rb",
        "\r",
        "\u{7F}",
        "a\u{7F}",
        "\u{80}",
        "\u{9B}31m",
        "\u{9F}",
        "\u{A0}",
        "a\u{A0}b",
        "\u{AD}",
        "\u{2000}",
        "\u{200B}",
        "a\u{200D}b",
        "\u{200E}",
        "\u{200F}",
        "\u{2028}",
        "\u{202E}A",
        "\u{202F}",
        "\u{205F}",
        "\u{2060}",
        "\u{2066}",
        "\u{206F}",
        "\u{3000}",
        "\u{FEFF}",
        "a\u{FEFF}",
        "7;\u{1}",
        "\0",
        "a\0b",
        "",
    ];
    cases.extend(letters.iter().map(|name| with(format!("{:?}", name), name.as_bytes())));
    let bytes: [&[u8]; 12] = [
        b"\xE9",
        b"a\xE9b",
        b"\xC3",
        b"\xA9",
        b"\xC0\x80",
        b"\xC1\xBF",
        b"\xE0\x80\x80",
        b"\xED\xA0\x80",
        b"\xF0\x80\x80\x80",
        b"\xF4\x90\x80\x80",
        b"\xFF",
        b"A\xCE",
    ];
    cases.extend(bytes.iter().map(|name| with(format!("{name:02X?}"), name)));
    for length in [65, 66, 300, 70_000] {
        cases.push(with(format!("{length} bytes"), "x".repeat(length).as_bytes()));
    }
    cases.push(with("33 letters of two bytes".to_string(), "\u{3A9}".repeat(33).as_bytes()));
    let digit = made("no name: what to write for a digit", "glyph 7\n");
    cases.push(naming(digit, "digit-7"));
    let small = drawn("A", LIT) + &drawn("a", EMPTY);
    cases.push(made("capitals and small letters are different", small));
    cases
}

/// Drawings with faults: the line is told, and nothing is touched.
fn faults() -> Vec<Case> {
    let row = "............\n";
    let good = drawn("A", EMPTY);
    let with = |head: &str, lines: &[&str]| format!("{head}{}", lines.concat()).into_bytes();
    let drawings: Vec<(&str, Vec<u8>)> = vec![
        ("nothing", b"".to_vec()),
        ("an empty line", b"\n".to_vec()),
        ("comments only", b"; one\n\n; two".to_vec()),
        ("no heading", row.into()),
        ("a heading misspelt", "glyphs A\n".into()),
        ("a heading in capitals", "Glyph A\n".into()),
        ("a heading after a blank", format!(" {good}").into()),
        ("a heading after a tab", format!("\t{good}").into()),
        ("a heading without a blank", "glyphA\n".into()),
        ("a heading alone", "glyph".into()),
        ("a comment after a blank", " ; words\n".into()),
        ("a cell's heading", with("cell 00 A\n", &[row])),
        ("a short row", with("; one\n\nglyph A\n", &[row, "...........\n"])),
        ("a long row", with("glyph A\n", &[row, row, ".............\n"])),
        ("a very long row", with("glyph A\n", &[row, &".".repeat(100_000), "\n"])),
        ("a wrong dot", with("glyph A\n", &[row, "....x.......\n"])),
        ("a blank in front of a row", with("glyph A\n", &[row, " ...........\n"])),
        ("something after a row", with("glyph A\n", &[row, "............ ; words\n"])),
        ("a byte above 127 in a row", b"glyph A\n...\xE9........\n".to_vec()),
        ("a letter outside ASCII in a row", "glyph A\n...\u{3A9}.......\n".into()),
        ("a NUL in a row", b"glyph A\n...\0........\n".to_vec()),
        ("a CR in a row", b"glyph A\n...\r........\n".to_vec()),
        ("a CR at the end", b"glyph A\n............\r".to_vec()),
        ("a row too many", with(&good, &["\n", row])),
        ("a heading too early", with("glyph A\n", &[row, "glyph B\n"])),
        ("a heading at once", with("glyph A\n\n", &["glyph B\n"])),
        ("a heading after 17 rows", with("glyph A\n", &[&row.repeat(17), "glyph B\n"])),
        ("a cell's heading after a glyph", with(&good, &["cell 00\n"])),
        ("it stops after a heading", with(&good, &["glyph B\n"])),
        ("it stops after 17 rows", with("glyph A\n", &[&row.repeat(17)])),
        ("it stops with other lines", with("glyph A\n", &[row, "\n; words\n\n"])),
        ("it stops in a row", with("glyph A\n", &[row, "....."])),
        ("a name twice", with(&good, &[&drawn("B", LIT), "\n", &drawn("A", LIT)])),
        ("a name twice, the same dots", with(&good, &[&good])),
        ("a name twice, with a comment", with(&drawn("A ; one", EMPTY), &[&drawn("A # two", LIT)])),
        ("a name three times", with(&good, &[&good, &good])),
        ("two names twice", with(&good, &[&drawn("B", LIT), &drawn("B", LIT), &good])),
        ("a letter of another alphabet twice", with(&drawn("\u{391}", LIT), &[&good, &drawn("\u{391}", LIT)])),
        ("a text of a font", SAMPLE_TEXT.to_vec()),
        ("an image", vec![0xFF; 8192]),
        ("NULs", vec![0; 700]),
        ("a picture", b"P6\n1 1\n255\n\x80\x80\x80".to_vec()),
        ("a bad line after 256 glyphs", with(&numbered(vec![5; 260]), &["x\n"])),
        ("a bad row after 63 different glyphs", with(&numbered(0..63), &["glyph more\n", "x\n"])),
        ("a bad name after 256 glyphs", with(&numbered(vec![5; 256]), &[&drawn("7", LIT)])),
        ("a name twice among 300 glyphs", with(&good, &[&good, &numbered(vec![5; 300])])),
        ("a name twice after 63 different glyphs", with(&numbered(0..63), &[&drawn("g5", LIT)])),
    ];
    let mut cases: Vec<Case> =
        drawings.iter().map(|(name, drawing)| made(&format!("a fault: {name}"), drawing)).collect();
    cases.push(pack("pack: a fault in standard input", "-", b"glyph A\nx\n", To::New, To::New));
    cases
}

/// Too many glyphs, and too many that are different.
fn refused() -> Vec<Case> {
    let with_comments = |numbers: Vec<usize>| numbered(numbers).replace("glyph ", "\n; words\nglyph ");
    // Of an even number of lit dots, so that any two differ in two dots at least.
    let even = |count: usize| (0..4096).filter(|number: &usize| number.count_ones() % 2 == 0).take(count);
    let one_wrong: Vec<usize> = even(62).chain([even(30).last().unwrap_or(0) ^ 1]).collect();
    let mut cases = vec![
        made("refused: one wrong dot", numbered(one_wrong.clone())),
        made(
            "refused: one wrong dot, drawn often",
            numbered(one_wrong.iter().chain(&one_wrong).chain(&one_wrong).copied()),
        ),
        made("refused: one wrong dot, first", numbered(one_wrong.iter().rev().copied())),
        made("refused: one wrong dot, with comments", with_comments(one_wrong)),
        made("refused: the last of 256 finds no cell", numbered((0..255).map(|glyph| glyph % 62).chain([62]))),
        made("refused: 63 in the first 63 of 256", numbered((0..256).map(|glyph| glyph % 63))),
        made("refused: 256 different", numbered(0..256)),
        made("refused: 257 and all different", numbered(0..257)),
        made("refused: 257 with comments", with_comments(vec![5; 257])),
        made("refused: 1000", numbered((0..1000).map(|glyph| glyph % 62))),
        made("refused: an empty glyph is one of 63", numbered((1..63).chain([0]))),
    ];
    for glyphs in [257, 258, 300, 513] {
        cases.push(made(&format!("refused: {glyphs} alike"), numbered(vec![9; glyphs])));
    }
    for different in [63, 64, 100] {
        cases.push(made(&format!("refused: {different} different"), numbered(0..different)));
    }
    let outside: String = (0..63)
        .map(|at| {
            drawn(
                &char::from_u32(0x391 + at).unwrap_or('?').to_string(),
                &format!("{at:012b}").replace('0', ".").replace('1', "#"),
            )
        })
        .collect();
    cases.push(made("refused: letters of another alphabet", outside));
    cases.push(pack("refused: from standard input", "-", numbered(0..63).as_bytes(), To::Nowhere, To::Nowhere));
    cases
}

fn trouble() -> Vec<Case> {
    let none = Line::exactly("none: cannot be read: No such file or directory");
    let old = |case: Case| case.file("out", "old").file(TABLE, "old");
    let full = |words: &str| {
        let case = case(&format!("full: {words}"), words).full().status(2).said(Said::IfNotDone);
        old(case.file("g.txt", SAMPLE_GLYPHS))
    };
    vec![
        old(case("pack a file that is not there", "pack none -o out --table table.out").status(2).says(none)),
        old(case("pack a folder", "pack folder -o out --table table.out").thing("folder", Thing::Folder))
            .status(2)
            .says(Line::exactly("folder: cannot be read: Is a directory")),
        case("pack nothing", "pack /dev/null").status(1).says(Line::new("/dev/null: ", "")),
        full("pack g.txt"),
        full("pack g.txt -o -"),
        full("pack g.txt -o out"),
        full("pack g.txt -o out --table -"),
        full("pack g.txt --table table.out"),
        full("pack g.txt -o - --table table.out"),
        full("pack g.txt -o new --table -"),
    ]
}

pub fn all() -> Vec<Case> {
    let packed = [routes(), forms(), numbers(), good_names()].concat();
    [packed, bad_names(), faults(), refused(), trouble()].concat()
}
