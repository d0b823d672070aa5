//! Mistakes planted in a stand-in for the program, a few lines of shell: each must be reported.

use super::case::Line;
use super::case::{case, Case, Said};
use super::expect::{check, font, pack, play, pulse, whole_font, Paint, To, OUTPUT, TABLE};
use super::folder::{Folder, Thing};
use super::glyphs::{drawings, sum, Packed};
use super::program::Program;
use super::table::{SAMPLE_DRAWING, SAMPLE_TEXT};
use super::{run, Group, Plan};
use crate::parts::Settings;
use std::path::PathBuf;
use std::time::Duration;

const SAMPLE: &str = concat!(env!("CARGO_MANIFEST_DIR"), "/../samples/font.hex");

/// A folder that no other test has.
fn place(name: &str) -> PathBuf {
    std::env::temp_dir().join(format!("dirgeflint-planted-{}-{name}", std::process::id()))
}

/// The shell with a script; `sh -c` takes the word after it as its name.
fn stub(script: &str) -> Program {
    let script = script.replace("SAMPLE", SAMPLE);
    Program { words: ["sh", "-c", &script, "stub"].map(Into::into).to_vec(), limit: Duration::from_millis(2500) }
}

fn judged(name: &str, case: &Case, script: &str) -> Result<(), String> {
    case.judge(&stub(script), &Folder::new(place(name)).unwrap())
}

/// The right script passes, and each wrong one is reported with these words.
fn finds(name: &str, case: &Case, right: &str, wrong: &[(&str, &str)]) {
    assert_eq!(judged(name, case, right), Ok(()));
    for (script, words) in wrong {
        let report = judged(name, case, script).expect_err(script);
        assert!(report.contains(words), "{script}\n{report}");
    }
}

#[test]
fn what_is_printed_is_looked_at() {
    let low = ".".repeat(62);
    let right = format!("echo 'channel 4 byte 194: high for 2 of 64 clocks'; echo '##{low}'");
    finds(
        "printed",
        &pulse(4, 194, "4 194"),
        &right,
        &[
            (&right.replace("##.", "#.."), "differs at byte 45, in line 2"),
            (&format!("{right}; echo"), "standard output differs"),
            (&right.replace("echo '##", "printf '%s' '##"), "standard output differs"),
            ("exit 0", "(0 bytes, and 109 are due)"),
            (&format!("{right}; exit 1"), "status 1, and 0 is due"),
            (&format!("{right}; echo words >&2"), "standard error is not what is due:\n  nothing"),
            (&format!("{right}; kill -SEGV $$"), "ended by signal 11"),
            ("exec sleep 30", "did not end in time"),
        ],
    );
}

#[test]
fn what_is_said_of_a_refusal_is_looked_at() {
    let case = check("a bad sum", false, &[("a.hex", Some(b":0000000000\n:00000001FE\n"))]);
    let right = "echo 'a.hex:2: record 2: FE, not FF (refused 8 at 12)' >&2; exit 1";
    finds(
        "said",
        &case,
        right,
        &[
            (&right.replace("exit 1", "exit 0"), "status 0, and 1 is due"),
            (&right.replace(":2:", ":1:"), "standard error is not what is due"),
            (&right.replace("record 2", "record 1"), "standard error is not what is due"),
            (&right.replace("8 at", "9 at"), "standard error is not what is due"),
            (&right.replace("at 12", "at 11"), "standard error is not what is due"),
            ("exit 1", "standard error is not what is due"),
            (&right.replace(" >&2", ""), "standard output differs"),
            (&right.replace("not FF", "not FF'\"$(printf '\\033')\"'"), "a byte that is not printable"),
            (&right.replace("not FF", "not FFF"), "standard error is not what is due"),
            (&right.replace("FE, ", ""), "standard error is not what is due"),
            (&right.replace("not FF", &format!("not FF {}", "x".repeat(700))), "has a line of 7"),
            (&format!("echo more >&2; {right}"), "standard error is not what is due"),
        ],
    );
}

/// A stand-in that says these lines and ends with 1. What is no plain text is given by its number.
fn says(lines: &[&str]) -> String {
    let quoted = |line: &&str| format!("'{}'", line.replace('\\', "\\\\").replace('%', "%%").replace('\'', "'\\''"));
    let all: Vec<String> = lines.iter().map(|line| format!("printf {}'\\n' >&2", quoted(line))).collect();
    format!("{}; exit 1", all.join("; "))
}

/// The lines of a right message, with one of them exchanged or left out.
fn other(right: &[&str], at: usize, line: Option<&str>) -> String {
    let mut lines = right.to_vec();
    match line {
        Some(line) => lines[at] = line,
        None => drop(lines.remove(at)),
    }
    says(&lines)
}

const NOT_DUE: &str = "standard error is not what is due";

#[test]
fn a_shown_line_and_its_mark_are_looked_at() {
    // A control character before the bad one, and a blank at the end; the line is the second of three.
    let text = b":0000000000\r\n:00\x1B00 001FF \r\n:00000001FF\r\n";
    let case = check("a character", false, &[("a.hex", Some(text))]);
    let message = r"a.hex:2: record 2: column 4: '\x1B' is no hexadecimal digit (refused 19 at 16)";
    let right = [message, "    :00?00 001FF ", "       ^"];
    let with = |at: usize, line: &str| (other(&right, at, Some(line)), NOT_DUE);
    let wrong = [
        // The message: the column from 0, of another character, in the text; the place in the line, of the line.
        with(0, &message.replace("column 4", "column 3")),
        with(0, &message.replace("column 4", "column 7")),
        with(0, &message.replace("column 4", "column 17")),
        with(0, &message.replace("at 16", "at 3")),
        with(0, &message.replace("at 16", "at 13")),
        with(0, &message.replace("at 16", "at 17")),
        with(0, &message.replace("refused 19", "refused 20")),
        with(0, &message.replace("refused 19", "refused 7")),
        with(0, &message.replace(r"'\x1B'", "' '")),
        with(0, &message.replace(r"'\x1B'", r"'\x1b'")),
        with(0, &message.replace(":2: record 2", ":1: record 1")),
        with(0, &message.replace("digit ", "digit: a control character ")),
        // The line: another one, not its start, its end or its CR; one character for none, or for two.
        with(1, "    :0000000000"),
        with(1, "    :00000001FF"),
        with(1, "    :00?00 001FF"),
        with(1, "    :00?00 001FF ?"),
        with(1, "    :00?00 001FF ..."),
        with(1, "    00?00 001FF "),
        with(1, "    :0000 001FF "),
        with(1, r"    :00\x1B00 001FF "),
        with(1, "    :00.00 001FF "),
        with(1, "    :00 00 001FF "),
        with(1, "    :00?00?001FF?"),
        with(1, "    :00?00 001ff "),
        // Behind as many blanks as are due.
        with(1, ":00?00 001FF "),
        with(1, "   :00?00 001FF "),
        with(1, "     :00?00 001FF "),
        with(1, "        :00?00 001FF "),
        with(1, ""),
        // The mark: a column off, under the line's start or another bad character, not alone, with more behind it.
        with(2, "      ^"),
        with(2, "        ^"),
        with(2, "   ^"),
        with(2, "    ^"),
        with(2, "          ^"),
        with(2, "       ^      ^"),
        with(2, "       ^~~~~~"),
        with(2, "       ^ "),
        with(2, "       ^ here"),
        with(2, "       |"),
        with(2, "    ---^"),
        with(2, ""),
        // Something is missing, in another order, said twice, or there is more.
        (other(&right, 0, None), NOT_DUE),
        (other(&right, 1, None), NOT_DUE),
        (other(&right, 2, None), NOT_DUE),
        (says(&right[..1]), NOT_DUE),
        (says(&[right[0], right[2], right[1]]), NOT_DUE),
        (says(&[right[1], right[2], right[0]]), NOT_DUE),
        (says(&[right, right].concat()), NOT_DUE),
        (says(&[&right[..], &[""]].concat()), NOT_DUE),
        (says(&[&right[..], &["a.hex: words"]].concat()), NOT_DUE),
        // What a terminal obeys, and what is not ASCII; and all of it must be on standard error.
        (says(&right).replace(":00?00", ":00\\03300"), NOT_DUE),
        (says(&right).replace("?00 001FF ", "?00 001FF \\r"), NOT_DUE),
        (says(&right).replace(":00?00", ":00\\302\\26700"), NOT_DUE),
        (says(&right).replace("       ^", "\\t   ^"), NOT_DUE),
        (says(&right).replacen(" >&2; printf '    :", "; printf '    :", 1), NOT_DUE),
        (says(&right).replace(" >&2", ""), "standard output differs"),
        (says(&right).replace("^''\\n'", "^'"), "does not end with a line's end"),
        (says(&right).replace("exit 1", "exit 0"), "status 0, and 1 is due"),
    ];
    let wrong: Vec<(&str, &str)> = wrong.iter().map(|(script, words)| (&script[..], *words)).collect();
    finds("character", &case, &says(&right), &wrong);
}

#[test]
fn what_is_shown_of_a_long_line_is_looked_at() {
    let digits: String = (0..200).map(|at| char::from(b"0123456789ABCDEF"[at % 16])).collect();
    let text = format!(":{}x{}\n", &digits[..99], &digits[100..]);
    let case = check("a long line", false, &[("a.hex", Some(text.as_bytes()))]);
    let message = "a.hex:1: record 1: column 101: 'x' is no hexadecimal digit (refused 19 at 100)";
    let mark = |before: usize| format!("    {}^", " ".repeat(before));
    let part = |from: usize, to: usize| text[from..to].to_string();
    let shown = |from: usize| format!("    ...{}...", part(from + 3, from + 69));
    let right = [message, &shown(64), &mark(36)];
    let said = |line: &str, mark: &str| (says(&[message, line, mark]), NOT_DUE);
    let wrong = [
        // From another byte on, the mark with it or not.
        said(&shown(63), &mark(37)),
        said(&shown(65), &mark(35)),
        said(&shown(65), &mark(36)),
        said(&shown(64), &mark(35)),
        said(&shown(64), &mark(100)),
        said(&shown(64), &mark(33)),
        said(&shown(64), &mark(39)),
        // The whole line, its first bytes, its last, the bytes from the character on.
        said(&format!("    {}", text.trim_end()), &mark(100)),
        said(&format!("    {}...", part(0, 69)), &mark(36)),
        said(&format!("    ...{}", part(132, 201)), &mark(36)),
        said(&format!("    {}...", part(100, 169)), &mark(0)),
        // Not told that something is left out, told on one side only, beside the part, with other marks.
        said(&format!("    {}", part(64, 136)), &mark(36)),
        said(&format!("    ...{}", part(67, 136)), &mark(36)),
        said(&format!("    {}...", part(64, 133)), &mark(36)),
        said(&format!("    ...{}...", part(64, 136)), &mark(39)),
        said(&format!("    ..{}..", part(66, 134)), &mark(36)),
        said(&format!("    ....{}....", part(68, 132)), &mark(36)),
        said(&format!("    ???{}???", part(67, 133)), &mark(36)),
        // A byte more or less.
        said(&format!("    ...{}...", part(67, 134)), &mark(36)),
        said(&format!("    ...{}...", part(67, 132)), &mark(36)),
    ];
    let wrong: Vec<(&str, &str)> = wrong.iter().map(|(script, words)| (&script[..], *words)).collect();
    finds("long-line", &case, &says(&right), &wrong);
}

#[test]
fn at_the_ends_of_a_long_line_nothing_is_left_out_there() {
    let cases = [
        // 73 bytes, the bad one in the middle and one later; and the last byte of a longer line.
        (73, 36, 0, 36),
        (73, 37, 1, 36),
        (200, 199, 128, 71),
        (200, 163, 127, 36),
        (200, 164, 128, 36),
    ];
    for (length, place, from, before) in cases {
        let mut text = ":".to_string() + &"0123456789".repeat(20);
        text.truncate(length);
        text.replace_range(place..place + 1, "x");
        let case = check("a long line", false, &[("a.hex", Some(text.as_bytes()))]);
        let shown = |from: usize| {
            let mut shown = text[from..from + 72].to_string();
            shown.replace_range(..if from > 0 { 3 } else { 0 }, if from > 0 { "..." } else { "" });
            if from + 72 < length {
                shown.replace_range(69.., "...");
            }
            format!("    {shown}")
        };
        let column = place + 1;
        let message =
            format!("a.hex:1: record 1: column {column}: 'x' is no hexadecimal digit (refused 19 at {place})");
        let mark = |before: usize| format!("    {}^", " ".repeat(before));
        let other = if from + 72 < length { from + 1 } else { from - 1 };
        finds(
            "end-of-line",
            &case,
            &says(&[&message, &shown(from), &mark(before)]),
            &[
                (&says(&[&message, &shown(other), &mark(before + from - other)]), NOT_DUE),
                (&says(&[&message, &shown(from), &mark(before + 1)]), NOT_DUE),
                (&says(&[&message, &format!("    {}", &text[from..from + 72]), &mark(before)]), NOT_DUE),
            ],
        );
    }
}

#[test]
fn a_line_is_shown_only_where_it_is_due() {
    let line = ["    :", "    ^"];
    // A bad shape has none, nor a text that is something else.
    for (text, message) in [
        (&b":\n"[..], "a.hex:1: record 1: no byte follows the colon (refused 20 at 0)"),
        (b"\n:0G\n", "a.hex:1: record 1: the line is empty: remove it (refused 20 at 0)"),
        (b":000", "a.hex:1: record 1: an odd number of digits, 3: each byte has two (refused 20 at 0)"),
        (b":0000", "a.hex:1: record 1: length 00 asks for 5 bytes, and the line has 2 (refused 20 at 0)"),
        (b":00000001FE", "a.hex:1: record 1: FE, not FF (refused 8 at 0)"),
        (b"\xEF\xBB\xBF:00000001FF", "a.hex:1: record 1: a byte order mark (refused 19 at 0)"),
        (&[0; 8192], "a.hex:1: record 1: an image (refused 19 at 0)"),
        (&[b'x'; 65_536], "a.hex: too long (refused 7 at 0)"),
    ] {
        let case = check("no line", false, &[("a.hex", Some(text))]);
        let number = message.rsplit("refused ").next().unwrap_or_default();
        finds(
            "no-line",
            &case,
            &says(&[message]),
            &[
                (&says(&[&[message], &line[..]].concat()), NOT_DUE),
                (&says(&[&message.replace(number, "7 at 1)")]), NOT_DUE),
                (&says(&[&message.replace(" at 0)", " at 1)")]), NOT_DUE),
            ],
        );
    }
    // A first byte that is no colon has one, whatever it is.
    let case = check("no colon", false, &[("a.hex", Some(b":0000000000\nABC\n"))]);
    let right = ["a.hex:2: record 2: column 1: 'A' stands where a colon is due (refused 19 at 12)", "    ABC", "    ^"];
    finds(
        "no-colon",
        &case,
        &says(&right),
        &[
            (&says(&right[..1]), NOT_DUE),
            (&other(&right, 0, Some(&right[0].replace("colon", "mark"))), NOT_DUE),
            (&other(&right, 0, Some(&right[0].replace("19 at", "20 at"))), NOT_DUE),
            (&other(&right, 1, Some("    :0000000000")), NOT_DUE),
            (&other(&right, 2, Some("     ^")), NOT_DUE),
        ],
    );
}

#[test]
fn a_shown_line_stays_with_its_message() {
    // Where a warning may be said too, it comes before the three lines or after them.
    let wide = format!("return 4 0\n{}", "space red\n".repeat(22));
    let paint = Paint { screen: ("s", wide.as_bytes()), font: ("f", b":0O\n"), ..Paint::new(b"", b"") };
    let right = ["f:1: record 1: column 3: 'O' is no hexadecimal digit (refused 19 at 2)", "    :0O", "      ^"];
    let warning = "s: warning: the cells reach 1056 dots by 90 lines; at most 1024 by 1024 are painted";
    let case = paint.case("a bad font");
    let before = says(&[&[warning], &right[..]].concat());
    let after = says(&[&right[..], &[warning]].concat());
    assert_eq!(judged("stays", &case, &before), Ok(()));
    assert_eq!(judged("stays", &case, &after), Ok(()));
    finds(
        "stays",
        &case,
        &says(&right),
        &[
            (&says(&[right[0], warning, right[1], right[2]]), NOT_DUE),
            (&says(&[right[0], right[1], warning, right[2]]), NOT_DUE),
            (&says(&[right[0], warning]), NOT_DUE),
            (&says(&[&right[..], &right[1..]].concat()), NOT_DUE),
            (&other(&right, 2, Some("     ^")), NOT_DUE),
        ],
    );
    // Of two files each has its own.
    let texts: [(&str, Option<&[u8]>); 2] = [("a", Some(b":G")), ("b", Some(b":0H"))];
    let of = |file: &str, at: usize, letter: char| {
        format!("{file}:1: record 1: column {}: '{letter}' is no hexadecimal digit (refused 19 at {at})", at + 1)
    };
    let (first, second) = (of("a", 1, 'G'), of("b", 2, 'H'));
    let right = [&first, "    :G", "     ^", &second, "    :0H", "      ^"];
    finds(
        "of-two",
        &check("two files", false, &texts),
        &says(&right),
        &[
            (&says(&[right[0], right[3], right[1], right[2], right[4], right[5]]), NOT_DUE),
            (&says(&[right[0], right[4], right[5], right[3], right[1], right[2]]), NOT_DUE),
            (&says(&[right[3], right[4], right[5], right[0], right[1], right[2]]), NOT_DUE),
            (&other(&right, 4, Some("    :G")), NOT_DUE),
        ],
    );
}

#[test]
fn what_a_reason_names_is_looked_at() {
    let case = check("no end", false, &[("a.hex", Some(b""))]);
    let right = "echo 'a.hex:1: end with :00000001FF (refused 12 at 0)' >&2; exit 1";
    finds("named", &case, right, &[(&right.replace(":00000001FF", ""), "..:00000001FF..")]);
}

#[test]
fn an_output_that_is_written_is_looked_at() {
    let right = "cat SAMPLE >out";
    finds(
        "written",
        &font("the sample", "d.txt", SAMPLE_DRAWING, To::Old),
        right,
        &[
            ("exit 0", "out differs"),
            ("head -c 22539 SAMPLE >out", "out differs at byte 22539"),
            ("tr 0 1 <SAMPLE >out", "out differs at byte"),
            (&format!("{right}; chmod 600 out"), "out has 600 permissions, and 640 are due"),
            (&format!("{right}; cp out out.tmp"), "out.tmp is left in the folder"),
            (&format!("{right}; rm d.txt"), "d.txt is missing"),
            (&format!("{right}; echo >>d.txt"), "d.txt differs"),
            (&format!("{right}; cat out"), "standard output differs"),
        ],
    );
    let new = font("the sample", "d.txt", SAMPLE_DRAWING, To::New);
    finds("new", &new, right, &[("(umask 077; cat SAMPLE >out)", "out has 600 permissions, and the usual are due")]);
}

/// Three glyphs, of which two are alike.
fn three_glyphs() -> (String, Packed) {
    let glyph = |name: &str, row: &str| format!("glyph {name}\n{}", format!("{row}\n").repeat(18));
    let text = glyph("A", "#...........") + &glyph("\u{3A9}", "############") + &glyph("\u{391}", "#...........");
    let packed = drawings(text.as_bytes()).unwrap().packed().unwrap();
    (text, packed)
}

/// A stand-in that writes a text and a table to the files of `pack`, or prints them.
fn writes(text: &str, table: &str) -> String {
    format!("printf '{}' >{OUTPUT}; printf '{}' >{TABLE}", text.replace('\n', "\\n"), table.replace('\n', "\\n"))
}

#[test]
fn what_is_packed_is_looked_at() {
    let (drawn, Packed { text, table }) = three_glyphs();
    let right = writes(&text, &table);
    let sum_of = |of: &[u8]| format!("font {:08X}\n", sum(of));
    let own = sum_of(text.as_bytes());
    assert!(table.contains(&own));
    // Glyphs that share told apart: the second of them in a cell of its own, and its rows there.
    let apart = drawings(drawn.replace("\u{391}\n#..", "\u{391}\n.#.").as_bytes()).unwrap().packed().unwrap();
    let with_sum_of = |table: &str, text: &str| table.replace(&own, &sum_of(text.as_bytes()));
    let off_by_one = table.replace("cell 01", "cell 02");
    let wrong = [
        (writes(&text, &off_by_one), "table.out differs at byte"),
        (writes(&text, &table.replace("cell 00", "cell -1").replace("cell 01", "cell 00")), "table.out differs"),
        (writes(&apart.text, &apart.table), "out differs at byte"),
        (writes(&apart.text, &apart.table), "table.out differs at byte"),
        (writes(&apart.text, &table), "out differs at byte"),
        (writes(&text, &with_sum_of(&table, &drawn)), "table.out differs at byte"),
        (writes(&text, &with_sum_of(&table, text.trim_end())), "table.out differs at byte"),
        (writes(&text, &table.replace(&own, &own.to_lowercase())), "table.out differs at byte"),
        (writes(&text, &table.replace(&own, "")), "table.out differs at byte"),
        (writes(&text, &table.replace(", as A", "")), "table.out differs at byte"),
        (writes(&text, &table.replace("U+0391", "U+0041")), "table.out differs at byte"),
        (writes(&text, &table.replace("; U+03A9", "")), "table.out differs at byte"),
        (writes(&text, &table.replace("3 glyphs in 2", "3 glyphs in 3")), "table.out differs at byte"),
        (writes(&text, table.trim_end()), "table.out differs at byte"),
        (writes(&table, &text), "out differs at byte 0"),
        (format!("{right}; rm {TABLE}"), "table.out is missing"),
        (format!("{right}; chmod 600 {TABLE}"), "table.out has 600 permissions, and 640 are due"),
        (format!("{right}; cat {TABLE}"), "standard output differs"),
        (format!("{right}; cat {TABLE} >&2"), "standard error is not what is due"),
    ];
    let wrong: Vec<(&str, &str)> = wrong.iter().map(|(script, words)| (&script[..], *words)).collect();
    finds("packed", &pack("three glyphs", "g.txt", drawn.as_bytes(), To::Old, To::Old), &right, &wrong);

    // Where the text is printed the table is said, and letters outside ASCII are no fault there; another byte is.
    let printed = |text: &str, table: &str| {
        writes(text, table).replace(&format!(" >{OUTPUT}"), "").replace(&format!(">{TABLE}"), ">&2")
    };
    finds(
        "packed-and-printed",
        &pack("three glyphs, printed", "g.txt", drawn.as_bytes(), To::Nowhere, To::Nowhere),
        &printed(&text, &table),
        &[
            (&printed(&text, &off_by_one), "standard error differs at byte"),
            (&printed(&apart.text, &table), "standard output differs at byte"),
            (&printed(&table, &text), "standard output differs at byte 0"),
            (&printed(&text, &table.replace('\u{3A9}', "\\xCE\\xA9")), "standard error differs at byte"),
        ],
    );
}

#[test]
fn what_pack_refuses_is_looked_at() {
    let (drawn, Packed { text, table }) = three_glyphs();
    // A name that stands twice is not taken.
    let twice = drawn.replace('\u{391}', "\u{3A9}");
    let right = "echo \"g.txt:39: glyph '\u{3A9}' (U+03A9) is drawn already, at line 20\" >&2; exit 1";
    let taken = writes(&text, &table.replace('\u{391}', "\u{3A9}"));
    finds(
        "twice",
        &pack("a name twice", "g.txt", twice.as_bytes(), To::Old, To::Old),
        right,
        &[
            (&taken, "status 0, and 1 is due"),
            (&format!("{taken}; {right}"), "table.out differs"),
            (&right.replace("line 20", "line 2"), "standard error is not what is due"),
            (&right.replace(" (U+03A9)", ""), "standard error is not what is due"),
            (&right.replace('\u{3A9}', "\\\\xCE\\\\xA9"), "standard error is not what is due"),
            (&right.replace(":39:", ":38:"), "standard error is not what is due"),
        ],
    );
    // 63 glyphs; any two differ in two dots at least, but for the last and the first.
    let number = |at: usize| (0..4096).filter(|number: &usize| number.count_ones() % 2 == 0).nth(at).unwrap();
    let row = |number: usize| format!("{number:012b}").replace('0', ".").replace('1', "#");
    let glyph = |(at, number)| format!("glyph g{at}\n{}", format!("{}\n", row(number)).repeat(18));
    let many: String = (0..63).map(number).enumerate().map(glyph).collect();
    let nearly =
        many.replacen(&format!("glyph g62\n{}", row(number(62))), &format!("glyph g62\n{}", row(number(62) ^ 1)), 1);
    let near =
        nearly.replacen(&format!("{}\n", row(number(62))).repeat(17), &format!("{}\n", row(number(0))).repeat(17), 1);
    let right =
        "echo \"g.txt:1179: glyph 'g62' finds no cell: 63 are different, leave out 1: 'g0' at line 1 and 'g62' at \
                 line 1179 (refused 17 at 0)\" >&2; exit 1";
    finds(
        "refused-17",
        &pack("63 glyphs", "g.txt", near.as_bytes(), To::Old, To::New),
        right,
        &[
            (&right.replace(" (refused 17 at 0)", ""), "standard error is not what is due"),
            (&right.replace("refused 17", "refused 16"), "standard error is not what is due"),
            (&right.replace("at 0)", "at 62)"), "standard error is not what is due"),
            (&right.replace("63 are", "64 are"), "standard error is not what is due"),
            (&right.replace("leave out 1", "leave some out"), "standard error is not what is due"),
            (&right.replace("'g0' at line 1 ", "'g1' at line 20 "), "standard error is not what is due"),
            (&right.replace("g.txt:1179:", "g.txt:"), "standard error is not what is due"),
            (&format!("{}; {right}", writes(&text, &table)), "out differs at byte 0"),
            (&format!(": >{TABLE}; {right}"), "table.out is left in the folder"),
            (&format!("echo ':00000001FF'; {right}"), "standard output differs"),
            (&right.replace("exit 1", "exit 2"), "status 2, and 1 is due"),
        ],
    );
}

#[test]
fn a_shadow_is_looked_at() {
    // The block lights its whole cell: its shadow is right of it, but for the first line, and makes the picture wider.
    let paint = Paint { words: "--mode 1 --lines 3".to_string(), lines: Some(3), ..Paint::new(b"174\n", SAMPLE_TEXT) };
    let paint = Paint { settings: Settings { mode: 1, ..paint.settings }, ..paint };
    let right = "printf '############%s\\n' ' ' . .";
    finds(
        "shadow",
        &paint.case("shadow"),
        right,
        &[
            (&right.replace('.', "' '"), "standard output differs at byte 26"),
            (&right.replace("' '", "."), "standard output differs at byte 12"),
            (&right.replace('.', ":"), "standard output differs at byte 26"),
            (&right.replace(" . .", " . ' '"), "standard output differs at byte 40"),
            (&right.replace("%s", "%s%s"), "standard output differs at byte 13"),
            (&right.replace("' ' . .", "'' '' ''"), "standard output differs at byte 12"),
        ],
    );
    let dark = Paint { screen: ("s", b"175\n"), frame: 12, words: format!("{} --frame 12", paint.words), ..paint };
    let right = "printf '%13s\\n' '' '' ''";
    let wrong = [("printf '%12s\\n' '' '' ''", "standard output differs"), ("printf '%13s\\n' '' . .", "byte 26")];
    finds("dark-shadow", &dark.case("dark shadow"), right, &wrong);
}

#[test]
fn what_a_table_says_is_looked_at() {
    let (drawn, Packed { text, table }) = three_glyphs();
    let drawn = drawings(drawn.as_bytes()).unwrap();
    let screen = "character \u{391} white\ncharacter \u{3A9} red\n";
    let paint = Paint { table: Some(("t", table.as_bytes())), drawn: Some(&drawn), ..Paint::new(b"", text.as_bytes()) };
    let paint = Paint { screen: ("s", screen.as_bytes()), ..paint };
    let right = "for row in 1 2 3 4 5 6 7 8 9 10 11 12 13 14 15 16 17 18; do echo '#...........************'; done";
    finds(
        "named-glyphs",
        &paint.case("names"),
        right,
        &[
            (&right.replace("#.", ".#"), "standard output differs at byte 0"),
            (&right.replace('*', "."), "standard output differs at byte 12"),
            (&right.replace(" 18", ""), "standard output differs"),
        ],
    );
    // A name that is not there, a table of another font, and a bad line before a bad screen.
    let missing = Paint { screen: ("s", b"character B red\n"), to: To::Old, ..paint.clone() };
    let right = "echo \"s:1: 'B' is no glyph of the table\" >&2; exit 1";
    let wrong =
        [(&*right.replace("'B'", "'A'"), "standard error is not what is due"), ("echo >out", "status 0, and 1")];
    finds("no-glyph", &missing.case("no glyph"), right, &wrong);
    let other = Paint { font: ("f", SAMPLE_TEXT), ..missing.clone() };
    let (one, two) = (sum(text.as_bytes()), sum(SAMPLE_TEXT));
    let strange = format!("echo 't:2: of another font: {one:08X}, and not {two:08X}' >&2");
    let right = format!("{strange}; echo \"s:1: 'B' is no glyph of the table\" >&2; exit 1");
    let wrong = [
        (right.replace("t:2:", "t:1:"), "standard error is not what is due"),
        (right.replace(&format!("{two:08X}"), "00000000"), "standard error is not what is due"),
        (right.replace("another font", "another"), "standard error is not what is due"),
        (format!("echo 's:2: B' >&2; {right}"), "standard error is not what is due"),
        (format!("{strange}; exit 1"), "standard error is not what is due"),
        (right.replace(&strange, ":"), "standard error is not what is due"),
    ];
    let wrong: Vec<(&str, &str)> = wrong.iter().map(|(script, words)| (&script[..], *words)).collect();
    finds("another-font", &other.case("another font"), &right, &wrong);
    let bad = Paint { table: Some(("t", b"cell 1 A\ncell 1 A\n")), screen: ("s", b"stop\n"), ..missing };
    let right = "echo \"t:2: 'A' is named already, at line 1\" >&2; exit 1";
    let wrong =
        [("echo 's:1: stop' >&2; exit 1", "standard error is not what is due"), ("echo >out", "status 0, and 1")];
    finds("bad-table", &bad.case("bad table"), right, &wrong);
}

#[test]
fn letters_that_do_not_show_are_seen() {
    let said = |words: &str| case("free", words).status(2).said(Said::IfNotDone);
    let letter = "printf '\\316\\251\\n' >&2; exit 2";
    let wrong = "a byte that is not printable";
    let scripts = [
        "printf '\\342\\200\\256\\n' >&2; exit 2",
        "printf '\\302\\233\\n' >&2; exit 2",
        "printf '\\357\\273\\277\\n' >&2; exit 2",
        "printf '\\351\\n' >&2; exit 2",
        "printf 'a\\tb\\n' >&2; exit 2",
    ];
    for command in ["pack", "paint"] {
        finds("letters", &said(command), letter, &scripts.map(|script| (script, wrong)));
    }
    // The other commands show no name of a glyph.
    finds("no-letters", &said("play"), "echo x >&2; exit 2", &[(letter, wrong)]);
}

#[test]
fn a_link_stays_a_link() {
    let link = Thing::Link { to: "old".to_string() };
    let case = case("link", "font d.txt -o link").file("d.txt", SAMPLE_DRAWING).file("old", "").thing("link", link);
    let case = case.writes("old", SAMPLE_TEXT);
    let wrong = "cat SAMPLE >new; mv new link";
    finds("link", &case, "cat SAMPLE >link", &[(wrong, "link is no longer what it was"), (wrong, "old differs")]);
}

#[test]
fn an_input_is_no_output() {
    let name = Thing::Name { of: "e".to_string() };
    let made = case("name", "play e -o name").file("e", "play 1\n").thing("name", name).status(2);
    let message = "dirgeflint: -o name is also an input: name another file; try: dirgeflint help play";
    let right = format!("echo '{message}' >&2; exit 2");
    finds(
        "input-and-output",
        &made.says(Line::exactly(message)),
        &right,
        &[
            ("echo 'period 1'; echo '#1' >name", "status 0, and 2 is due"),
            ("echo '#1' >name", "e differs at byte 0"),
            ("echo '#1' >new; mv new name", "name differs at byte 0"),
            (&format!("rm name; {right}"), "name is missing"),
            (&format!("echo >>e; {right}"), "name differs at byte 7"),
            (&right.replace("-o name", "-o e"), "standard error is not what is due"),
            (&right.replace("exit 2", "exit 1"), "status 1, and 2 is due"),
        ],
    );
}

#[test]
fn names_are_looked_at() {
    let name = "a\u{e9}\x1B";
    let right = "printf 'a\\303\\251\\\\x1B: cells 62 bytes 8192\\n'";
    finds(
        "names",
        &check("a name", false, &[(name, Some(SAMPLE_TEXT))]),
        right,
        &[
            (&right.replace("\\\\x1B", "\\033"), "standard output differs at byte 3"),
            (&right.replace("x1B", "x1b"), "standard output differs at byte 6"),
            (&right.replace("\\303\\251", "\\\\xC3\\\\xA9"), "standard output differs at byte 1"),
        ],
    );
    let gone = "printf 'a\\303\\251\\\\x1B: cannot be read: No such file or directory\\n' >&2; exit 2";
    finds(
        "names-said",
        &check("a name that is not there", false, &[(name, None)]),
        gone,
        &[
            (&gone.replace("\\\\x1B", "\\033"), "standard error is not what is due"),
            (&gone.replace("\\303\\251", "\\\\xC3\\\\xA9"), "standard error is not what is due"),
        ],
    );
    // Where the wording is free, a control character is still seen.
    let free = case("free", "play").word(name).status(2).said(Said::IfNotDone);
    let wrong = "printf 'a\\033\\n' >&2; exit 2";
    finds("names-free", &free, "echo 'a\u{e9}' >&2; exit 2", &[(wrong, "a byte that is not printable")]);
}

#[test]
fn warnings_are_looked_at() {
    let text = format!("return 4 0\n{}", "space red\n".repeat(22));
    let paint =
        Paint { to: To::New, width: Some(1024), words: "--width 1024".to_string(), ..Paint::new(b"", SAMPLE_TEXT) };
    let fits = Paint { screen: ("s", text.as_bytes()), lines: Some(1), ..paint.clone() };
    let fits = Paint { words: "--width 1024 --lines 1".to_string(), ..fits };
    let cut = Paint { width: None, words: "--lines 1".to_string(), ..fits.clone() };
    let picture = "{ printf 'P6\\n1024 1\\n255\\n'; head -c 3072 /dev/zero | tr '\\0' '\\200'; } >out";
    let warning = "s: warning: the cells reach 1056 dots by 90 lines; at most 1024 by 1024 are painted";
    let right = format!("{picture}; echo '{warning}' >&2");
    finds("fits", &fits.case("fits"), picture, &[(&right, "standard error is not what is due:\n  nothing")]);
    finds(
        "cut",
        &cut.case("cut"),
        &right,
        &[
            (picture, "standard error is not what is due"),
            (&right.replace("1056", "1024"), "standard error is not what is due"),
            (&right.replace("90", "18"), "standard error is not what is due"),
            (&format!("{right}; exit 1"), "status 1, and 0 is due"),
        ],
    );
    // With a font that is not whole there may be a line about that, before or after; no other.
    let partial = Paint { font: ("f", b":00000001FF"), ..cut };
    let font = "echo 'f: warning: 8192 of 8192 bytes are not given; they count as FF, which is lit dots in a row: \
                first at address 0000 (cell 0 row 0)' >&2";
    finds(
        "cut-and-partial",
        &partial.case("partial"),
        &right,
        &[
            (&format!("{picture}; {font}"), "standard error is not what is due"),
            (&format!("{right}; {font}; {font}"), "standard error is not what is due"),
            (&format!("{right}; echo words >&2"), "standard error is not what is due"),
        ],
    );
    assert_eq!(judged("cut-and-partial", &partial.case("partial"), &format!("{right}; {font}")), Ok(()));
    assert_eq!(judged("cut-and-partial", &partial.case("partial"), &format!("{font}; {right}")), Ok(()));
}

#[test]
fn what_is_not_there_is_looked_at() {
    let right = "echo 'd.txt: 61 cells are not drawn: 0 to 4, 6 to 61' >&2; exit 1";
    let drawing = "cell 5\n".to_string() + &"............\n".repeat(18);
    finds(
        "whole",
        &whole_font("one cell", "d.txt", drawing.as_bytes(), To::New),
        right,
        &[
            (&right.replace("61 cells", "warning: 61 cells"), "standard error is not what is due"),
            (&right.replace("drawn", "drawn and are empty"), "standard error is not what is due"),
            (&format!("cat SAMPLE >out; {right}"), "out is left in the folder"),
            (&right.replace("exit 1", "exit 0"), "status 0, and 1 is due"),
        ],
    );
    let right = "echo 'period 1: coarse 0 fine 0 T 0 high 0 in 1 clock'";
    let wrong = [(&*right.replace("clock", "clocks"), "standard output differs")];
    finds("clock", &play("one clock", "e", b"play 1", To::Nowhere), right, &wrong);
    let right = "echo 'e: warning: no clock is played' >&2";
    let wrong = [("exit 0", "standard error is not what is due"), (&*format!("{right}; exit 1"), "status 1, and 0")];
    finds("no-clock", &play("no clock", "e", b"play 0", To::Nowhere), right, &wrong);
}

#[test]
fn an_output_is_not_touched_by_a_refusal() {
    let case = play("refused", "e.txt", b"play 1\nplay 16385\n", To::Old);
    let right = "echo 'e.txt:2: too many (refused 14 at 0)' >&2; exit 1";
    finds(
        "touched",
        &case,
        right,
        &[
            (&format!(": >out; {right}"), "out differs at byte 0"),
            (&format!("rm out; {right}"), "out is missing"),
            (&format!(": >.out.tmp; {right}"), ".out.tmp is left in the folder"),
            (&format!("echo 'period 1'; {right}"), "standard output differs"),
        ],
    );
}

#[test]
fn rules_hold_where_no_answer_is_known() {
    let case = case("any", "font d.txt -o out").file("d.txt", "").file("out", "old").any_status().out_if_done();
    let case = case.said(Said::IfNotDone).writes_if_done("out", |bytes| bytes.len() == 22_540);
    let refusal = "echo words >&2; exit 2";
    finds(
        "rules",
        &case,
        refusal,
        &[
            ("exit 1", "standard error is empty, and it failed"),
            ("exit 0", "out is not complete"),
            ("head -c 99 SAMPLE >out", "out is not complete"),
            ("echo words >&2; exit 3", "status 3, and only 0, 1 and 2 are possible"),
            (&format!("cat SAMPLE >out; {refusal}"), "out differs"),
            (&format!("echo; {refusal}"), "standard output differs"),
            ("kill -ABRT $$", "ended by signal 6"),
        ],
    );
    assert_eq!(judged("rules", &case, "cat SAMPLE >out"), Ok(()));
}

#[test]
fn standard_input_and_a_full_disk_are_what_they_should_be() {
    let echo = case("echo", "").input([b'x'; 200_000]).out([b'x'; 200_000]);
    finds("input", &echo, "cat", &[("head -c 1000", "standard output differs")]);
    let file = case("file", "").file("e", "words").input_file("e").out("words");
    let wrong = [("cat; echo >e", "e differs at byte 0"), ("cat >new; cat new; rm new e", "e is missing")];
    finds("input-file", &file, "[ /dev/stdin -ef e ] && cat", &wrong);
    let full = case("full", "").full().status(2).said(Said::IfNotDone);
    finds(
        "full",
        &full,
        "echo words || { echo full >&2; exit 2; }",
        &[("echo words; exit 0", "status 0, and 2 is due")],
    );
}

#[test]
fn the_first_difference_ends_the_run_and_its_files_are_kept() {
    let make = |index: u64, _: &mut _| case(&format!("number {index}"), "").file("n", index.to_string()).input("given");
    let group = Group { name: "numbers", what: "numbers", cases: 40, all: true, make: &make };
    let root = place("first");
    let plan = Plan { seed: 1, from: 3, count: None, workers: 2, root: &root };
    let wrong = run(&group, &stub("[ $(cat n) -lt 17 ]"), &plan, &|_| {}).unwrap_err();
    assert_eq!(wrong.index, 17);
    assert!(
        wrong.report.starts_with("number 17\ndirgeflint  <stdin.given\nstatus 1, and 0 is due"),
        "{}",
        wrong.report
    );
    assert_eq!(std::fs::read(wrong.kept.join("n")).unwrap(), b"17");
    assert_eq!(std::fs::read(wrong.kept.join("stdin.given")).unwrap(), b"given");
    assert_eq!(run(&group, &stub("exit 0"), &plan, &|_| {}).unwrap(), 37);
    std::fs::remove_dir_all(&root).unwrap();
}
