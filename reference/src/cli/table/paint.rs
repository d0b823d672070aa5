//! `paint`: the screen's language, every setting, what is refused, and where the picture goes.

use super::{END_RECORD, SAMPLE_SHADOW, SAMPLE_TEXT};
use crate::cli::case::{case, Case, Line, Said};
use crate::cli::expect::{Paint, To};
use crate::cli::screen::COLOURS;
use crate::parts::Settings;

/// Two rows, three sizes of cell, a background, and something that blinks.
const SCREEN: &[u8] = b"\
; a screen
character 12 white
character 13 yellow blink   # blinks
space blue
character 14 red

return 2 4
character 1 cyan
space green
character 2 magenta blink
return 1 12
character 3 black
end
character 4 white
";

fn paint() -> Paint<'static> {
    Paint::new(SCREEN, SAMPLE_TEXT)
}

fn screen(name: &str, text: &[u8]) -> Case {
    Paint::new(text, SAMPLE_TEXT).case(&format!("screen: {name}"))
}

fn language() -> Vec<Case> {
    let colours: String = COLOURS.iter().map(|name| format!("character 57 {name}\nspace {name}\n")).collect();
    let numbers: String = (0..8).map(|number| format!("character 57 {number}\nspace 0x{number}\n")).collect();
    let sizes: String = (1..5).map(|size| format!("return {size} {}\n14\n", 4 * (size - 1))).collect();
    vec![
        screen("as a maker would have it", SCREEN),
        screen("empty", b""),
        screen("comments only", b"; nothing\n\n  \t\n# nothing\n"),
        screen("an end", b"end\n"),
        screen("words after an end", b"14\nend\n14\n14\n"),
        screen("colours by name", colours.as_bytes()),
        screen("colours by number", numbers.as_bytes()),
        screen("every size and spacing", sizes.as_bytes()),
        screen("words as they are", b"14\n0x1e\n1016\n997\n0\n0x3FF\n"),
        screen(
            "leading zeros",
            b"014\n0000000000000000000014\n0x000000000000000e\ncharacter 001 007\nreturn 02 04\n0\n",
        ),
        screen("many leading zeros", format!("{0}14\n0x{0}e\ncharacter {0}5 {0}3\n", "0".repeat(300)).as_bytes()),
        screen("CR LF", b"character 1 red\r\nend\r\n"),
        screen("no last line end", b"character 1 red\nspace blue"),
        screen("blanks", b"  character\t1   red\tblink \t\n\t\tspace  blue  \n"),
        screen("comments against words", b"character 1 red;comment\nspace blue#comment\n14;;##\n"),
        screen("NUL and other bytes in a comment", b"14 ; \0\xFF\x1B\r\n14\n"),
        screen("64 words", "character 1 red\n".repeat(64).as_bytes()),
        screen("64 words and comments", ("end\n".repeat(64) + "\n; more\n\n").as_bytes()),
        screen("rows past the last line", ("return 4 12\n".repeat(40) + "14\n").as_bytes()),
        screen("a row cut by the last line", ("return 4 12\n".repeat(12) + "14\n").as_bytes()),
    ]
}

fn faults() -> Vec<Case> {
    let mut cases: Vec<Case> = [
        "character 62 red",
        "character -1 red",
        "character 0 8",
        "character 0 Red",
        "character 0 purple",
        "character 0",
        "character",
        "character 0 red blinks",
        "character 0 red blink blink",
        "character zero red",
        "space",
        "space 8",
        "space red blink",
        "return",
        "return 1",
        "return 0 0",
        "return 5 0",
        "return 1 2",
        "return 1 16",
        "return 1 0 0",
        "end 1",
        "1024",
        "0x400",
        "4294967296",
        "99999999999999999999999999",
        "0x",
        "0X10",
        "-1",
        "+1",
        "1 2",
        "return 1 04 4",
        "End",
        "caracter 1 red",
        "14\0",
        "\u{1b}[31m",
        "\u{e9}",
    ]
    .iter()
    .map(|line| {
        let text = format!("character 1 red\n\n; words\n{line}\nend\n");
        let paint = Paint { to: To::Old, ..Paint::new(text.as_bytes(), SAMPLE_TEXT) };
        paint.case(&format!("screen: {}", line.escape_default()))
    })
    .collect();
    let long = format!("14\n{}\n", "x".repeat(50_000));
    let full = "end\n".repeat(64) + "\n\n14\n";
    cases.push(screen("a very long word", long.as_bytes()));
    cases.push(screen("65 words", full.as_bytes()));
    cases.push(screen("65 words of one sort", "14\n".repeat(65).as_bytes()));
    let input = Paint { screen: ("-", b"end\nstop\n"), ..paint() };
    cases.push(input.case("screen: a fault in standard input"));
    cases
}

/// A screen with a setting that is taken.
fn set(words: &str, change: impl Fn(&mut Paint)) -> Case {
    let mut paint = Paint { words: words.to_string(), ..paint() };
    change(&mut paint);
    paint.case(&format!("paint {words}"))
}

fn settings() -> Vec<Case> {
    let with = |words: &str, settings: Settings| set(words, |paint| paint.settings = settings);
    let plain = paint().settings;
    let mut cases = vec![
        with("--off", Settings { on: false, ..plain }),
        with("--off --mode 3", Settings { on: false, mode: 3, ..plain }),
        with("--h 63 --v 63", Settings { h: 63, v: 63, ..plain }),
        with("--h 0x3f", Settings { h: 63, ..plain }),
        with("--v 2", Settings { v: 2, ..plain }),
        with("--mode 3 --colour 5 --h 1 --v 1", Settings { mode: 3, colour: 5, h: 1, v: 1, ..plain }),
        set("--width 1", |paint| paint.width = Some(1)),
        set("--width 1024", |paint| paint.width = Some(1024)),
        set("--lines 1", |paint| paint.lines = Some(1)),
        set("--lines 1024", |paint| paint.lines = Some(1024)),
        set("--width 30 --lines 40", |paint| (paint.width, paint.lines) = (Some(30), Some(40))),
        set("--width 0x20", |paint| paint.width = Some(32)),
        set("--frame 4294967295", |paint| paint.frame = u32::MAX),
        set("--frame 12", |paint| paint.frame = 12),
        set("--frame 11", |paint| paint.frame = 11),
    ];
    for mode in 0..4 {
        cases.push(with(&format!("--mode {mode}"), Settings { mode, ..plain }));
        cases.push(with(&format!("--mode {mode} --colour cyan"), Settings { mode, colour: 3, ..plain }));
    }
    for (number, name) in COLOURS.iter().enumerate() {
        let colour = number as u32;
        cases.push(with(&format!("--colour {name}"), Settings { colour, ..plain }));
        cases.push(with(&format!("--colour {number}"), Settings { colour, ..plain }));
    }
    for (ratio, frequency, frame) in
        [(0, 1, 23), (0, 1, 24), (1, 0, 7), (1, 0, 8), (2, 3, 31), (2, 3, 32), (1, 2, 31), (1, 2, 32)]
    {
        cases.push(set(&format!("--ratio {ratio} --frequency {frequency} --frame {frame}"), |paint| {
            paint.settings = Settings { ratio, frequency, ..plain };
            paint.frame = frame;
        }));
    }
    cases
}

fn refused() -> Vec<Case> {
    let with = |words: &str| Paint { words: words.to_string(), to: To::Old, ..paint() };
    let mut cases: Vec<Case> = [
        ("--mode 4", 1),
        ("--mode 4294967295", 1),
        ("--colour 8", 1),
        ("--h 64", 1),
        ("--v 64", 1),
        ("--ratio 4", 1),
        ("--ratio 3", 2),
        ("--frequency 4", 1),
        ("--width 1025", 5),
        ("--width 4294967295", 5),
        ("--lines 1025", 5),
        ("--lines 4294967295", 5),
    ]
    .iter()
    .map(|(words, number)| with(words).refused(&format!("paint {words}"), words, *number))
    .collect();
    cases.push(with("--off --ratio 3").refused("paint refused though off", "--ratio 3", 2));
    cases.push(with("--ratio 3 --h 64").refused("paint: the upper line wins", "--h 64", 1));
    cases.push(with("--width 1025 --ratio 3").refused("paint: the upper line wins over a width", "--ratio 3", 2));
    for words in [
        "--mode x",
        "--mode -1",
        "--mode=",
        "--mode 4294967296",
        "--colour purple",
        "--colour Red",
        "--h 1.5",
        "--v 0x",
        "--ratio +1",
        "--frequency one",
        "--frame -1",
        "--frame 4294967296",
        "--width 0",
        "--width 0x0",
        "--width x",
        "--lines 0",
        "--lines -1",
    ] {
        cases.push(with(words).misused(&format!("paint {words}")));
    }
    cases
}

/// The picture's form, and where it goes.
fn forms() -> Vec<Case> {
    let mut cases = Vec::new();
    for (name, to) in [("", To::Nowhere), (" to -", To::Dash), (" to a new file", To::New), (" over a file", To::Old)] {
        for (form, text) in [("painted", false), ("painted as text", true)] {
            cases.push(Paint { to, text, ..paint() }.case(&format!("{form}{name}")));
        }
    }
    let font = ("-", SAMPLE_TEXT);
    cases.push(Paint { font, to: To::New, ..paint() }.case("the font from standard input"));
    cases.push(Paint { screen: ("-", SCREEN), to: To::Dash, ..paint() }.case("the screen from standard input"));
    cases
}

fn fonts() -> Vec<Case> {
    let with = |text: &'static [u8]| Paint { font: ("font.hex", text), to: To::Old, ..paint() };
    let both = Paint { screen: ("screen", b"stop\n"), ..with(b":00000001FE\n") };
    let none = Line::exactly("none: cannot be read: No such file or directory");
    vec![
        with(END_RECORD).case("paint with a partial font"),
        with(b":00000001FE\n").case("paint with a bad sum"),
        with(b"").case("paint with an empty text"),
        with(b":0100120000ED\n:00000001FF\n").case("paint with an image that is no font's"),
        with(&[b'\n'; 65_536]).case("paint with a text too long"),
        Paint { font: ("-", b":00000001FE"), ..paint() }.case("paint with a bad text from standard input"),
        both.case("paint with a bad font and a bad screen"),
        case("paint a screen that is not there", "paint none --font f.hex -o out")
            .file("f.hex", SAMPLE_TEXT)
            .status(2)
            .says(none.clone()),
        case("paint with a font that is not there", "paint s --font none -o out")
            .file("s", SCREEN)
            .status(2)
            .says(none),
        case("paint with neither there", "paint none --font none").status(2).said(Said::IfNotDone),
    ]
}

/// Screens whose cells reach to the last dot or line and further.
fn reaches() -> Vec<Case> {
    let row = |size: u32, cells: usize| format!("return {size} 0\n{}", "14\n".repeat(cells));
    // 64 + 20 * 48 is 1024, and 4 more are too many; 18 + 18 + 13 * 72 + 52 is 1024 as well.
    let wide = row(4, 20);
    let high = format!("14\n{}{}", row(1, 1), row(4, 1).repeat(13));
    let spaces = wide.replace("14\n", "space red\n");
    let both = format!("{wide}{}", row(4, 1).repeat(14));
    let lowest = format!("14\n{}{}", "return 4 12\n".repeat(16), "14\n".repeat(22));
    let ended = format!("14\nend\n{wide}{}", row(4, 1).repeat(14));
    let returns = "14\n".to_string() + &"return 4 12\n".repeat(63);
    let made = |name: &str, text: &str, words: &str, change: &dyn Fn(&mut Paint)| {
        let mut paint = Paint { words: words.to_string(), ..Paint::new(text.as_bytes(), SAMPLE_TEXT) };
        change(&mut paint);
        paint.case(&format!("reach: {name} {words}"))
    };
    let at = |h, v| move |paint: &mut Paint| paint.settings = Settings { h, v, ..paint.settings };
    let sized = |width, lines| {
        move |paint: &mut Paint| {
            paint.settings = Settings { h: 17, v: 13, ..paint.settings };
            paint.width = width;
            paint.lines = lines;
        }
    };
    let place = "--h 17 --v 13";
    let mut cases = vec![
        made("to the last dot", &wide, "--h 16", &at(16, 0)),
        made("past the last dot", &wide, "--h 17", &at(17, 0)),
        made("spaces past the last dot", &spaces, "--h 17", &at(17, 0)),
        made("far past the last dot", &row(4, 63), "--h 63", &at(63, 0)),
        made("to the last line", &high, "--v 13", &at(0, 13)),
        made("past the last line", &high, "--v 14", &at(0, 14)),
        made("far past the last line", &row(4, 1).repeat(32), "--v 63", &at(0, 63)),
        made("past both", &both, "--h 17", &at(17, 0)),
        made("past both", &both, place, &at(17, 13)),
        made("a row that is not seen", &lowest, "", &at(0, 0)),
        made("a row that is not seen", &lowest, "--h 63", &at(63, 0)),
        made("cells after an end", &ended, "--h 63 --v 63", &at(63, 63)),
        made("returns alone", &returns, "--v 63", &at(0, 63)),
    ];
    for (name, text) in [("wide", &wide), ("both", &both), ("not seen", &lowest)] {
        cases.push(made(name, text, &format!("{place} --width 9"), &sized(Some(9), None)));
        cases.push(made(name, text, &format!("{place} --width 1024"), &sized(Some(1024), None)));
        cases.push(made(name, text, &format!("{place} --lines 9"), &sized(None, Some(9))));
        cases.push(made(name, text, &format!("{place} --lines 1024 --width 3"), &sized(Some(3), Some(1024))));
    }
    for (words, mode, on) in [
        ("--mode 0 --h 17", 0, true),
        ("--mode 1 --h 17", 1, true),
        ("--mode 3 --h 17", 3, true),
        ("--off --h 17", 2, false),
    ] {
        cases.push(made("as always", &wide, words, &|paint| {
            paint.settings = Settings { mode, on, h: 17, ..paint.settings };
        }));
    }
    for (name, to) in [("to -", To::Dash), ("to a new file", To::New), ("over a file", To::Old)] {
        let screen = ("-", both.as_bytes());
        cases.push(Paint { screen, to, ..paint() }.case(&format!("reach: from standard input {name}")));
    }
    let partial = Paint { font: ("font.hex", END_RECORD), ..Paint::new(both.as_bytes(), SAMPLE_TEXT) };
    cases.push(partial.case("reach: with a partial font"));
    cases
}

/// Mode 1: where shadows fall, and how wide a picture is for them. In the sample font the block, cell 10, lights its
/// whole cell, the sound waves, 55, and the sun, 60, some of their last column, and letters nothing of it.
fn shadows() -> Vec<Case> {
    let painted = |name: &str, text: &str, words: &str, change: &dyn Fn(&mut Paint)| {
        let mut paint = Paint { words: format!("--mode 1 {words}"), ..Paint::new(text.as_bytes(), SAMPLE_TEXT) };
        paint.settings.mode = 1;
        change(&mut paint);
        paint.case(&format!("shadow: {name} {words}"))
    };
    let plain = |name: &str, text: &str| painted(name, text, "", &|_| {});
    let row = |size: u32, words: &str| format!("return {size} 0\n{words}");
    let sizes: String = (1..5).map(|size| row(size, "character 55 yellow\n")).collect();
    let stacked = "10\n0x0AE\n".to_string() + &row(1, "character 10 red\ncharacter 61 red\n");
    let narrow = "character 12 white\ncharacter 13 white\n".to_string() + &row(1, "character 10 white\n");
    let mut cases = vec![
        plain("letters", "character 11 white\ncharacter 12 white\n"),
        plain("every size", &sizes),
        plain("into a space", "character 55 white\nspace red\ncharacter 7 white\n"),
        plain("into a letter", "character 60 white\ncharacter 10 yellow\ncharacter 11 white\n"),
        plain("past a return", &("character 60 white\n".to_string() + &row(2, "character 60 white\n"))),
        plain("past an end", "character 55 white\nend\n"),
        plain("past word 63", &"character 55 white\n".repeat(64)),
        plain("past a space", "character 55 white\nspace white\n"),
        plain("spaces alone", "space white\nspace red\n"),
        plain("black letters", "character 10 black\ncharacter 60 black\n"),
        plain("none below", &stacked),
        plain("beside a shorter row", &narrow),
        plain("in the widest row of several", &(narrow.clone() + &row(2, "character 10 white\n") + &row(1, "14\n"))),
        plain("the first row is empty", &row(4, "character 60 cyan\n")),
    ];
    for width in [12, 13, 24, 25, 26, 27, 40] {
        let text = row(2, "character 60 white\n");
        cases.push(painted("cut", &text, &format!("--width {width}"), &|paint| paint.width = Some(width)));
    }
    // 20 cells of size 4 are 960 dots.
    let wide = row(4, &"character 10 white\n".repeat(20));
    for h in [14, 15, 16, 17] {
        cases.push(painted("at the last dot", &wide, &format!("--h {h}"), &|paint| paint.settings.h = h));
    }
    let off = |paint: &mut Paint| paint.settings.on = false;
    cases.push(painted("off", "character 60 white\n", "--off", &off));
    for frame in [11, 12] {
        let words = format!("--frame {frame}");
        let text = "character 60 white blink\ncharacter 55 white blink\ncharacter 60 white\ncharacter 55 red blink\n";
        cases.push(painted("blinking", text, &words, &|paint| paint.frame = frame));
        cases.push(painted("of the sample", sample_shadow(), &words, &|paint| paint.frame = frame));
    }
    for (name, to, text) in
        [("to a picture", To::New, false), ("to characters", To::New, true), ("to -", To::Dash, false)]
    {
        cases.push(painted(name, sample_shadow(), "", &|paint| (paint.to, paint.text) = (to, text)));
    }
    cases
}

fn sample_shadow() -> &'static str {
    std::str::from_utf8(SAMPLE_SHADOW).expect("a sample is text")
}

/// Screens without a word.
fn nothing() -> Vec<Case> {
    let with = |name: &str, text: &'static [u8], to: To| {
        let paint = Paint { screen: ("screen", text), to, ..paint() };
        paint.case(&format!("nothing: {name}"))
    };
    let sized = Paint { width: Some(3), lines: Some(2), words: "--width 3 --lines 2".to_string(), ..paint() };
    vec![
        with("to a new file", b"", To::New),
        with("comments over a file", b"\n\n; 14\n#end", To::Old),
        with("blanks to -", b" \t\r\n\t", To::Dash),
        with("an end is a word", b"end", To::New),
        with("a word past the end", b"end\n14\n", To::New),
        Paint { screen: ("-", b""), ..paint() }.case("nothing: from standard input"),
        Paint { screen: ("screen", b""), ..sized }.case("nothing: with a size"),
        Paint { screen: ("screen", b""), font: ("font.hex", END_RECORD), ..paint() }.case("nothing: a partial font"),
    ]
}

pub fn all() -> Vec<Case> {
    [language(), faults(), settings(), refused(), forms(), fonts(), reaches(), shadows(), nothing()].concat()
}
