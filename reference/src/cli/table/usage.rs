//! Help, the version, and wrong usage of every command.

use super::{END_RECORD, SAMPLE_DRAWING, SAMPLE_GLYPHS, SAMPLE_TEXT};
use crate::cli::case::{case, Case, Line, Said};
use crate::cli::expect::{check, misused, Paint, PAINT_OPTIONS};
use crate::cli::version;

/// The commands with the options that their help has to name.
const COMMANDS: &[(&str, &[&str])] = &[
    ("check", &["--whole"]),
    ("font", &["--whole", "-o"]),
    ("pack", &["--table", "-o"]),
    ("show", &["-o"]),
    ("paint", PAINT_OPTIONS),
    ("play", &["-o"]),
    ("pulse", &[]),
];

fn help() -> Vec<Case> {
    let names: Vec<&str> = COMMANDS.iter().map(|(name, _)| *name).chain(["help"]).collect();
    let mut cases = vec![
        case("help", "help").out_naming(&names),
        case("help as an option", "--help").out_naming(&names),
        case("help as a short option", "-h").out_naming(&names),
        case("version", "--version").out(format!("dirgeflint {}\n", version())),
    ];
    for (command, options) in COMMANDS {
        let names: Vec<&str> = options.iter().copied().chain([*command]).collect();
        cases.push(case(&format!("help on {command}"), &format!("help {command}")).out_naming(&names));
        for way in ["--help", "-h"] {
            let by = |words: &str| case(&format!("help by {words}"), words).file("f.hex", "x").out_naming(&names);
            cases.push(by(&format!("{command} {way}")));
            cases.push(by(&format!("{command} f.hex {way}")));
            cases.push(by(&format!("{command} {way} f.hex")));
        }
    }
    cases
}

/// A value that begins with a dash is taken for an option that stands where a value is due.
fn dashes() -> Vec<Case> {
    let lacking = |words: &str| {
        let case = wrong(words);
        let Said::Lines(lines) = &case.said else {
            panic!("{}: which lines are said is not known", case.name);
        };
        let lines = lines.iter().map(|line| line.clone().naming("needs a value")).collect();
        Case { name: format!("a value is due: {words}"), ..case.said(Said::Lines(lines)) }
    };
    let mut cases: Vec<Case> = [
        "font d.txt -o --whole",
        "font d.txt -o -x",
        "font -o -- d.txt",
        "pack g.txt -o --table",
        "pack g.txt -o --table t",
        "pack g.txt --table -x",
        "pack g.txt --table --",
        "pack --table -o out g.txt",
        "show f.hex -o -1",
        "show -o -o f.hex",
        "paint s --font --mode",
        "paint s --font --mode 2",
        "paint s --font -x",
        "paint s --font -- f.hex",
        "paint s --font f.hex -o --text",
        "paint s --font f.hex --table -x",
        "paint s --table --font f.hex",
        "paint s --font f.hex --mode --off",
        "paint s --font f.hex --mode -1",
        "paint s --font f.hex --colour -red",
        "paint s --font f.hex --h -1",
        "paint s --font f.hex --v --h=3",
        "paint s --font f.hex --ratio --",
        "paint s --font f.hex --frequency -x",
        "paint s --font f.hex --frame -1",
        "paint s --font f.hex --width --lines",
        "paint s --font f.hex --lines ---",
        "play e -o --",
        "play e -o --o",
    ]
    .iter()
    .map(|words| lacking(words))
    .collect();
    let screen = b"character 1 red\n";
    let named = |file: &str, words: &str| {
        let font = (file, SAMPLE_TEXT);
        let case = Paint { font, ..Paint::new(screen, SAMPLE_TEXT) }.case(&format!("a value with a dash: {words}"));
        Case { words: case_words(words), ..case }
    };
    cases.extend([
        named("-x", "paint screen --font=-x"),
        named("--mode", "paint --font=--mode screen"),
        named("--", "paint --font=-- screen"),
        named("-", "paint screen --font -"),
        named("-", "paint screen --font=-"),
        wrong("paint s --font f.hex --mode -"),
        wrong("paint s --font f.hex --width=-"),
        wrong("paint s --font f.hex --colour=-red"),
    ]);
    cases
}

/// Wrong usage before a command is known.
fn lost(name: &str, words: &str) -> Case {
    case(name, words).status(2).says(Line::new("dirgeflint: ", "").naming("try: dirgeflint help"))
}

/// Wrong usage of a command, the files being there.
fn wrong(words: &str) -> Case {
    let command = words.split(' ').next().unwrap_or_default();
    let case = case(&format!("wrong usage: {words}"), words);
    let case = case.file("a.hex", END_RECORD).file("f.hex", SAMPLE_TEXT).file("s", "end\n").file("e", "play 1\n");
    misused(case.file("d.txt", SAMPLE_DRAWING).file("g.txt", SAMPLE_GLYPHS).file("t", "cell 1 A\n"), command)
}

const WRONG: &[&str] = &[
    "check",
    "check --whole",
    "check --hole a.hex",
    "check -w a.hex",
    "check --whole --whole a.hex",
    "check --whole=1 a.hex",
    "check a.hex -o out",
    "check --text a.hex",
    "check - a.hex -",
    "check --",
    "check --whole --",
    "font",
    "font d.txt d.txt",
    "font d.txt -o",
    "font -o out",
    "font d.txt -o out -o out",
    "font d.txt -o out -o other",
    "font d.txt --text",
    "font -x d.txt",
    "font d.txt --table t",
    "pack",
    "pack -o out",
    "pack --table out",
    "pack g.txt g.txt",
    "pack g.txt -o",
    "pack g.txt --table",
    "pack g.txt --table=a --table b",
    "pack g.txt -o a -o b",
    "pack g.txt --whole",
    "pack g.txt --text",
    "pack g.txt --font f.hex",
    "pack -t out g.txt",
    "pack g.txt --tables out",
    "pack -- g.txt -o out",
    "pack - -",
    // Text and table both to standard output, or to one file.
    "pack g.txt --table -",
    "pack g.txt --table=-",
    "pack - --table -",
    "pack g.txt -o - --table -",
    "pack --table - -o - -- g.txt",
    "pack g.txt -o out --table out",
    "pack g.txt -o out --table=./out",
    "show",
    "show f.hex 62",
    "show f.hex 0 1 62",
    "show f.hex x",
    "show f.hex -1",
    "show f.hex -- -1",
    "show f.hex 4294967296",
    "show f.hex f.hex",
    "show f.hex -o",
    "show f.hex --whole",
    "show f.hex --table t",
    "paint",
    "paint s",
    "paint --font f.hex",
    "paint s --font",
    "paint s s --font f.hex",
    "paint --font f.hex -- s s",
    "paint -- s --font f.hex",
    "paint s --font f.hex --font f.hex",
    "paint s --font f.hex --mode 1 --mode 1",
    "paint s --font f.hex --mode 1 --mode=2",
    "paint s --font f.hex --off --off",
    "paint s --font f.hex --text --text",
    "paint s --font f.hex --off=1",
    "paint s --font f.hex --text=yes",
    "paint s --font f.hex --mode",
    "paint s --font f.hex --whole",
    "paint s --font f.hex --Mode 1",
    "paint s --font f.hex --wid 8",
    "paint - --font -",
    "paint - --font f.hex --table -",
    "paint s --font - --table -",
    "paint - --font - --table -",
    "paint s --font f.hex --table",
    "paint s --font f.hex --table t --table t",
    "paint s --font f.hex --table t --table=t",
    "paint s --table t",
    "paint s --font f.hex t",
    "check f.hex --table t",
    "play e --table t",
    "pulse 4 194 --table t",
    "play",
    "play e e",
    "play e -o",
    "play e -o a -o b",
    "play e --text",
    "pulse",
    "pulse 4",
    "pulse 4 194 0",
    "pulse 4 256",
    "pulse 4 x",
    "pulse x 4",
    "pulse -1 4",
    "pulse 4 -1",
    "pulse 4294967296 0",
    "pulse 0x 0",
    "pulse 0X4 0",
    "pulse 4 1e1",
    "pulse 4 0x100",
    "pulse 4 194 -o out",
];

pub fn all() -> Vec<Case> {
    let mut cases = help();
    cases.extend([
        lost("no command", ""),
        lost("an unknown command", "draw d.txt"),
        lost("a command in capitals", "Check a.hex"),
        lost("an empty command", "").word(""),
        lost("an unknown option for a command", "--nothing"),
        lost("help on nothing known", "help draw"),
        lost("help on two commands", "help check font"),
    ]);
    cases.extend(WRONG.iter().map(|words| wrong(words)));
    let none = wrong("show f.hex").word("");
    cases.push(Case { name: "wrong usage: an empty cell".to_string(), ..none });
    // A message shows what it does not understand, cut where it is long.
    let long = lost("a long command", "").word("x".repeat(20_000));
    let odd = misused(case("an odd option", "check").word(b"--\x01\x1b\xe9"), "check");
    cases.extend([long, odd]);
    cases.extend(orders());
    cases.extend(dashes());
    cases
}

/// Options before and after files, with `=`, and after `--`.
fn orders() -> Vec<Case> {
    let screen = b"character 1 red\n";
    let paint = Paint::new(screen, SAMPLE_TEXT).case("");
    let typed =
        |name: &str, words: &str| Case { name: name.to_string(), words: case("", words).words, ..paint.clone() };
    let dashed = |name: &str, words: &str, file: &str| {
        let case = check(name, false, &[(file, Some(SAMPLE_TEXT))]);
        Case { words: case_words(words), ..case }
    };
    vec![
        typed("options before the file", "paint --font font.hex screen"),
        typed("options around the file", "paint --mode 2 screen --font font.hex"),
        typed("options with an equals sign", "paint screen --font=font.hex --mode=2 --colour=black --frame=0"),
        typed("options ended before the file", "paint --font font.hex -- screen"),
        dashed("a file that looks like an option", "check -- --whole", "--whole"),
        dashed("a file that begins with a dash", "check -- -a.hex", "-a.hex"),
        dashed("an option before that", "check --whole -- --", "--"),
        dashed("a file that looks like a call for help", "check -- -h", "-h"),
        misused(case("an option with an empty value", "paint screen --font=").file("screen", &screen[..]), "paint"),
        misused(case("an empty table", "paint screen --font=font.hex --table=").file("screen", &screen[..]), "paint"),
        case("standard input after the options", "check --")
            .word("-")
            .input(SAMPLE_TEXT)
            .out("<stdin>: cells 62 bytes 8192\n"),
    ]
}

fn case_words(words: &str) -> Vec<Vec<u8>> {
    case("", words).words
}
