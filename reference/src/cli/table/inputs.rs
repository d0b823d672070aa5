//! An output that is one of the inputs: by its name, by another spelling, by a link of either sort.

use super::{drawn, SAMPLE_DRAWING, SAMPLE_TEXT};
use crate::cli::case::{case, Case, Line};
use crate::cli::folder::Thing;

const EVENTS: &[u8] = b"high 1\nplay 9\n";
const SCREEN: &[u8] = b"character 1 red\n";
const TABLE: &[u8] = b"cell 1 A\n";

fn link(to: &str) -> Thing {
    Thing::Link { to: to.to_string() }
}

fn name_of(of: &str) -> Thing {
    Thing::Name { of: of.to_string() }
}

/// A run with every input there, and a folder to walk through.
fn given(words: &str) -> Case {
    let case = case(&format!("an output: {words}"), words).file("d.txt", SAMPLE_DRAWING).file("f.hex", SAMPLE_TEXT);
    let case = case.file("g", drawn("A", "............")).file("t", TABLE);
    case.file("s", SCREEN).file("e", EVENTS).thing("folder", Thing::Folder)
}

/// The option that names the output is the word before it.
fn refused(case: Case, output: &str) -> Case {
    let words: Vec<String> = case.words.iter().map(|word| String::from_utf8_lossy(word).into_owned()).collect();
    let option = words.windows(2).rfind(|pair| pair[1] == output && ["-o", "--table"].contains(&&*pair[0]));
    let (command, option) = (&words[0], option.map_or("", |pair| &pair[0]));
    case.status(2).says(Line::exactly(format!(
        "dirgeflint: {option} {output} is also an input: name another file; try: dirgeflint help {command}"
    )))
}

/// Each command up to the option that names the output, with the input that this is to be.
const RUNS: &[(&str, &str)] = &[
    ("font d.txt -o", "d.txt"),
    ("font --whole d.txt -o", "d.txt"),
    ("pack g -o", "g"),
    ("pack g --table new -o", "g"),
    ("pack g --table", "g"),
    ("pack g -o new --table", "g"),
    ("show f.hex -o", "f.hex"),
    ("show f.hex 3 4 -o", "f.hex"),
    ("paint s --font f.hex -o", "s"),
    ("paint s --font f.hex --text -o", "s"),
    ("paint s --font f.hex --off -o", "f.hex"),
    ("paint s --font=f.hex --text -o", "f.hex"),
    ("paint s --font f.hex --table=t -o", "t"),
    ("paint s --font f.hex --text --table=t -o", "s"),
    ("play e -o", "e"),
];

fn by_every_way() -> Vec<Case> {
    let mut cases = Vec::new();
    for (words, input) in RUNS {
        let to = |output: &str| refused(given(&format!("{words} {output}")), output);
        cases.push(to(input));
        cases.push(to(&format!("./{input}")));
        cases.push(to(&format!("folder/..//{input}")));
        cases.push(to("link").thing("link", link(input)));
        cases.push(to("far").thing("link", link(&format!("./{input}"))).thing("far", link("link")));
        cases.push(to(&format!("around/{input}")).thing("around", link(".")));
        cases.push(to("name").thing("name", name_of(input)));
        cases.push(to("to-name").thing("name", name_of(input)).thing("to-name", link("name")));
        cases.push(to("folder/name").thing("folder/name", name_of(input)));
    }
    cases
}

/// The input by another name, the output by its own.
fn by_other_inputs() -> Vec<Case> {
    let cases = [
        ("font link -o d.txt", "d.txt", link("d.txt")),
        ("font link -o ./link", "./link", link("d.txt")),
        ("pack link -o g", "g", link("g")),
        ("pack link --table g", "g", name_of("g")),
        ("paint s --font f.hex --table link -o t", "t", link("t")),
        ("show link -o f.hex", "f.hex", name_of("f.hex")),
        ("paint link --font f.hex -o s", "s", link("s")),
        ("paint s --font link -o f.hex", "f.hex", name_of("f.hex")),
        ("play link -o e", "e", name_of("e")),
        ("play -o e -- link", "e", link("e")),
        ("play -o e ./e", "e", link("e")),
    ];
    let made = cases.into_iter().map(|(words, output, thing)| refused(given(words).thing("link", thing), output));
    made.collect()
}

/// It is looked at before any file is read: what the files have does not matter, nor whether the others are there.
fn before_all_else() -> Vec<Case> {
    let with = |words: &str, output: &str, file: &str, bytes: &str| {
        refused(case(&format!("an output: {words}, first of all"), words).file(file, bytes), output)
    };
    vec![
        with("font d.txt -o d.txt", "d.txt", "d.txt", "cell 62\n"),
        with("show f.hex -o f.hex", "f.hex", "f.hex", ":00000001FE\n"),
        with("paint s --font none -o s", "s", "s", "stop\n"),
        with("paint none --font f.hex -o f.hex", "f.hex", "f.hex", ""),
        with("play e -o e", "e", "e", "play 16385\n"),
        with("pack g -o g", "g", "g", "x\n"),
        with("pack g --table g", "g", "g", ""),
        with("pack g -o none/new --table ./g", "./g", "g", "x\n"),
        with("paint none --font none --table t -o ./t", "./t", "t", "x\n"),
        with("paint - --font f.hex -o f.hex", "f.hex", "f.hex", "").input("stop\n"),
        with("font -o ./d.txt d.txt", "./d.txt", "d.txt", "x"),
    ]
}

/// Standard input that is a file, by whatever name.
fn by_standard_input() -> Vec<Case> {
    let from = |file: &str, words: &str, output: &str| refused(given(words).input_file(file), output);
    vec![
        from("d.txt", "font - -o d.txt", "d.txt"),
        from("f.hex", "show - -o ./f.hex", "./f.hex"),
        from("s", "paint - --font f.hex -o s", "s"),
        from("f.hex", "paint s --font - -o f.hex", "f.hex"),
        from("f.hex", "paint s --font - -o s", "s"),
        from("g", "pack - -o g", "g"),
        from("g", "pack - --table ./g", "./g"),
        from("t", "paint s --font f.hex --table - -o ./t", "./t"),
        from("e", "play - -o e", "e"),
        from("e", "play /dev/stdin -o e", "e"),
        from("e", "play - -o name", "name").thing("name", name_of("e")),
    ]
}

/// Files that are only like an input, and inputs that are no regular file.
fn others() -> Vec<Case> {
    let vcd = crate::cli::wave::Wave::of(&crate::cli::wave::events(EVENTS).unwrap_or_default());
    let played = |words: &str, output: &str| given(words).out(vcd.lines()).writes(output, vcd.vcd());
    let idle = Line::exactly("/dev/null: warning: no clock is played");
    vec![
        played("play e -o copy", "copy").file("copy", EVENTS),
        played("play e -o folder/e", "folder/e").file("folder/e", EVENTS),
        played("play e -o s", "s"),
        played("play e -o to-copy", "copy").file("copy", EVENTS).thing("to-copy", link("copy")),
        played("play - -o new", "new").input_file("e"),
        // It is no input of this command.
        played("play e -o f.hex", "f.hex").input_file("f.hex"),
        given("font d.txt -o f.hex").writes("f.hex", SAMPLE_TEXT),
        given("play /dev/null -o /dev/null").says(idle),
        given("font /dev/null -o /dev/null").status(1).says(Line::new("/dev/null: ", "")),
        given("play none -o none").status(2).says(Line::exactly("none: cannot be read: No such file or directory")),
    ]
}

pub fn all() -> Vec<Case> {
    [by_every_way(), by_other_inputs(), by_standard_input(), before_all_else(), others()].concat()
}
