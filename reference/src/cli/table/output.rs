//! Where output goes: links, permissions, devices, and places that cannot be written.

use super::{numbered, SAMPLE_DRAWING, SAMPLE_TEXT};
use crate::cli::case::{case, Case, Line, Said};
use crate::cli::expect::misused;
use crate::cli::folder::Thing;
use crate::cli::glyphs::{drawings as drawings_of, Packed};

fn link(to: &str) -> Thing {
    Thing::Link { to: to.to_string() }
}

fn font(name: &str, output: &str) -> Case {
    case(&format!("output: {name}"), "font d.txt -o").word(output).file("d.txt", SAMPLE_DRAWING)
}

fn mode(mode: u32) -> Thing {
    Thing::File { bytes: b"old".to_vec(), mode: Some(mode) }
}

fn places() -> Vec<Case> {
    vec![
        font("a new file", "new").writes("new", SAMPLE_TEXT),
        font("a file with permissions of its own", "old").thing("old", mode(0o600)).writes("old", SAMPLE_TEXT),
        font("a file that may be run", "old").thing("old", mode(0o755)).writes("old", SAMPLE_TEXT),
        font("a link to a file", "link")
            .thing("old", mode(0o604))
            .thing("link", link("old"))
            .writes("old", SAMPLE_TEXT),
        font("a link to a link", "far")
            .thing("old", mode(0o640))
            .thing("link", link("old"))
            .thing("far", link("./link"))
            .writes("old", SAMPLE_TEXT),
        font("a link to a file that is not there yet", "link").thing("link", link("new")).writes("new", SAMPLE_TEXT),
        font("a link into another folder", "link")
            .thing("folder", Thing::Folder)
            .thing("folder/old", mode(0o640))
            .thing("link", link("folder/old"))
            .writes("folder/old", SAMPLE_TEXT),
        font("a link to a new file in another folder", "link")
            .thing("folder", Thing::Folder)
            .thing("link", link("folder/new"))
            .writes("folder/new", SAMPLE_TEXT),
        font("a file in a folder", "folder/new").thing("folder", Thing::Folder).writes("folder/new", SAMPLE_TEXT),
        font("a path", "./new").writes("new", SAMPLE_TEXT),
        font("a device", "/dev/null"),
        font("standard output by its path", "/dev/stdout").out(SAMPLE_TEXT),
        font("a name of 200 characters", &"n".repeat(200)).writes("n".repeat(200), SAMPLE_TEXT),
        font("a name of 255 characters", &"n".repeat(255)).writes("n".repeat(255), SAMPLE_TEXT),
    ]
}

/// A name that is empty is no name: wrong usage, before any file is looked at.
fn no_name() -> Vec<Case> {
    [
        ("font", "font d.txt"),
        ("pack", "pack g.txt"),
        ("show", "show f.hex"),
        ("paint", "paint s --font f.hex"),
        ("play", "play e"),
    ]
    .iter()
    .map(|(command, words)| {
        misused(case(&format!("output: an empty name for {command}"), words).word("-o").word(""), command)
    })
    .collect()
}

fn trouble() -> Vec<Case> {
    let failed = |name: &str, output: &str| {
        let case = font(name, output).status(2);
        case.said(Said::Lines(vec![Line::new(format!("{output}: "), "")]))
    };
    vec![
        failed("a folder", "folder").thing("folder", Thing::Folder),
        failed("a folder that is not there", "none/new"),
        failed("a link that goes in a circle", "link").thing("link", link("link")),
        failed("a link into a folder that is not there", "link").thing("link", link("none/new")),
        failed("a full device", "/dev/full"),
        case("output: a refusal and a pipe", "font d.txt -o /dev/stdout")
            .file("d.txt", "cell 62\n")
            .status(1)
            .says(Line::new("d.txt:1: ", "")),
    ]
}

/// A run of `pack` with its two outputs.
fn packed(name: &str, text: &str, table: &str) -> (Case, Packed) {
    let drawings = numbered([5, 9, 5]);
    let packed =
        drawings_of(drawings.as_bytes()).and_then(|drawings| drawings.packed()).expect("three glyphs are packed");
    let case = case(&format!("two outputs: {name}"), "pack g.txt").word("-o").word(text).word("--table").word(table);
    (case.file("g.txt", drawings), packed)
}

/// Text and table at every sort of place; each is replaced as one output is.
fn two_places() -> Vec<Case> {
    let to = |name: &str, text: &str, table: &str, files: (&str, &str), things: &[(&str, Thing)]| {
        let (case, packed) = packed(name, text, table);
        let case = things.iter().fold(case, |case, (name, thing)| case.thing(name, thing.clone()));
        case.writes(files.0, packed.text).writes(files.1, packed.table)
    };
    let folder = || ("folder", Thing::Folder);
    let mut cases = vec![
        to("new files", "a", "b", ("a", "b"), &[]),
        to("permissions", "a", "b", ("a", "b"), &[("a", mode(0o600)), ("b", mode(0o604))]),
        to("one new, one old", "a", "b", ("a", "b"), &[("b", mode(0o755))]),
        to("links", "a", "b", ("old", "new"), &[("old", mode(0o640)), ("a", link("old")), ("b", link("new"))]),
        to(
            "a link to a link",
            "a",
            "far",
            ("a", "old"),
            &[("old", mode(0o640)), ("near", link("old")), ("far", link("near"))],
        ),
        to("one name in two folders", "x", "folder/x", ("x", "folder/x"), &[folder()]),
        to("another folder", "folder/a", "folder/b", ("folder/a", "folder/b"), &[folder(), ("folder/b", mode(0o640))]),
        to("paths", "./a", "folder/..//b", ("a", "b"), &[folder()]),
        to("names of 255 characters", &"n".repeat(255), &"m".repeat(255), (&"n".repeat(255), &"m".repeat(255)), &[]),
        // Another name of the file stays as it was.
        to(
            "a file with another name",
            "a",
            "b",
            ("a", "b"),
            &[("c", Thing::file("old")), ("a", Thing::Name { of: "c".to_string() })],
        ),
    ];
    let (null, made) = packed("the table to a device", "a", "/dev/null");
    cases.push(null.writes("a", made.text));
    let (null, made) = packed("the text to a device", "/dev/null", "b");
    cases.push(null.writes("b", made.table));
    let (stdout, made) = packed("the table to standard output by its path", "a", "/dev/stdout");
    cases.push(stdout.writes("a", made.text).out(made.table));
    let (stdout, made) = packed("the text to standard output by its path", "/dev/stdout", "b");
    cases.push(stdout.writes("b", made.table).out(made.text));
    cases.push(packed("both to a device", "/dev/null", "/dev/null").0);
    cases
}

/// One of the two cannot be written, or both are one: neither is touched.
fn two_troubles() -> Vec<Case> {
    let there = |name: &str, text: &str, table: &str| {
        let case = packed(name, text, table).0.thing("a", mode(0o640)).file("b", "old").thing("folder", Thing::Folder);
        case.status(2)
    };
    let failed = |name: &str, text: &str, table: &str, said: &str| {
        there(name, text, table).says(Line::new(format!("{said}: "), ""))
    };
    let one = |name: &str, text: &str, table: &str| misused(there(name, text, table), "pack");
    vec![
        failed("the table in no folder", "a", "none/b", "none/b"),
        failed("the table in no folder, the text new", "new", "none/b", "none/b"),
        failed("the text in no folder", "none/a", "b", "none/a"),
        failed("the text in no folder, the table new", "none/a", "new", "none/a"),
        failed("the table is a folder", "a", "folder", "folder"),
        failed("the text is a folder", "folder", "b", "folder"),
        failed("the table on a full device", "a", "/dev/full", "/dev/full"),
        failed("the text on a full device", "/dev/full", "b", "/dev/full"),
        failed("the table's link goes in a circle", "a", "circle", "circle").thing("circle", link("circle")),
        failed("the text's link goes nowhere", "nowhere", "b", "nowhere").thing("nowhere", link("none/new")),
        one("an empty name for the text", "", "b"),
        one("an empty name for the table", "a", ""),
        one("an empty name for the table, the text new", "new", ""),
        one("two empty names", "", ""),
        failed("a name of 256 characters for the table", "a", &"n".repeat(256), &"n".repeat(256)),
        failed("a name of 256 characters for the table, the text new", "new", &"n".repeat(256), &"n".repeat(256)),
        failed("a name of 256 characters for the text", &"n".repeat(256), "b", &"n".repeat(256)),
        failed("a folder's path for the table", "a", "folder/", "folder/"),
        failed("a file's path as a folder's", "a", "b/", "b/"),
        failed("this folder for the table", "a", ".", "."),
        one("one file", "a", "a"),
        one("one new file", "new", "new"),
        one("one file by another path", "a", "folder/.././a"),
        one("one new file by another path", "new", "./new"),
        one("one file by a link", "a", "link").thing("link", link("a")),
        one("one file by a link, turned round", "link", "a").thing("link", link("a")),
        one("one file by two names", "a", "name").thing("name", Thing::Name { of: "a".to_string() }),
        one("one new file by a link", "new", "link").thing("link", link("new")),
        one("one new file by two links", "link", "far").thing("link", link("new")).thing("far", link("folder/../new")),
        one("both to standard output by its path", "/dev/stdout", "/dev/stdout"),
        one("text to -, table to its path", "-", "/dev/stdout"),
        one("table to -, text to its path", "/dev/stdout", "-"),
    ]
}

/// Every command that prints, on a disk with no room left.
fn full() -> Vec<Case> {
    let failed = |words: &str| {
        let case = case(&format!("full: {words}"), words).full().status(2).said(Said::IfNotDone);
        let case = case.file("d.txt", SAMPLE_DRAWING).file("f.hex", SAMPLE_TEXT).file("old", "as it was\n");
        case.file("s", "14\n").file("e", "high 3\nplay 9\n")
    };
    [
        "help",
        "help paint",
        "--version",
        "check f.hex",
        "font d.txt",
        "font d.txt -o -",
        "show f.hex",
        "show f.hex 3",
        "paint s --font f.hex",
        "paint s --font f.hex -o -",
        "play e",
        "play e -o -",
        // The periods cannot be printed, so the work is not whole and the wave is not written.
        "play e -o new",
        "play e -o old",
        "pulse 1 2",
    ]
    .iter()
    .map(|words| failed(words))
    .collect()
}

pub fn all() -> Vec<Case> {
    [places(), no_name(), trouble(), two_places(), two_troubles(), full()].concat()
}
