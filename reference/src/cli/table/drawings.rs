//! `font` and `show`: the sample both ways, cells in any order, drawings with faults.

use super::{typed, with_cr_lf, END_RECORD, SAMPLE_DRAWING, SAMPLE_TEXT};
use crate::cli::case::{Case, Line};
use crate::cli::expect::{font, show, whole_font, To};
use crate::cli::text;

fn cell(heading: &str, row: &str) -> String {
    format!("cell {heading}\n{}", format!("{row}\n").repeat(18))
}

fn good() -> Vec<Case> {
    let plain = text::read("", SAMPLE_TEXT).map(|good| text::whole_drawing(&good.font)).unwrap_or_default();
    let lit = "############";
    let backwards: String = (0..62).rev().map(|number| cell(&number.to_string(), "#.#.#.#.#.#.")).collect();
    let most: String = (0..62).filter(|number| ![3, 17].contains(number)).map(|n| cell(&n.to_string(), lit)).collect();
    let named = |heading: &str| cell(heading, "#..........#");
    let drawings: [(&str, Vec<u8>); 14] = [
        ("the sample's drawing", SAMPLE_DRAWING.to_vec()),
        ("the sample's drawing with CR LF", with_cr_lf(SAMPLE_DRAWING)),
        ("the sample's drawing without its last line end", SAMPLE_DRAWING.trim_ascii_end().to_vec()),
        ("the sample without names", plain.clone().into_bytes()),
        ("cells backwards", backwards.into_bytes()),
        ("two cells missing", most.into_bytes()),
        ("one cell only", named("0").into_bytes()),
        ("the last cell only", named("61").into_bytes()),
        ("a cell in the middle", named("30 and a name; of # words").into_bytes()),
        ("leading zeros", named("0005").into_bytes()),
        ("tabs", named("\t7\tX").into_bytes()),
        ("blanks after the rows", named("9").replace('\n', " \t\n").into_bytes()),
        ("odd bytes in a name", [b"cell 4 \xE9\x00\x1B\n".to_vec(), named("").as_bytes()[6..].to_vec()].concat()),
        ("comments and empty lines among rows", named("8").replace('\n', "\n\n; words\n \t\n;\n").into_bytes()),
    ];
    let mut cases: Vec<Case> =
        drawings.iter().map(|(name, drawing)| font(name, "d.txt", drawing, To::Nowhere)).collect();
    cases.push(one_missing());
    for (name, to) in [("to -", To::Dash), ("to a new file", To::New), ("over a file", To::Old)] {
        cases.push(font(&format!("the sample's drawing {name}"), "d.txt", SAMPLE_DRAWING, to));
        cases.push(font(&format!("from standard input {name}"), "-", named("3").as_bytes(), to));
    }
    cases
}

fn one_missing() -> Case {
    let drawing: String = (0..61).map(|number| cell(&format!("{number:02}"), "............")).collect();
    font("one cell missing", "d.txt", drawing.as_bytes(), To::Nowhere)
}

/// Drawings that are to have every cell.
fn whole() -> Vec<Case> {
    let without = |missing: &[usize]| -> String {
        let cells = (0..62).filter(|number| !missing.contains(number));
        cells.map(|number| cell(&number.to_string(), "#..........#")).collect()
    };
    let all_but_one: Vec<usize> = (0..61).collect();
    let from_40: Vec<usize> = [3, 17].into_iter().chain(40..62).collect();
    let mut cases = Vec::new();
    for (name, missing) in [
        ("no cell", &[][..]),
        ("the first cell", &[0]),
        ("a cell", &[5]),
        ("the last cell", &[61]),
        ("two cells", &[3, 17]),
        ("two neighbours", &[3, 4]),
        ("three neighbours", &[0, 1, 2]),
        ("cells and a run", &from_40),
        ("all but one", &all_but_one),
    ] {
        let drawing = without(missing);
        cases.push(font(&format!("{name} left out"), "d.txt", drawing.as_bytes(), To::Old));
        cases.push(whole_font(&format!("{name} left out of a whole drawing"), "d.txt", drawing.as_bytes(), To::Old));
    }
    let (some, all) = (without(&[1, 9]), without(&[]));
    cases.extend([
        whole_font("cells left out, to standard output", "d.txt", some.as_bytes(), To::Nowhere),
        whole_font("cells left out, to -", "-", some.as_bytes(), To::Dash),
        whole_font("cells left out, to a new file", "d.txt", some.as_bytes(), To::New),
        whole_font("the sample, to be whole", "d.txt", SAMPLE_DRAWING, To::New),
        whole_font("a whole drawing from standard input", "-", all.as_bytes(), To::Nowhere),
        whole_font("an empty drawing, to be whole", "d.txt", b"", To::Old),
        whole_font("a fault in a drawing that is to be whole", "d.txt", b"cell 00\n\ncell 01\n", To::Old),
        typed(whole_font("--whole last", "d.txt", some.as_bytes(), To::Old), "font d.txt -o out --whole"),
        typed(whole_font("--whole between", "d.txt", all.as_bytes(), To::Old), "font -o out --whole -- d.txt"),
    ]);
    cases
}

fn faults() -> Vec<Case> {
    let row = "............\n";
    let drawings: Vec<(&str, Vec<u8>)> = vec![
        ("no heading", row.into()),
        ("a heading misspelt", "cells 00\n".into()),
        ("a heading in capitals", "Cell 00\n".into()),
        ("a heading without a number", "cell\n".into()),
        ("a heading with a word for its number", "cell A 0\n".into()),
        ("cell 62", cell("62", "............").into()),
        ("a cell number in hexadecimal", cell("0x10", "............").into()),
        ("a cell number with a sign", cell("-1", "............").into()),
        ("a cell number with a plus", cell("+1", "............").into()),
        ("a cell number of many digits", cell("99999999999999999999", "............").into()),
        ("a cell twice", (cell("5", "............") + "\n" + &cell("05 again", "############")).into()),
        ("a short row", (format!("; one\n\ncell 00\n{row}") + "...........\n").into()),
        ("a long row", (format!("cell 00\n{row}{row}") + ".............\n").into()),
        ("a very long row", (format!("cell 00\n{row}") + &".".repeat(100_000) + "\n").into()),
        ("a wrong dot", format!("cell 00\n{row}....x.......\n").into()),
        ("a blank in front of a row", format!("cell 00\n{row} ...........\n").into()),
        ("something after a row", format!("cell 00\n{row}............ ; words\n").into()),
        ("a byte above 127 in a row", b"cell 00\n...\xE9........\n".to_vec()),
        ("a NUL in a row", b"cell 00\n...\0........\n".to_vec()),
        ("a CR in a row", b"cell 00\n...\r........\n".to_vec()),
        ("a row too many", (cell("1", "............") + "\n" + row).into()),
        ("a heading too early", format!("cell 00\n{row}cell 01\n").into()),
        ("a heading at once", "cell 00\n\ncell 01\n".into()),
        ("a hex text", SAMPLE_TEXT.to_vec()),
    ];
    let mut cases: Vec<Case> = drawings.iter().map(|(name, drawing)| font(name, "d.txt", drawing, To::Old)).collect();
    cases.push(font("a fault in standard input", "-", b"cell 00\nx\n", To::Dash));
    for (name, drawing) in [
        ("an empty drawing", String::new()),
        ("a drawing of comments", "; one\n\n; two\n".to_string()),
        ("a drawing that stops after a heading", "cell 00\n".to_string()),
        ("a drawing that stops after 17 rows", format!("cell 00\n{}", row.repeat(17))),
        ("a drawing that stops with other lines", format!("cell 00\n{row}\n; words\n\n")),
    ] {
        cases.push(font(name, "d.txt", drawing.as_bytes(), To::Old));
    }
    cases
}

fn shown() -> Vec<Case> {
    let all = |name: &str, text: &[u8], to: To| show(name, "f.hex", text, &[], to);
    let some = |name: &str, cells: &[usize], to: To| show(name, "f.hex", SAMPLE_TEXT, cells, to);
    vec![
        all("show the sample", SAMPLE_TEXT, To::Nowhere),
        all("show the sample to -", SAMPLE_TEXT, To::Dash),
        all("show the sample to a new file", SAMPLE_TEXT, To::New),
        all("show the sample over a file", SAMPLE_TEXT, To::Old),
        all("show a text with CR LF", &with_cr_lf(SAMPLE_TEXT), To::Nowhere),
        all("show a partial text", END_RECORD, To::Nowhere),
        all("show a partial text over a file", &SAMPLE_TEXT[44 * 200..], To::Old),
        show("show standard input", "-", SAMPLE_TEXT, &[], To::Nowhere),
        show("show cells of standard input", "-", SAMPLE_TEXT, &[61, 0], To::New),
        some("show one cell", &[0], To::Nowhere),
        some("show the last cell", &[61], To::Nowhere),
        some("show cells as they are named", &[61, 0, 7], To::Nowhere),
        some("show a cell as often as it is named", &[9, 9, 3, 9], To::Old),
        typed(some("show cells in hexadecimal", &[16, 61, 5], To::Nowhere), "show f.hex 0x10 0x3D 005"),
        typed(some("show with the output named first", &[16], To::New), "show -o out f.hex 16"),
        typed(some("show cells after the options", &[3, 4], To::New), "show -o out -- f.hex 3 4"),
        all("show an empty text", b"", To::Old),
        all("show a bad sum", b":00000001FE\n", To::Old),
        all("show a text too long", &[b'\n'; 65_536], To::New),
        show("show cells of a bad text", "f.hex", b":0100120000ED\n:00000001FF\n", &[3], To::Nowhere),
        show("show a bad standard input", "-", b"x", &[], To::Dash),
        crate::cli::case::case("show a file that is not there", "show none.hex")
            .status(2)
            .says(Line::exactly("none.hex: cannot be read: No such file or directory")),
        crate::cli::case::case("font of a file that is not there", "font none.txt -o out")
            .status(2)
            .says(Line::exactly("none.txt: cannot be read: No such file or directory")),
    ]
}

pub fn all() -> Vec<Case> {
    [good(), whole(), faults(), shown()].concat()
}
