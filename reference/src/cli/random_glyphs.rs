//! Random drawings of glyphs and tables, and screens that name the glyphs.

use super::case::Case;
use super::expect::{pack, Paint, To};
use super::glyphs::{drawings, is_name, Drawings, Packed};
use super::randomly::{line_end, random_settings, screen_naming, to, typed};
use crate::model::image::{COLUMNS, ROWS};
use crate::random::Random;

type Glyph = [u16; ROWS];

/// A letter, and more of them the less common they are in names.
fn letter(random: &mut Random) -> char {
    let (first, last) = random.pick(&[
        (0x21, 0x7E),
        (0x41, 0x5A),
        (0x61, 0x7A),
        (0xA1, 0x17F),
        (0x391, 0x3C9),
        (0x410, 0x44F),
        (0x5D0, 0x5EA),
        (0x660, 0x669),
        (0x300, 0x36F),
        (0x2010, 0x2070),
        (0x4E00, 0x9FFF),
        (0xAC00, 0xE010),
        (0x1F300, 0x1F6FF),
        (0x20, 0x10FFFF),
    ]);
    char::from_u32(random.between(first, last) as u32).unwrap_or('\u{FFFD}')
}

/// What names are made of that people give.
const PARTS: &[&str] = &[
    "volume", "bar", "big", "a", "A", "-", "_", ".", "digit", "7", "cell", "glyph", "red", "blink", "end", "U+03A9",
    "'", "%s",
];

fn some_name(random: &mut Random) -> String {
    match random.below(8) {
        0..=3 => letter(random).to_string(),
        4 => (0..random.between(2, 64)).map(|_| letter(random)).collect(),
        _ => (0..random.between(1, 5)).map(|_| random.pick(PARTS)).collect(),
    }
}

/// A good name that no other glyph has.
fn new_name(others: &[String], random: &mut Random) -> String {
    loop {
        let name = some_name(random);
        if is_name(name.as_bytes()) && !others.contains(&name) {
            return name;
        }
    }
}

/// A pattern of one of many sorts; some are nearly one that is there already.
fn pattern(others: &[Glyph], random: &mut Random) -> Glyph {
    let mut glyph = [0; ROWS];
    match random.below(12) {
        0 => {}
        1 => glyph = [4095; ROWS],
        2..=5 if !others.is_empty() => {
            glyph = others[random.below(others.len())];
            for _ in 0..random.pick(&[1, 1, 1, 2, 5]) {
                glyph[random.below(ROWS)] ^= 1 << random.below(COLUMNS);
            }
        }
        // A few dots only, or any.
        6..=8 => glyph[random.below(ROWS)] = 1 << random.below(COLUMNS),
        9 if !others.is_empty() => {
            // The rows of another, one of them moved.
            glyph = others[random.below(others.len())];
            glyph.rotate_left(random.between(1, ROWS - 1));
        }
        _ => glyph.iter_mut().for_each(|row| *row = random.word() % 4096),
    }
    glyph
}

/// Glyphs of which many are alike; now and then there are too many, or too many are different.
fn some_glyphs(random: &mut Random) -> Vec<Glyph> {
    let most = match random.below(10) {
        0 => random.pick(&[63, 63, 64, 200]),
        1 => 1,
        2..=4 => 62,
        _ => random.between(1, 62),
    };
    let number = match random.below(12) {
        _ if most > 62 => random.between(2 * most, 256.max(2 * most)),
        0..=3 => random.between(1, 8),
        4..=7 => random.between(20, 90),
        8 => random.pick(&[61, 62, 63, 255]),
        9 => random.between(257, 300),
        _ => 256,
    };
    let mut patterns: Vec<Glyph> = Vec::new();
    let mut glyphs = Vec::new();
    for _ in 0..number {
        let fresh = patterns.is_empty() || patterns.len() < most && random.one_in(2) || random.one_in(1000);
        let glyph = if fresh { pattern(&patterns, random) } else { patterns[random.below(patterns.len())] };
        if !patterns.contains(&glyph) {
            patterns.push(glyph);
        }
        glyphs.push(glyph);
    }
    glyphs
}

fn drawn_row(row: u16) -> String {
    (0..COLUMNS).rev().map(|bit| if row >> bit & 1 == 1 { '#' } else { '.' }).collect()
}

/// Drawings as a person might leave them.
pub fn drawings_text(random: &mut Random) -> String {
    let (mut names, mut text) = (Vec::new(), String::new());
    let end = line_end(random);
    for glyph in some_glyphs(random) {
        let name = new_name(&names, random);
        let comment = random.pick(&["", "", "", " ; words", "\t#words", " ;\u{1B}\0", "  "]);
        text += &format!(
            "{}glyph{}{name}{comment}{end}",
            random.pick(&["", "", "\n", "; words\n"]),
            random.pick(&[" ", "\t", "  "])
        );
        for row in glyph {
            text += &drawn_row(row);
            text += if random.one_in(100) { " \n\n;\n" } else { end };
        }
        names.push(name);
    }
    if random.one_in(8) {
        text.truncate(text.trim_end().len());
    }
    text
}

/// Drawings that are packed, and what they are packed into.
pub fn packed(random: &mut Random) -> (Drawings, Packed) {
    loop {
        let drawn = drawings(drawings_text(random).as_bytes()).expect("random drawings are good");
        if let Ok(packed) = drawn.packed() {
            return (drawn, packed);
        }
    }
}

/// The table in another form: other lines, another order, a few names more, no sum.
pub fn table_by_hand(drawn: &Drawings, packed: &Packed, random: &mut Random) -> String {
    let mut lines: Vec<String> =
        packed.table.lines().skip(1).map(|line| line.split(" ; ").next().unwrap_or_default().to_string()).collect();
    if random.one_in(2) {
        lines.remove(0);
    }
    for place in (1..lines.len()).rev() {
        lines.swap(place, random.below(place + 1));
    }
    let mut names = drawn.names.clone();
    for _ in 0..random.below(4).min(256 - names.len()) {
        let name = new_name(&names, random);
        lines.push(format!("cell {} {name}", random.below(62)));
        names.push(name);
    }
    typed(&lines, random)
}

/// Where text and table go; some ways are wrong usage.
fn routes(random: &mut Random) -> (To, To) {
    let some = |random: &mut Random| random.pick(&[To::Nowhere, To::Dash, To::New, To::Old]);
    (some(random), some(random))
}

/// `pack` of random drawings, and `paint` of screens that name their glyphs.
pub fn glyphs(index: u64, random: &mut Random) -> Case {
    let name = format!("random glyphs, {index}");
    if index % 2 == 0 {
        let file = if random.one_in(6) { "-" } else { "g.txt" };
        let (to, table_to) = routes(random);
        return pack(&name, file, drawings_text(random).as_bytes(), to, table_to);
    }
    let (drawn, packed) = packed(random);
    let table = if random.one_in(2) { packed.table.clone() } else { table_by_hand(&drawn, &packed, random) };
    let screen = screen_naming(&drawn.names, random);
    let mut paint = Paint::new(screen.as_bytes(), packed.text.as_bytes());
    paint = Paint { to: to(index / 2), text: index / 2 % 3 == 0, drawn: Some(&drawn), ..paint };
    random_settings(&mut paint, random);
    let mut files = ["screen", "font.hex", "table.txt"];
    if random.one_in(3) {
        files[random.below(3)] = "-";
    }
    (paint.screen.0, paint.font.0, paint.table) = (files[0], files[1], Some((files[2], table.as_bytes())));
    paint.case(&name)
}

#[cfg(test)]
mod tests {
    use super::*;
    use crate::cli::case::Said;
    use crate::cli::glyphs::table;

    #[test]
    fn drawings_are_good_and_of_every_number() {
        let (mut numbers, mut refused) = (Vec::new(), Vec::new());
        for index in 0..120 {
            let text = drawings_text(&mut Random::of_case(3, index));
            let drawn = drawings(text.as_bytes()).unwrap();
            numbers.push(drawn.names.len());
            refused.extend(drawn.packed().err().and_then(|fault| fault.refused));
        }
        assert!(numbers.contains(&1) && numbers.iter().filter(|&&number| number == 256).count() > 5);
        assert!(refused.iter().filter(|&&number| number == 16).count() > 2);
        assert!(refused.iter().filter(|&&number| number == 17).count() > 5);
        assert!(refused.len() < 60);
    }

    #[test]
    fn glyphs_share_cells_and_names_are_of_every_sort() {
        let mut tables = String::new();
        for index in 0..60 {
            let mut random = Random::of_case(4, index);
            let (drawn, packed) = packed(&mut random);
            tables += &packed.table;
            let by_hand = table(table_by_hand(&drawn, &packed, &mut random).as_bytes()).unwrap();
            let written = table(packed.table.as_bytes()).unwrap();
            assert!(drawn.names.iter().all(|name| by_hand.cell(name.as_bytes()) == written.cell(name.as_bytes())));
        }
        for what in [" ; as ", ", as ", " ; U+03", " ; U+1F", "-", "cell 61 ", "; 256 glyphs in "] {
            assert!(tables.contains(what), "{what}");
        }
    }

    #[test]
    fn every_outcome_is_due_somewhere() {
        let cases: Vec<Case> =
            (0..200).map(|index| glyphs(index, &mut Random::of_case(crate::compare::DEFAULT_SEED, index))).collect();
        let number = |is: &dyn Fn(&Case) -> bool| cases.iter().filter(|case| is(case)).count();
        assert!(number(&|case| case.status == Some(0)) > 150);
        assert!(number(&|case| case.status == Some(1)) > 10);
        assert!(number(&|case| case.status == Some(2)) > 5);
        assert!(number(&|case| matches!(&case.said, Said::Exactly(table) if table.starts_with(b"; "))) > 5);
        assert!(number(&|case| case.written.len() == 2) > 10);
    }
}
