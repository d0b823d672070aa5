//! Screens in mode 1 that are made for its shadow: fonts with few dots or many, at the edges of the cells above all, rows
//! that end in every way, and lines that end in or next to a shadow.

use super::{a_return, character, end, frame, space, up_to, Scene, LINES_A_SCREEN};
use crate::compare::CaseResult;
use crate::model::display::{cells, Cell, LAST_LINE, WIDEST};
use crate::model::image::{CELLS, ROWS};
use crate::parts::{Paint, Settings};
use crate::random::Random;

/// What a cell may look like, row by row.
const PATTERNS: &[fn(usize) -> u16] = &[
    |_| 0,
    |_| 4095,
    // A corner alone, and all of them.
    |row| only(row == 0, 0x800),
    |row| only(row == 0, 1),
    |row| only(row == 17, 0x800),
    |row| only(row == 17, 1),
    |row| only(row == 0 || row == 17, 0x801),
    // The last row that throws a shadow on its cell, in both corners.
    |row| only(row == 16, 0x801),
    // Columns alone, and all but one.
    |_| 0x800,
    |_| 1,
    |_| 1,
    |_| 2,
    |_| 0x801,
    |_| 0xAAA,
    |_| 0x7FF,
    |_| 0xFFE,
    // Rows alone, and all but one.
    |row| only(row == 0, 4095),
    |row| only(row == 1, 4095),
    |row| only(row == 16, 4095),
    |row| only(row == 17, 4095),
    |row| only(row % 2 == 0, 4095),
    |row| only(row != 0, 4095),
    |row| only(row != 17, 4095),
    // Each row's shadow covered by the next row, and not.
    |row| 0x800 >> (row % 12),
    |row| 1 << (row % 12),
    |row| if row % 2 == 0 { 0xAAA } else { 0x555 },
    |row| only(row % 3 == 0, 0x925),
];

fn only(here: bool, bits: u16) -> u16 {
    if here {
        bits
    } else {
        0
    }
}

fn pattern(random: &mut Random) -> [u16; ROWS] {
    let mut pattern = [0; ROWS];
    match random.below(8) {
        0 => pattern[random.below(ROWS)] = 1 << random.below(12),
        1 => pattern.fill(1 << random.below(12)),
        2 => pattern[random.below(ROWS)] = random.word() % 4096,
        // Few dots, half of them, and most.
        3 => pattern.iter_mut().for_each(|row| *row = (random.word() & random.word() & random.word()) % 4096),
        4 => pattern.iter_mut().for_each(|row| *row = random.word() % 4096),
        5 => pattern.iter_mut().for_each(|row| *row = (random.word() | random.word() | random.word()) % 4096),
        _ => {
            let row_of = random.pick(PATTERNS);
            (0..ROWS).for_each(|row| pattern[row] = row_of(row));
        }
    }
    pattern
}

/// A font of one pattern, of two by turns, or with a pattern for each cell.
fn font(random: &mut Random) -> Vec<u16> {
    let patterns: Vec<_> = match random.below(4) {
        0 => vec![pattern(random)],
        1 => vec![pattern(random), pattern(random)],
        _ => (0..CELLS).map(|_| pattern(random)).collect(),
    };
    patterns.into_iter().cycle().take(CELLS).flatten().collect()
}

fn cell(random: &mut Random) -> u16 {
    if random.one_in(4) {
        space(random)
    } else {
        character(random)
    }
}

/// Rows of cells, each of so many at most, and after each a return.
fn rows_of(longest: usize, random: &mut Random) -> Vec<u16> {
    let mut words = Vec::new();
    while words.len() < 64 {
        let cells = random.between(1, longest);
        words.extend((0..cells).map(|_| cell(random)));
        words.push(a_return(random));
    }
    words.truncate(64);
    words
}

/// The words of a screen; `index` chooses the style, so that spaces, returns and ends come at every place.
fn words(index: u64, random: &mut Random) -> Vec<u16> {
    let place = (index / 8 % 64) as usize;
    let mut words: Vec<u16> = match index % 8 {
        // Rows of one cell; of a few; of one or a few, with empty rows among them.
        0 => rows_of(1, random),
        1 => rows_of(6, random),
        2 => {
            rows_of(3, random).into_iter().map(|word| if random.one_in(6) { a_return(random) } else { word }).collect()
        }
        // One row of all 64 words.
        3 => (0..64).map(|_| cell(random)).collect(),
        // Hardly a space.
        _ => (0..64).map(|_| if random.one_in(16) { space(random) } else { character(random) }).collect(),
    };
    match index % 8 {
        4 => words[place] = space(random),
        5 => words[place] = end(random),
        // The row after the return may end with word 63.
        6 => words[place] = a_return(random),
        7 => {
            words[place] = space(random);
            words[(place + 1) % 64] = space(random);
        }
        _ => {}
    }
    // As the second row it can have any size.
    if index % 8 >= 3 && random.one_in(4) {
        words.insert(0, a_return(random));
        words.truncate(64);
    }
    if index % 8 < 5 && random.one_in(3) {
        words[random.below(64)] = end(random);
    }
    words
}

fn settings(random: &mut Random) -> Settings {
    Settings { on: true, mode: 1, h: if random.one_in(4) { up_to(63, random) } else { 0 }, ..super::settings(random) }
}

/// Turns to a line of some cell, and to a width that mostly ends at that cell, beside it, or at the end of its row.
fn turn_to_a_shadow(scene: &mut Scene, cells: &[Cell], random: &mut Random) {
    let seen: Vec<&Cell> = cells.iter().filter(|cell| cell.top <= LAST_LINE && cell.left <= WIDEST).collect();
    if seen.is_empty() {
        return scene.turn_to_a_line(cells, random);
    }
    let any = seen[random.below(seen.len())];
    let last = seen.iter().rfind(|cell| cell.top == any.top).expect("it is one of them itself");
    let cell = if random.one_in(2) { last } else { any };
    let Cell { left, top, size, .. } = *cell;
    // The line after the last one too.
    let row = match random.below(8) {
        0 => 0,
        1 => 1,
        2 => 17,
        3 => 18,
        _ => random.below(18) as u32,
    };
    let (first, within) = (top + size * row, random.below(size as usize) as u32);
    let right = left + 12 * size;
    let width = match random.below(8) {
        0 => left + random.between(0, 2 * size as usize) as u32,
        1..=3 => right + random.between(0, 2 * size as usize) as u32,
        4 => right + 12 * size,
        5 => random.between(0, right as usize) as u32,
        6 => last.left + 25 * size,
        _ if random.one_in(4) => WIDEST,
        _ => right + 2,
    };
    scene.frame = frame(random);
    scene.line = (first + within).min(LAST_LINE);
    scene.width = width.min(WIDEST);
    scene.room = scene.width as usize + random.below(3);
}

pub fn screen_case(subject: &dyn Paint, index: u64, random: &mut Random) -> CaseResult {
    let settings = settings(random);
    let words = words(index, random);
    let cells = cells(&words, &settings);
    let mut scene = Scene { words, font: font(random), settings, frame: 0, line: 0, width: 0, room: 0 };
    for _ in 0..LINES_A_SCREEN {
        turn_to_a_shadow(&mut scene, &cells, random);
        scene.compare(subject, random)?;
    }
    Ok(LINES_A_SCREEN as u64)
}

#[cfg(test)]
mod tests {
    use super::*;
    use crate::compare::paint::{run, ONE_FOR_THE_SHADOW_IN, SCREENS, SCREENS_FROM};
    use crate::compare::testing::silent;
    use crate::compare::{Difference, Plan};
    use crate::fast::Fast;
    use crate::model::display::{blink_lit, kind, Glyph, Kind};
    use crate::model::image::lit;
    use crate::model::Model;
    use crate::parts::{Answer, PaintOrder};
    use std::cell::RefCell;
    use std::collections::BTreeSet;

    fn some(subject: &dyn Paint) -> Result<u64, Difference> {
        run(subject, &Plan { from: SCREENS_FROM, count: Some(2900), ..Plan::default() }, &mut silent)
    }

    /// A line with the cells of its screen, for painters that go by rows and columns.
    struct Line<'a> {
        order: &'a PaintOrder<'a>,
        cells: Vec<Cell>,
        /// For each cell the place of its word.
        words: Vec<usize>,
        shown: bool,
    }

    /// A dot of the line as one of the cells sees it.
    #[derive(Clone, Copy)]
    struct View<'a> {
        line: &'a Line<'a>,
        number: usize,
        cell: &'a Cell,
        /// The word after the cell's own, if there is one.
        next: Option<Kind>,
        dot: u32,
        /// The row and the column of the cell's font dots; there are such places all around the cell.
        row: i64,
        column: i64,
    }

    impl<'a> Line<'a> {
        fn of(order: &'a PaintOrder<'a>) -> Self {
            let Settings { ratio, frequency, .. } = order.settings;
            let kinds = order.words.iter().map(|&word| kind(word)).take_while(|kind| *kind != Kind::End);
            let of_cells = kinds.enumerate().filter(|(_, kind)| !matches!(kind, Kind::Return { .. }));
            let words = of_cells.map(|(place, _)| place).collect();
            let shown = blink_lit(ratio, frequency, order.frame);
            Line { order, cells: cells(order.words, &order.settings), words, shown }
        }

        fn view(&'a self, number: usize, dot: u32) -> View<'a> {
            let cell = &self.cells[number];
            let font_dots = |from: u32, to: u32| (i64::from(to) - i64::from(from)).div_euclid(i64::from(cell.size));
            let (row, column) = (font_dots(cell.top, self.order.line), font_dots(cell.left, dot));
            let next = self.order.words.get(self.words[number] + 1).map(|&word| kind(word));
            View { line: self, number, cell, next, dot, row, column }
        }

        /// The cell in which a dot is.
        fn at(&'a self, dot: u32) -> Option<View<'a>> {
            let mut views = (0..self.cells.len()).map(|number| self.view(number, dot));
            views.find(|view| (0..18).contains(&view.row) && (0..12).contains(&view.column))
        }

        fn lit(&self, dot: u32) -> bool {
            self.at(dot).is_some_and(|view| view.throws(view.row, view.column))
        }
    }

    impl View<'_> {
        /// Whether its character has this font dot, shown or not.
        fn font(&self, row: i64, column: i64) -> bool {
            let inside = (0..18).contains(&row) && (0..12).contains(&column);
            let bits = |glyph: Glyph| self.line.order.font[ROWS * usize::from(glyph.code) + row as usize];
            inside && self.cell.glyph.is_some_and(|glyph| lit(bits(glyph), column as usize))
        }

        fn is_space(&self) -> bool {
            self.cell.glyph.is_none()
        }

        fn blinked_out(&self) -> bool {
            !self.line.shown && self.cell.glyph.is_some_and(|glyph| glyph.blink)
        }

        /// Whether it throws the shadow of this font dot, wherever that falls.
        fn throws(&self, row: i64, column: i64) -> bool {
            !self.blinked_out() && self.font(row, column)
        }

        /// On a line of the cell, but not in its first row.
        fn under_a_row(&self) -> bool {
            (1..18).contains(&self.row)
        }

        /// The rule itself.
        fn right(&self) -> bool {
            self.under_a_row() && self.throws(self.row - 1, self.column - 1)
        }

        /// In the column right of the cell.
        fn beside(&self) -> bool {
            self.column == 12
        }

        /// Whether it throws a shadow beside the cell, in whatever column the dot is.
        fn hands_on(&self) -> bool {
            self.under_a_row() && self.throws(self.row - 1, 11)
        }

        /// The dot is in no cell at all.
        fn outside(&self) -> bool {
            self.line.at(self.dot).is_none()
        }
    }

    /// Paints mode 1 as mode 0 with a shadow by rules of its own, and the rest as the model.
    struct Painter {
        /// The modes in which there is a shadow.
        modes: &'static [u32],
        /// Whether a cell throws its shadow on a dot.
        throws: fn(&View) -> bool,
        /// The byte of a dot on which a cell throws its shadow, given the one without.
        lays: fn(&View, u8) -> u8,
    }

    const RIGHT: Painter =
        Painter { modes: &[1], throws: |it| it.right(), lays: |it, plain| if it.line.lit(it.dot) { plain } else { 8 } };

    impl Paint for Painter {
        fn paint(&self, order: &PaintOrder, dots: &mut [u8]) -> Answer {
            let mode = if order.settings.mode == 1 { 0 } else { order.settings.mode };
            let answer = Model.paint(&PaintOrder { settings: Settings { mode, ..order.settings }, ..*order }, dots);
            if answer.number != 0 || !order.settings.on || !self.modes.contains(&order.settings.mode) {
                return answer;
            }
            let line = Line::of(order);
            for (dot, byte) in (0..).zip(&mut dots[..order.width as usize]) {
                let mut views = (0..line.cells.len()).map(|number| line.view(number, dot));
                if let Some(view) = views.find(self.throws) {
                    *byte = (self.lays)(&view, *byte);
                }
            }
            answer
        }
    }

    #[test]
    fn a_painter_by_rows_and_columns_agrees_with_the_model() {
        some(&RIGHT).unwrap();
    }

    fn throws(throws: fn(&View) -> bool) -> Painter {
        Painter { throws, ..RIGHT }
    }

    fn lays(lays: fn(&View, u8) -> u8) -> Painter {
        Painter { lays, ..RIGHT }
    }

    fn in_modes(modes: &'static [u32]) -> Painter {
        Painter { modes, ..RIGHT }
    }

    #[test]
    fn every_planted_mistake_is_found() {
        let mistakes = [
            ("no shadow", in_modes(&[])),
            ("in mode 0", in_modes(&[0, 1])),
            ("in mode 2", in_modes(&[1, 2])),
            ("in mode 3", in_modes(&[1, 3])),
            (
                "one clock wide whatever the size",
                throws(|it| it.right() && (it.dot - it.cell.left) % it.cell.size == 0),
            ),
            (
                "one line high whatever the size",
                throws(|it| it.right() && (it.line.order.line - it.cell.top) % it.cell.size == 0),
            ),
            (
                "from one clock left and one line above",
                throws(|it| {
                    let Cell { left, top, size, .. } = *it.cell;
                    let (dot, line) = (i64::from(it.dot) - 1, i64::from(it.line.order.line) - 1);
                    let of_size = |from: u32, to: i64| (to - i64::from(from)).div_euclid(i64::from(size));
                    (0..18).contains(&it.row) && it.throws(of_size(top, line), of_size(left, dot))
                }),
            ),
            ("at sizes 2 and 4 only", throws(|it| it.right() && it.cell.size % 2 == 0)),
            ("two font dots deep", throws(|it| it.right() || (it.row < 18 && it.throws(it.row - 2, it.column - 2)))),
            ("from the north-east", throws(|it| it.row < 18 && it.throws(it.row - 1, it.column + 1))),
            ("from the north", throws(|it| it.row < 18 && it.throws(it.row - 1, it.column))),
            ("from the west, so on row 0 too", throws(|it| it.throws(it.row, it.column - 1))),
            ("from the south-west", throws(|it| it.row >= 0 && it.throws(it.row + 1, it.column - 1))),
            ("on row 0 by row 0", throws(|it| it.right() || (it.row == 0 && it.throws(0, it.column - 1)))),
            ("on row 0 by row 17", throws(|it| it.right() || (it.row == 0 && it.throws(17, it.column - 1)))),
            (
                "on row 0 by the row before it in the font",
                throws(|it| {
                    let row_before = |code: u16| it.line.order.font[(ROWS * usize::from(code)).max(1) - 1];
                    let before = it.cell.glyph.filter(|_| !it.blinked_out()).map_or(0, |glyph| row_before(glyph.code));
                    it.right() || (it.row == 0 && (1..13).contains(&it.column) && lit(before, it.column as usize - 1))
                }),
            ),
            ("not on row 1", throws(|it| it.right() && it.row != 1)),
            ("not on row 17", throws(|it| it.right() && it.row != 17)),
            (
                "from the row of cells above",
                throws(|it| it.right() || (it.row == 18 && !it.outside() && it.throws(17, it.column - 1))),
            ),
            (
                "below the bottom line",
                throws(|it| it.right() || (it.row == 18 && it.outside() && it.throws(17, it.column - 1))),
            ),
            ("not in column 0", throws(|it| it.right() && !it.beside())),
            ("not into the next cell", throws(|it| it.right() && (it.outside() || !it.beside()))),
            ("only into the next cell", throws(|it| it.right() && it.beside())),
            ("not after the last cell", throws(|it| it.right() && !(it.beside() && it.outside()))),
            (
                "two columns after the last cell",
                throws(|it| it.right() || (it.column == 13 && it.outside() && it.hands_on())),
            ),
            (
                "a cell's width after the last cell",
                throws(|it| it.right() || ((13..24).contains(&it.column) && it.outside() && it.hands_on())),
            ),
            (
                "lost at a return",
                throws(|it| it.right() && !(it.beside() && matches!(it.next, Some(Kind::Return { .. })))),
            ),
            ("lost at an end", throws(|it| it.right() && !(it.beside() && it.next == Some(Kind::End)))),
            ("lost after word 63", throws(|it| it.right() && !(it.beside() && it.next.is_none()))),
            (
                "carried over to the next row's first cell",
                throws(|it| {
                    let returns = matches!(it.next, Some(Kind::Return { .. }));
                    let first = it.line.at(it.dot).filter(|at| returns && at.number == it.number + 1 && at.column == 0);
                    it.right() || first.is_some_and(|first| first.row > 0 && it.throws(first.row - 1, 11))
                }),
            ),
            ("none on a space", throws(|it| it.right() && !it.line.at(it.dot).is_some_and(|at| at.is_space()))),
            (
                "none on a space with a colour",
                throws(|it| it.right() && !(it.beside() && matches!(it.next, Some(Kind::Space { background: 1.. })))),
            ),
            (
                "a space hands on what it was given",
                throws(|it| {
                    let over = it.column == 24 && matches!(it.next, Some(Kind::Space { .. }));
                    it.right() || (over && it.hands_on())
                }),
            ),
            (
                "thrown by a space as if it were full",
                throws(|it| it.right() || (it.is_space() && it.under_a_row() && (1..13).contains(&it.column))),
            ),
            (
                "thrown by a space as if it were the font's last cell",
                throws(|it| {
                    let inside = it.is_space() && it.under_a_row() && (1..13).contains(&it.column);
                    it.right()
                        || (inside && lit(it.line.order.font[61 * ROWS + it.row as usize - 1], it.column as usize - 1))
                }),
            ),
            ("thrown by a blinked-out character", throws(|it| it.under_a_row() && it.font(it.row - 1, it.column - 1))),
            (
                "thrown beside a blinked-out character",
                throws(|it| it.right() || (it.beside() && it.under_a_row() && it.font(it.row - 1, 11))),
            ),
            (
                "thrown by no blinking character",
                throws(|it| it.right() && !it.cell.glyph.is_some_and(|glyph| glyph.blink)),
            ),
            (
                "none on a blinked-out character",
                throws(|it| it.right() && !it.line.at(it.dot).is_some_and(|at| at.blinked_out())),
            ),
            (
                "none thrown by a black character",
                throws(|it| it.right() && it.cell.glyph.is_some_and(|glyph| glyph.colour != 0)),
            ),
            (
                "the colour of a space for black",
                lays(|it, plain| if it.line.lit(it.dot) { plain } else { 8 + it.cell.background as u8 }),
            ),
            (
                "the colour of a space for black where a space receives it",
                lays(|it, plain| {
                    let space = it.line.at(it.dot).filter(|at| at.is_space());
                    space.map_or((RIGHT.lays)(it, plain), |at| 8 + at.cell.background as u8)
                }),
            ),
            (
                "the starting colour for black",
                lays(|it, plain| if it.line.lit(it.dot) { plain } else { 8 + it.line.order.settings.colour as u8 }),
            ),
            ("over a lit dot", lays(|_, _| 8)),
            (
                "over a lit dot of the next cell",
                lays(|it, plain| if it.beside() { 8 } else { (RIGHT.lays)(it, plain) }),
            ),
            (
                "only where it is whole",
                throws(|it| {
                    let end = it.cell.left + (it.column + 1).max(0) as u32 * it.cell.size;
                    it.right() && end <= it.line.order.width
                }),
            ),
        ];
        for (name, painter) in mistakes {
            let difference = some(&painter).expect_err(name);
            assert!(difference.report.contains("words [") && difference.report.contains("font ["), "{name}");
        }
    }

    /// Notes what the shadows of mode 1 fall on.
    #[derive(Default)]
    struct Notes {
        /// How many lines in mode 1 there are.
        lines: RefCell<u64>,
        /// What is there and the size.
        falls_on: RefCell<BTreeSet<(&'static str, u32)>>,
        /// The font dots that throw it.
        thrown_by: RefCell<BTreeSet<(i64, i64)>>,
        /// The places of spaces and of the words that end a row, where a shadow falls on the first column.
        spaces: RefCell<BTreeSet<usize>>,
        ends: RefCell<BTreeSet<usize>>,
        returns: RefCell<BTreeSet<usize>>,
        /// How many clocks of a shadow are left by the width, and its size.
        cut: RefCell<BTreeSet<(u32, u32)>>,
    }

    impl Paint for Notes {
        fn paint(&self, order: &PaintOrder, dots: &mut [u8]) -> Answer {
            let answer = Fast.paint(order, dots);
            if answer.number == 0 && order.settings.on && order.settings.mode == 1 {
                *self.lines.borrow_mut() += 1;
                self.note(order, dots);
            }
            answer
        }
    }

    impl Notes {
        fn note(&self, order: &PaintOrder, dots: &[u8]) {
            let line = Line::of(order);
            for number in (0..line.cells.len()).filter(|&number| line.view(number, 0).under_a_row()) {
                let size = line.cells[number].size;
                let alone = line.cells.iter().filter(|cell| cell.top == line.cells[number].top).count() == 1;
                let (left, word) = (line.cells[number].left, line.words[number]);
                let black = (left..order.width.min(left + 13 * size)).filter(|&dot| dots[dot as usize] == 8);
                for dot in black {
                    let view = line.view(number, dot);
                    // A character may be black as well.
                    if !view.right() || line.lit(dot) {
                        continue;
                    }
                    self.thrown_by.borrow_mut().insert((view.row - 1, view.column - 1));
                    let beside = line.at(dot);
                    let what = match (view.next, beside) {
                        _ if !view.beside() => "its own cell",
                        (Some(Kind::Return { .. }), _) => {
                            self.returns.borrow_mut().insert(word + 1);
                            if alone {
                                "a row of one cell"
                            } else {
                                "after a row that a return ends"
                            }
                        }
                        (Some(Kind::End), _) => {
                            self.ends.borrow_mut().insert(word + 1);
                            "after a row that an end ends"
                        }
                        (None, _) => "after a row that ends with word 63",
                        (_, Some(next)) if next.is_space() => {
                            self.spaces.borrow_mut().insert(word + 1);
                            "a space"
                        }
                        (_, Some(next)) if next.blinked_out() => "a blinked-out character",
                        _ => "a character",
                    };
                    self.falls_on.borrow_mut().insert((what, size));
                    if dot + 1 == order.width {
                        self.cut.borrow_mut().insert(((dot - left) % size + 1, size));
                    }
                }
            }
        }
    }

    #[test]
    fn a_whole_run_has_200_000_lines_for_the_shadow() {
        let screens = (0..SCREENS).filter(|screen| screen % ONE_FOR_THE_SHADOW_IN == 0).count();
        assert!(screens * LINES_A_SCREEN >= 200_000);
    }

    #[test]
    fn shadows_of_every_font_dot_fall_on_everything() {
        let notes = Notes::default();
        let lines: u64 =
            (0..10_000).map(|index| screen_case(&notes, index, &mut Random::of_case(1, index)).unwrap()).sum();
        assert_eq!((lines, *notes.lines.borrow()), (80_000, 80_000));
        let falls_on = notes.falls_on.into_inner();
        for size in 1..5 {
            for what in [
                "its own cell",
                "a character",
                "a space",
                "a blinked-out character",
                "a row of one cell",
                "after a row that a return ends",
                "after a row that an end ends",
                "after a row that ends with word 63",
            ] {
                assert!(falls_on.contains(&(what, size)), "{what} at size {size}");
            }
        }
        let thrown_by = (0..17).flat_map(|row| (0..12).map(move |column| (row, column)));
        assert_eq!(notes.thrown_by.into_inner(), thrown_by.collect());
        // After a cell any place but the first.
        for places in [notes.spaces, notes.ends, notes.returns] {
            assert_eq!(places.into_inner(), (1..64).collect());
        }
        let cut = (1..5).flat_map(|size| (1..=size).map(move |left| (left, size)));
        assert_eq!(notes.cut.into_inner(), cut.collect());
    }
}
