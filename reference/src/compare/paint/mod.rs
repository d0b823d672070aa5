//! The painter: refusals alone and in pairs first, and fonts with each row too large in turn; then lines of hand-made and
//! random screens. Every third of these is in mode 1 and made for its shadow.

mod shadows;

use super::rooms::Rooms;
use super::rows::{self, SPOILT_FONTS};
use super::{run as drive, CaseResult, Difference, Part, Plan};
use crate::model::display::{cells, Cell};
use crate::model::image::{FONT_ROWS, ROWS};
use crate::model::Model;
use crate::parts::{Answer, Paint, PaintOrder, Settings};
use crate::random::Random;

const SCREENS: u64 = 75_000;
/// The share of the screens that are made for the shadow.
const ONE_FOR_THE_SHADOW_IN: u64 = 3;
const LINES_A_SCREEN: usize = 8;

/// Where the fonts with rows too large begin, and then the screens.
const ROWS_FROM: u64 = (FAULTS.len() * FAULTS.len()) as u64;
const SCREENS_FROM: u64 = ROWS_FROM + SPOILT_FONTS;

/// Everything one call is given.
#[derive(Clone, Debug)]
pub(super) struct Scene {
    pub words: Vec<u16>,
    pub font: Vec<u16>,
    pub settings: Settings,
    pub frame: u32,
    pub line: u32,
    pub width: u32,
    /// How many bytes are lent for the dots.
    pub room: usize,
}

impl Scene {
    fn order(&self) -> PaintOrder<'_> {
        PaintOrder {
            words: &self.words,
            font: &self.font,
            settings: self.settings,
            frame: self.frame,
            line: self.line,
            width: self.width,
        }
    }

    fn compare(&self, subject: &dyn Paint, random: &mut Random) -> Result<(), String> {
        self.hold(subject, random, |dots| Model.paint(&self.order(), dots))
    }

    /// Holds the subject to what `due` answers and lays.
    pub fn hold(
        &self,
        subject: &dyn Paint,
        random: &mut Random,
        due: impl FnOnce(&mut [u8]) -> Answer,
    ) -> Result<(), String> {
        let mut rooms = Rooms::of_bytes(self.room, random);
        let expected = due(rooms.model());
        let got = subject.paint(&self.order(), rooms.library());
        let what = if got != expected {
            format!("the answers differ\n  model   {expected:?}\n  library {got:?}")
        } else if let Some(difference) = rooms.difference() {
            format!(
                "the dots differ\n{difference}\n  model   {:?}\n  library {:?}",
                rooms.model().to_vec(),
                rooms.library()
            )
        } else {
            return Ok(());
        };
        let Scene { words, font, settings, frame, line, width, room } = self;
        let numbers = format!("frame {frame}, line {line}, width {width}, room {room}");
        Err(format!("{what}\n  settings {settings:?}\n  {numbers}\n  words {words:?}\n  font {font:?}"))
    }

    /// Turns to another line, often at the edge of one of the screen's cells.
    pub fn turn_to_a_line(&mut self, cells: &[Cell], random: &mut Random) {
        self.frame = frame(random);
        self.line = line(cells, random);
        self.width = width(cells, random);
        self.room = self.width as usize + if random.one_in(3) { 0 } else { random.between(1, 20) };
    }
}

/// The fonts the screens choose from: clear ones, in which a wrong row or column shows, and noise.
fn fonts() -> Vec<Vec<u16>> {
    let of = |row: &dyn Fn(usize, usize) -> u16| (0..FONT_ROWS).map(|at| row(at / ROWS, at % ROWS)).collect();
    let mut random = Random::new(0xF0);
    let mut fonts: Vec<Vec<u16>> = vec![
        of(&|_, _| 0),
        of(&|_, _| 4095),
        of(&|_, row| 1 << (row % 12)),
        of(&|cell, row| ((cell * 64 + row) % 4096) as u16),
        of(&|cell, _| if cell % 2 == 0 { 0xAAA } else { 0x555 }),
        of(&|_, row| if row == 0 || row == 17 { 4095 } else { 0x801 }),
    ];
    for _ in 0..4 {
        fonts.push((0..FONT_ROWS).map(|_| random.word() % 4096).collect());
    }
    fonts
}

fn character(random: &mut Random) -> u16 {
    let code = match random.below(6) {
        0 => 0,
        1 => 61,
        _ => random.below(62) as u16,
    };
    16 * code + random.word() % 16
}

fn space(random: &mut Random) -> u16 {
    1008 + 2 * random.below(8) as u16
}

fn a_return(random: &mut Random) -> u16 {
    992 + random.word() % 16
}

fn end(random: &mut Random) -> u16 {
    1009 + 2 * random.below(8) as u16
}

/// The words of a screen; `index` chooses the style, so that every special word comes at every place.
pub(super) fn words(index: u64, random: &mut Random) -> Vec<u16> {
    let style = index % 8;
    let turn = (index / 8) as usize;
    let mut words: Vec<u16> = (0..64)
        .map(|_| match style {
            // A screen as a maker would have it: text, some spaces, a few rows.
            0 => match random.below(24) {
                0 => a_return(random),
                1..=4 => space(random),
                _ => character(random),
            },
            // Rows of a cell or two, and many empty ones.
            1 => match random.below(3) {
                0 => a_return(random),
                1 if random.one_in(3) => space(random),
                _ => character(random),
            },
            // Hardly anything but returns.
            2 => {
                if random.one_in(8) {
                    character(random)
                } else {
                    a_return(random)
                }
            }
            // Any ten bits.
            3 => random.word() % 1024,
            4 => {
                if random.one_in(4) {
                    space(random)
                } else {
                    character(random)
                }
            }
            _ => character(random),
        })
        .collect();
    match style {
        5 => words[turn % 64] = [997, 995, 1009, 1016, 1007, 992][turn / 64 % 6],
        6 => {
            // Two special words, at any two places.
            let specials = [997, 995, 1009, 1016, 1004, 1023, 1000];
            words[turn % 64] = random.pick(&specials);
            words[random.below(64)] = random.pick(&specials);
        }
        7 if turn % 4 == 0 => {
            let word = random.word() % 1024;
            words.fill(word);
        }
        _ => {}
    }
    if style < 5 && random.one_in(3) {
        let place = random.below(64);
        words[place] = end(random);
    }
    words
}

/// A number from 0 to `last`, often one of the two ends.
fn up_to(last: u32, random: &mut Random) -> u32 {
    match random.below(6) {
        0 => 0,
        1 => last,
        _ => random.between(0, last as usize) as u32,
    }
}

pub(super) fn settings(random: &mut Random) -> Settings {
    // Mostly near the left edge, so that narrow lines reach the cells.
    let h = if random.one_in(3) { up_to(63, random) } else { random.below(4) as u32 };
    Settings {
        on: !random.one_in(16),
        mode: random.pick(&[0, 1, 2, 2, 2, 3, 3, 3]),
        colour: random.below(8) as u32,
        h,
        v: up_to(63, random),
        ratio: random.below(3) as u32,
        frequency: random.below(4) as u32,
    }
}

fn frame(random: &mut Random) -> u32 {
    match random.below(4) {
        0 => random.double_word(),
        1 => random.below(130) as u32,
        2 => random.pick(&[0, u32::MAX, u32::MAX - 1, u32::MAX - 127, u32::MAX - 128, 1 << 31, (1 << 31) - 1]),
        // Around the turn of the lit part.
        _ => {
            let divisor = random.pick(&[16, 32, 64, 128]);
            let turn = divisor * random.between(1, 4) / 4 + divisor * random.below(1000);
            (turn + random.below(3)).saturating_sub(1) as u32
        }
    }
}

/// A line at or next to the edge of a row, or inside one.
fn line(cells: &[Cell], random: &mut Random) -> u32 {
    if cells.is_empty() || random.one_in(12) {
        return up_to(1023, random);
    }
    let cell = cells[random.below(cells.len())];
    let height = 18 * cell.size;
    let line = match random.below(6) {
        0 => cell.top,
        1 => cell.top.saturating_sub(1),
        2 => cell.top + height - 1,
        3 => cell.top + height,
        _ => cell.top + random.below(height as usize) as u32,
    };
    if line <= 1023 {
        line
    } else {
        up_to(1023, random)
    }
}

fn width(cells: &[Cell], random: &mut Random) -> u32 {
    let width = match random.below(32) {
        0 => 0,
        1 => 1,
        2 => random.pick(&[1023, 1024]),
        3 => random.between(0, 1024) as u32,
        4..=9 if !cells.is_empty() => {
            let cell = cells[random.below(cells.len())];
            cell.left + random.between(0, 12 * cell.size as usize + 2) as u32
        }
        10..=15 if !cells.is_empty() => cells[0].left + random.between(0, 120) as u32,
        _ => random.between(1, 64) as u32,
    };
    width.min(1024)
}

fn screen_case(subject: &dyn Paint, fonts: &[Vec<u16>], index: u64, random: &mut Random) -> CaseResult {
    let settings = settings(random);
    let words = words(index, random);
    let cells = cells(&words, &settings);
    let mut scene =
        Scene { words, font: fonts[random.below(fonts.len())].clone(), settings, frame: 0, line: 0, width: 0, room: 0 };
    for _ in 0..LINES_A_SCREEN {
        scene.turn_to_a_line(&cells, random);
        scene.compare(subject, random)?;
    }
    Ok(LINES_A_SCREEN as u64)
}

/// Each spoils one thing in a good call.
const FAULTS: &[fn(&mut Scene)] = &[
    |_| {},
    |scene| scene.settings.on = false,
    |scene| scene.settings.mode = 4,
    |scene| scene.settings.mode = u32::MAX,
    |scene| scene.settings.mode = 1 << 31,
    |scene| scene.settings.colour = 8,
    |scene| scene.settings.colour = u32::MAX,
    |scene| scene.settings.h = 64,
    |scene| scene.settings.h = u32::MAX,
    |scene| scene.settings.h = 1 << 30,
    |scene| scene.settings.v = 64,
    |scene| scene.settings.v = u32::MAX,
    |scene| scene.settings.ratio = 3,
    |scene| scene.settings.ratio = 4,
    |scene| scene.settings.ratio = 259,
    |scene| scene.settings.ratio = u32::MAX,
    |scene| scene.settings.frequency = 4,
    |scene| scene.settings.frequency = u32::MAX,
    |scene| {
        scene.words.pop();
    },
    |scene| scene.words.push(0),
    |scene| scene.words.clear(),
    |scene| spoil(&mut scene.words, 0, 1024),
    |scene| spoil(&mut scene.words, 31, 0x8000),
    |scene| spoil(&mut scene.words, 63, u16::MAX),
    |scene| {
        scene.font.pop();
    },
    |scene| scene.font.push(0),
    |scene| scene.font.clear(),
    |scene| scene.font.truncate(1098),
    |scene| spoil(&mut scene.font, 0, 4096),
    |scene| spoil(&mut scene.font, 1, u16::MAX),
    |scene| spoil(&mut scene.font, 600, 0x8000),
    |scene| spoil(&mut scene.font, 1115, 4096),
    |scene| spoil(&mut scene.font, 1115, u16::MAX),
    |scene| spoil(&mut scene.font, 1116, 4096),
    |scene| scene.font.fill(4096),
    |scene| scene.line = 1023,
    |scene| scene.line = 1024,
    |scene| scene.line = u32::MAX,
    |scene| {
        scene.width = 1025;
        scene.room = 1030;
    },
    |scene| scene.width = 1025,
    |scene| scene.width = u32::MAX,
    |scene| {
        scene.width = 1024;
        scene.room = 1024;
    },
    |scene| scene.room = (scene.width.min(2000) as usize).saturating_sub(1),
    |scene| scene.room = 0,
    |scene| {
        scene.width = 0;
        scene.room = 0;
    },
];

fn spoil(list: &mut [u16], place: usize, value: u16) {
    if let Some(item) = list.get_mut(place) {
        *item = value;
    }
}

/// A call that nothing speaks against.
fn good_scene(fonts: &[Vec<u16>], random: &mut Random) -> Scene {
    let settings = settings(random);
    let words = words(random.number() % 8, random);
    let mut scene = Scene {
        words,
        font: fonts[random.below(fonts.len())].clone(),
        settings,
        frame: frame(random),
        line: up_to(1023, random),
        width: random.between(1, 100) as u32,
        room: 0,
    };
    scene.room = scene.width as usize + random.below(4);
    scene
}

fn fault_case(subject: &dyn Paint, fonts: &[Vec<u16>], index: u64, random: &mut Random) -> CaseResult {
    let (first, second) = (index as usize / FAULTS.len(), index as usize % FAULTS.len());
    let mut scene = good_scene(fonts, random);
    FAULTS[first](&mut scene);
    FAULTS[second](&mut scene);
    scene.compare(subject, random)?;
    // A third fault, so that the order is seen among more than two.
    FAULTS[random.below(FAULTS.len())](&mut scene);
    scene.compare(subject, random)?;
    Ok(2)
}

/// A font with rows too large, alone, with another fault, and with two.
fn rows_case(subject: &dyn Paint, fonts: &[Vec<u16>], number: u64, random: &mut Random) -> CaseResult {
    let mut scene = good_scene(fonts, random);
    rows::spoil(&mut scene.font, number, random);
    scene.compare(subject, random)?;
    for _ in 0..2 {
        FAULTS[random.below(FAULTS.len())](&mut scene);
        scene.compare(subject, random)?;
    }
    Ok(3)
}

pub fn run(subject: &dyn Paint, plan: &Plan, say: &mut dyn FnMut(String)) -> Result<u64, Difference> {
    let fonts = fonts();
    if plan.count.is_none() {
        say(format!("compare paint: {ROWS_FROM} pairs of faults"));
        say(format!("compare paint: {SPOILT_FONTS} fonts with rows too large"));
    }
    let part = Part {
        name: "paint",
        what: "refusals alone, in pairs and threes, then lines of made and random screens, a third for mode 1's shadow",
        cases: SCREENS_FROM + SCREENS,
        case: &|index, random| {
            if index < ROWS_FROM {
                return fault_case(subject, &fonts, index, random);
            }
            if index < SCREENS_FROM {
                return rows_case(subject, &fonts, index - ROWS_FROM, random);
            }
            let screen = index - SCREENS_FROM;
            if screen % ONE_FOR_THE_SHADOW_IN == 0 {
                shadows::screen_case(subject, screen / ONE_FOR_THE_SHADOW_IN, random)
            } else {
                screen_case(subject, &fonts, screen - screen / ONE_FOR_THE_SHADOW_IN - 1, random)
            }
        },
    };
    drive(&part, plan, say)
}

#[cfg(test)]
mod tests {
    use super::*;
    use crate::compare::testing::silent;
    use crate::fast::Fast;
    use std::cell::RefCell;
    use std::collections::BTreeSet;

    fn from(subject: &dyn Paint, from: u64, count: u64) -> Result<u64, Difference> {
        run(subject, &Plan { from, count: Some(count), ..Plan::default() }, &mut silent)
    }

    /// All refusals, and some of the screens.
    fn some(subject: &dyn Paint) -> Result<u64, Difference> {
        Ok(from(subject, 0, SCREENS_FROM)? + from(subject, SCREENS_FROM, 2900)?)
    }

    #[test]
    fn the_fast_one_agrees_with_the_model() {
        assert_eq!(some(&Fast).unwrap(), 2 * ROWS_FROM + 3 * SPOILT_FONTS + 8 * 2900);
    }

    /// Notes what the cases reach.
    #[derive(Default)]
    struct Notes {
        numbers: RefCell<BTreeSet<u32>>,
        dots: RefCell<BTreeSet<u8>>,
        sizes: RefCell<BTreeSet<u32>>,
        widths: RefCell<BTreeSet<u32>>,
    }

    impl Paint for Notes {
        fn paint(&self, order: &PaintOrder, dots: &mut [u8]) -> Answer {
            let answer = Fast.paint(order, dots);
            self.numbers.borrow_mut().insert(answer.number);
            if answer.number == 0 {
                self.dots.borrow_mut().extend(&dots[..order.width as usize]);
                self.widths.borrow_mut().insert(order.width);
                let cells = cells(order.words, &order.settings);
                let here = cells.iter().filter(|cell| cell.top <= order.line && order.line < cell.top + 18 * cell.size);
                self.sizes.borrow_mut().extend(here.map(|cell| cell.size));
            }
            answer
        }
    }

    #[test]
    fn the_cases_reach_every_number_colour_and_size() {
        let notes = Notes::default();
        some(&notes).unwrap();
        assert_eq!(notes.numbers.into_inner(), BTreeSet::from([0, 1, 2, 3, 4, 5, 6, 18]));
        assert_eq!(notes.dots.into_inner(), BTreeSet::from([0, 8, 9, 10, 11, 12, 13, 14, 15]));
        assert_eq!(notes.sizes.into_inner(), BTreeSet::from_iter(1..=4));
        let widths = notes.widths.into_inner();
        assert!([0, 1, 1023, 1024].iter().all(|width| widths.contains(width)));
    }

    /// Given the order, the room after the call and the answer, does damage to either.
    type Damage = fn(&PaintOrder, &mut [u8], Answer) -> Answer;

    /// The fast one with one mistake in it.
    struct Planted(Damage);

    impl Paint for Planted {
        fn paint(&self, order: &PaintOrder, dots: &mut [u8]) -> Answer {
            let answer = Fast.paint(order, dots);
            (self.0)(order, dots, answer)
        }
    }

    #[test]
    fn every_planted_mistake_is_found() {
        let mistakes: &[(&str, Damage)] = &[
            ("always refuses", |_, _, _| Answer::refused(1, 0)),
            ("a constant line", |order, dots, answer| {
                if answer.number == 0 {
                    dots[..order.width as usize].fill(0);
                }
                answer
            }),
            ("a byte past the width", |order, dots, answer| {
                if answer.number == 0 && dots.len() > order.width as usize {
                    dots[order.width as usize] = 0;
                }
                answer
            }),
            ("a refusal that touches", |_, dots, answer| {
                if answer.number != 0 && !dots.is_empty() {
                    dots[0] = 0;
                }
                answer
            }),
            ("rooms judged before lines", |order, dots, answer| {
                if answer.number == 5 && dots.len() < order.width as usize {
                    Answer::refused(6, 0)
                } else {
                    answer
                }
            }),
            ("ratio 3 let through when off", |order, dots, answer| {
                if answer.number == 2 && !order.settings.on {
                    let settings = Settings { ratio: 0, ..order.settings };
                    return Fast.paint(&PaintOrder { settings, ..*order }, dots);
                }
                answer
            }),
            ("blinking cell loses its background", |order, dots, answer| {
                if answer.number == 0 && order.settings.mode == 2 {
                    let mut font = order.font.to_vec();
                    font.fill(4095);
                    let lit = PaintOrder { font: &font, ..*order };
                    let mut full = vec![0; order.width as usize];
                    Fast.paint(&lit, &mut full);
                    if full.first() == dots.first()
                        && order.settings.h == 0
                        && order.words[0] % 2 == 1
                        && order.width > 0
                    {
                        dots[0] = 0;
                    }
                }
                answer
            }),
        ];
        for (name, mistake) in mistakes {
            let difference = some(&Planted(*mistake)).expect_err(name);
            assert!(difference.report.contains("words [") && difference.report.contains("font ["));
        }
    }

    /// What a painter answers for which only these rows are too large.
    fn taken(order: &PaintOrder, dots: &mut [u8], too_large: fn(u16) -> bool) -> Answer {
        match order.font.iter().position(|&row| too_large(row)) {
            Some(row) => Answer::refused(18, row as u32),
            None => {
                let cut: Vec<u16> = order.font.iter().map(|row| row & 4095).collect();
                Fast.paint(&PaintOrder { font: &cut, ..*order }, dots)
            }
        }
    }

    /// The first row too large.
    fn bad_row(order: &PaintOrder) -> Option<u32> {
        order.font.iter().position(|&row| row > 4095).map(|row| row as u32)
    }

    /// Tells another place where the right painter tells a row.
    fn retold(answer: Answer, place: u32) -> Answer {
        if answer.number == 18 {
            Answer::refused(18, place)
        } else {
            answer
        }
    }

    /// A painter that looks at the rows before it looks for the refusal of this number.
    fn rows_before(number: u32, order: &PaintOrder, answer: Answer) -> Answer {
        let row = bad_row(order).filter(|_| answer.number == number && order.font.len() == FONT_ROWS);
        row.map_or(answer, |row| Answer::refused(18, row))
    }

    /// Mistakes about the rows of a font.
    const ROW_MISTAKES: &[(&str, Damage)] = &[
        ("the old number", |_, _, answer| if answer.number == 18 { Answer::refused(4, 0) } else { answer }),
        ("18 for the length too", |_, _, answer| if answer.number == 4 { Answer::refused(18, 0) } else { answer }),
        ("the length as the place", |order, _, answer| match answer.number {
            4 => Answer::refused(4, order.font.len() as u32),
            _ => answer,
        }),
        ("without the row", |_, _, answer| retold(answer, 0)),
        ("counted from 1", |_, _, answer| retold(answer, answer.place + 1)),
        ("the last row too large", |order, _, answer| {
            retold(answer, order.font.iter().rposition(|&row| row > 4095).unwrap_or(0) as u32)
        }),
        ("the largest row", |order, _, answer| {
            let largest = order.font.iter().max();
            retold(answer, order.font.iter().position(|row| Some(row) == largest).unwrap_or(0) as u32)
        }),
        ("the cell", |_, _, answer| retold(answer, answer.place / 18)),
        ("the row in the cell", |_, _, answer| retold(answer, answer.place % 18)),
        ("the row's place in bytes", |_, _, answer| retold(answer, 2 * answer.place)),
        ("8 bits of the row", |_, _, answer| retold(answer, answer.place % 256)),
        ("18 before the length", |order, _, answer| match (answer.number, bad_row(order)) {
            (4, Some(row)) => Answer::refused(18, row),
            _ => answer,
        }),
        ("18 before 1", |order, _, answer| rows_before(1, order, answer)),
        ("18 before 2", |order, _, answer| rows_before(2, order, answer)),
        ("18 before 3", |order, _, answer| rows_before(3, order, answer)),
        ("5 before 18", |order, _, answer| match answer.number {
            18 if order.line > 1023 || order.width > 1024 => Answer::refused(5, 0),
            _ => answer,
        }),
        ("5 before 4", |order, _, answer| match answer.number {
            4 if order.line > 1023 || order.width > 1024 => Answer::refused(5, 0),
            _ => answer,
        }),
        ("6 before 18", |order, dots, answer| match answer.number {
            18 if order.line <= 1023 && order.width <= 1024 && dots.len() < order.width as usize => {
                Answer::refused(6, 0)
            }
            _ => answer,
        }),
        ("4096 taken", |order, dots, answer| match answer.number {
            18 => taken(order, dots, |row| row > 4096),
            _ => answer,
        }),
        ("the sign taken for a small row", |order, dots, answer| match answer.number {
            18 => taken(order, dots, |row| row as i16 > 4095),
            _ => answer,
        }),
        ("only bit 12 looked at", |order, dots, answer| match answer.number {
            18 => taken(order, dots, |row| row & 4096 != 0),
            _ => answer,
        }),
        ("the last row not looked at", |order, dots, answer| match (answer.number, bad_row(order)) {
            (18, Some(1115)) => taken(order, dots, |_| false),
            _ => answer,
        }),
        ("not looked at when off", |order, dots, answer| match answer.number {
            18 if !order.settings.on => taken(order, dots, |_| false),
            _ => answer,
        }),
        ("not looked at for a width of 0", |order, dots, answer| match answer.number {
            18 if order.width == 0 => taken(order, dots, |_| false),
            _ => answer,
        }),
        ("only cells of the screen looked at", |order, dots, answer| {
            let row = bad_row(order).unwrap_or(0) as usize;
            let shown = order.words.iter().any(|&word| usize::from(word / 16) == row / 18);
            match answer.number {
                18 if !shown => taken(order, dots, |_| false),
                _ => answer,
            }
        }),
        ("a refusal that touches", |_, dots, answer| {
            if answer.number == 18 && !dots.is_empty() {
                dots[0] ^= 1;
            }
            answer
        }),
    ];

    #[test]
    fn every_planted_mistake_about_rows_is_found() {
        for (name, mistake) in ROW_MISTAKES {
            from(&Planted(*mistake), ROWS_FROM, SPOILT_FONTS).expect_err(name);
            // Those about the order are found among the pairs as well.
            if name.contains("before") {
                from(&Planted(*mistake), 0, ROWS_FROM).expect_err(name);
            }
        }
    }

    /// The model itself, but with words changed before they are read, as a wrong decoder would see them.
    struct Misread(fn(u16) -> u16);

    impl Paint for Misread {
        fn paint(&self, order: &PaintOrder, dots: &mut [u8]) -> Answer {
            let words: Vec<u16> =
                order.words.iter().map(|&word| if word < 1024 { (self.0)(word) } else { word }).collect();
            Model.paint(&PaintOrder { words: &words, ..*order }, dots)
        }
    }

    #[test]
    fn a_misread_word_is_found() {
        // Size 4 taken as 3, spacing 12 as 8, an end taken for a space, red and blue exchanged in one colour.
        let mistakes: [fn(u16) -> u16; 4] = [
            |word| if (1004..1008).contains(&word) { word - 4 } else { word },
            |word| if word == 995 { 994 } else { word },
            |word| if word == 1023 { 1022 } else { word },
            |word| if word / 16 == 17 && word % 16 == 8 { word - 6 } else { word },
        ];
        for mistake in mistakes {
            some(&Misread(mistake)).unwrap_err();
        }
    }
}
