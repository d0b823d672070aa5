//! The packer, and the pictures that packed screens show.
//!
//! First a glyph that differs from all others in one dot, at each of the 216 places; then refusals alone, in pairs and
//! threes; then sets of glyphs drawn at random. With every eighth of these go lines of a screen of its glyphs: the
//! library paints it by their cells, the model draws it by the glyphs, and both have to be the same picture.

mod sets;

use super::paint::{self, Scene};
use super::rooms::{judge, Rooms};
use super::{run as drive, CaseResult, Difference, Part, Plan};
use crate::model::display::{cells_of, kind, Kind};
use crate::model::image::{COLUMNS, FONT_ROWS, ROWS};
use crate::model::pack::{drawn, picture, DrawnGlyph, MOST_GLYPHS};
use crate::model::Model;
use crate::parts::{Answer, Pack, Paint, Settings};
use crate::random::Random;
use sets::{EMPTY, FULL, KINS};

const DOTS: u64 = (ROWS * COLUMNS) as u64;
/// Each dot in the first, a middle and the last glyph, over an empty, a full and two other patterns.
const ONE_DOT: u64 = DOTS * 3 * 4;
const RANDOM: u64 = 120_000;
const SETS_A_SCREEN: u64 = 8;
const LINES_A_SCREEN: u64 = 3;

/// Everything one call is given, but what the rooms hold.
#[derive(Clone, Debug)]
struct Order {
    glyphs: Vec<u16>,
    /// How many rows the room for the font has beyond those of a font, or lacks.
    font: i64,
    /// How many places there are beyond one for each whole glyph, or lack.
    cells: i64,
}

/// What a packer gives.
struct Packed {
    font: Vec<u16>,
    cells: Vec<u8>,
}

impl Order {
    fn compare(&self, subject: &dyn Pack, random: &mut Random) -> Result<Packed, String> {
        let room = |due: usize, beyond: i64| (due as i64).saturating_add(beyond).max(0) as usize;
        let glyphs = self.glyphs.len() / ROWS;
        let mut font = Rooms::of_rows(room(FONT_ROWS, self.font), random);
        let mut cells = Rooms::of_bytes(room(glyphs, self.cells), random);
        let answers = [
            Model.pack(&self.glyphs, font.model(), cells.model()),
            subject.pack(&self.glyphs, font.library(), cells.library()),
        ];
        let in_font = font.difference().map(|difference| format!("  font\n{difference}"));
        let difference = in_font.or_else(|| cells.difference().map(|difference| format!("  cells\n{difference}")));
        judge(answers, difference, || {
            let rooms = format!("room for {} rows and {} cells", font.model().len(), cells.model().len());
            format!("pack, {rooms}, {} rows {:?}", self.glyphs.len(), self.glyphs)
        })?;
        Ok(Packed { font: font.library().to_vec(), cells: cells.library().to_vec() })
    }
}

/// One glyph among others that are alike, all but one dot.
fn one_dot_case(subject: &dyn Pack, index: u64, random: &mut Random) -> CaseResult {
    let dot = (index % DOTS) as usize;
    let (place, base) = (index / DOTS % 3, index / DOTS / 3);
    let pattern = match base {
        0 => EMPTY,
        1 => FULL,
        2 => sets::any_pattern(random),
        _ => sets::noise(random),
    };
    let mut list = vec![pattern; random.between(3, 12)];
    let other = match place {
        0 => 0,
        1 => random.between(1, list.len() - 2),
        _ => list.len() - 1,
    };
    list[other][dot / COLUMNS] ^= 1 << (dot % COLUMNS);
    Order { glyphs: list.concat(), font: 0, cells: 0 }.compare(subject, random)?;
    Ok(1)
}

/// Makes the rows of so many whole glyphs, those that are there round and round.
fn to_glyphs(order: &mut Order, glyphs: usize) {
    let rows = if order.glyphs.is_empty() { EMPTY.to_vec() } else { order.glyphs.clone() };
    order.glyphs = rows.into_iter().cycle().take(ROWS * glyphs).collect();
}

/// Makes glyphs that show so many patterns; as many glyphs as there are, unless these are too few.
fn to_patterns(order: &mut Order, patterns: usize, random: &mut Random) {
    let family = sets::family(random.pick(KINS), patterns, random);
    let glyphs = (order.glyphs.len() / ROWS).clamp(patterns, MOST_GLYPHS.max(patterns));
    order.glyphs = family.into_iter().cycle().take(glyphs).flatten().collect();
}

/// The row at a place, counted from the end if below 0, becomes this.
fn spoil(order: &mut Order, place: isize, row: u16) {
    let place = if place < 0 { order.glyphs.len().checked_add_signed(place) } else { Some(place as usize) };
    if let Some(spoilt) = place.and_then(|place| order.glyphs.get_mut(place)) {
        *spoilt = row;
    }
}

fn spoil_any(order: &mut Order, row: u16, random: &mut Random) {
    let place = random.below(order.glyphs.len().max(1));
    spoil(order, place as isize, row);
}

type Fault = fn(&mut Order, &mut Random);

/// Each spoils one thing in a good call, or takes it to the last value that is good.
const FAULTS: &[Fault] = &[
    |_, _| {},
    |order, _| {
        order.glyphs.pop();
    },
    |order, _| order.glyphs.push(0),
    |order, _| order.glyphs.extend([7; ROWS - 1]),
    |order, _| order.glyphs.truncate(ROWS - 1),
    |order, _| order.glyphs.truncate(1),
    |order, _| order.glyphs.clear(),
    |order, _| to_glyphs(order, 1),
    |order, _| to_glyphs(order, 255),
    |order, _| to_glyphs(order, 256),
    |order, _| to_glyphs(order, 257),
    |order, _| to_glyphs(order, 512),
    |order, _| to_glyphs(order, 3641),
    // Cut to 16 bits, these two are lengths that are taken.
    |order, _| order.glyphs.resize(1 << 16, 0),
    |order, _| order.glyphs.resize((1 << 16) + ROWS, 0),
    |order, _| spoil(order, 0, 4095),
    |order, _| spoil(order, -1, 4095),
    |order, _| spoil(order, 0, 4096),
    |order, _| spoil(order, -1, 4096),
    |order, random| spoil_any(order, 4096, random),
    |order, _| spoil(order, 0, u16::MAX),
    |order, _| spoil(order, -1, u16::MAX),
    |order, random| spoil_any(order, u16::MAX, random),
    |order, random| spoil_any(order, 0x8000, random),
    |order, random| to_patterns(order, 61, random),
    |order, random| to_patterns(order, 62, random),
    |order, random| to_patterns(order, 63, random),
    |order, random| to_patterns(order, 64, random),
    |order, random| to_patterns(order, 256, random),
    |order, random| to_patterns(order, 257, random),
    |order, _| order.font = i64::MIN,
    |order, _| order.font = -18,
    |order, _| order.font = -1,
    |order, _| order.font = 1,
    |order, _| order.font = 60,
    |order, _| order.font = (1 << 16) - 1,
    |order, _| order.cells = i64::MIN,
    |order, _| order.cells = -1,
    |order, _| order.cells = 1,
    |order, _| order.cells = 60,
    |order, _| order.cells = (1 << 8) - 1,
    |order, _| order.cells = (1 << 16) - 1,
];

fn fault_case(subject: &dyn Pack, index: u64, random: &mut Random) -> CaseResult {
    let (first, second) = (index as usize / FAULTS.len(), index as usize % FAULTS.len());
    let (patterns, glyphs) = (random.between(1, 6), random.between(6, 20));
    let family = sets::family(random.pick(KINS), patterns, random);
    let glyphs = sets::arranged(&family, glyphs, random).concat();
    let mut order = Order { glyphs, font: 0, cells: 0 };
    FAULTS[first](&mut order, random);
    FAULTS[second](&mut order, random);
    order.compare(subject, random)?;
    // A third fault, so that the order is seen among more than two.
    random.pick(FAULTS)(&mut order, random);
    order.compare(subject, random)?;
    Ok(2)
}

/// How far a room is from what is due.
fn beyond(random: &mut Random) -> i64 {
    match random.below(16) {
        0 => -1,
        1 => 1,
        2 | 3 => random.between(2, 60) as i64,
        4 => -(random.between(1, 1116) as i64),
        _ => 0,
    }
}

fn set_case(subject: &dyn Pack, index: u64, random: &mut Random) -> CaseResult {
    let kin = KINS[index as usize % KINS.len()];
    let mut order = Order { glyphs: sets::any_set(kin, random), font: beyond(random), cells: beyond(random) };
    match random.below(24) {
        0 => {
            let rows = random.below(order.glyphs.len() + 1);
            order.glyphs.truncate(rows);
        }
        1 => order.glyphs.extend(vec![0; random.between(1, ROWS - 1)]),
        2 | 3 => {
            let row = random.pick(&[4095, 4096, 4096, 4097, 0x2000, 0x8000, u16::MAX]);
            match random.below(3) {
                0 => spoil(&mut order, 0, row),
                1 => spoil(&mut order, -1, row),
                _ => spoil_any(&mut order, row, random),
            }
        }
        _ => {}
    }
    order.compare(subject, random)?;
    Ok(1)
}

/// A screen whose characters name drawn glyphs.
struct Screen {
    /// The words that do not stand for characters are as they will be painted; of the others only the attributes count.
    words: Vec<u16>,
    /// For each word the glyph that it names, if it is a character.
    names: Vec<usize>,
    settings: Settings,
}

impl Screen {
    fn of_glyphs(glyphs: usize, index: u64, random: &mut Random) -> Self {
        let name = |random: &mut Random| match random.below(6) {
            0 => 0,
            1 => glyphs - 1,
            _ => random.below(glyphs),
        };
        let words = paint::words(index, random);
        let names = words.iter().map(|_| name(random)).collect();
        let mut settings = paint::settings(random);
        // More often than elsewhere in mode 1, where a dot hangs on two glyphs.
        if random.one_in(4) {
            settings.mode = 1;
        }
        Screen { words, names, settings }
    }

    fn kinds(&self) -> Vec<Kind> {
        let named = |word: u16, name: usize| match kind(word) {
            Kind::Character { colour, blink, .. } => Kind::Character { code: name as u16, colour, blink },
            other => other,
        };
        self.words.iter().zip(&self.names).map(|(&word, &name)| named(word, name)).collect()
    }

    /// The words by which a painter shows the screen, given the cells.
    fn packed(&self, cells: &[u8]) -> Vec<u16> {
        let packed = |word: u16, name: usize| match kind(word) {
            Kind::Character { .. } => 16 * u16::from(cells[name]) + word % 16,
            _ => word,
        };
        self.words.iter().zip(&self.names).map(|(&word, &name)| packed(word, name)).collect()
    }
}

/// Some lines of the screen as packed, against the picture of the glyphs.
fn compare_lines(
    subject: &dyn Paint,
    screen: &Screen,
    glyphs: &[DrawnGlyph],
    packed: &Packed,
    random: &mut Random,
) -> CaseResult {
    let kinds = screen.kinds();
    let places = cells_of(&kinds, &screen.settings);
    let (words, font) = (screen.packed(&packed.cells), packed.font[..FONT_ROWS].to_vec());
    let mut scene = Scene { words, font, settings: screen.settings, frame: 0, line: 0, width: 0, room: 0 };
    for _ in 0..LINES_A_SCREEN {
        scene.turn_to_a_line(&places, random);
        let outcome = scene.hold(subject, random, |dots| {
            let room = &mut dots[..scene.width as usize];
            picture(&kinds, glyphs, &scene.settings, scene.frame, scene.line, room);
            Answer::accepted(0)
        });
        outcome.map_err(|report| format!("a packed screen: {report}\n  glyphs named {:?}", screen.names))?;
    }
    Ok(LINES_A_SCREEN)
}

fn screen_case<S: Pack + Paint>(subject: &S, index: u64, random: &mut Random) -> CaseResult {
    let glyphs = sets::packable_set(KINS[index as usize % KINS.len()], random);
    let order = Order { glyphs, font: beyond(random).max(0), cells: beyond(random).max(0) };
    let packed = order.compare(subject, random)?;
    let glyphs = drawn(&order.glyphs);
    let screen = Screen::of_glyphs(glyphs.len(), index, random);
    let lines = compare_lines(subject, &screen, &glyphs, &packed, random);
    Ok(1 + lines.map_err(|report| format!("{report}\n  drawn as {:?}", order.glyphs))?)
}

pub fn run<S: Pack + Paint>(subject: &S, plan: &Plan, say: &mut dyn FnMut(String)) -> Result<u64, Difference> {
    let faults = (FAULTS.len() * FAULTS.len()) as u64;
    let part = Part {
        name: "pack",
        what: "glyphs one dot apart, refusals alone, in pairs and threes, then random sets and lines of their screens",
        cases: ONE_DOT + faults + RANDOM,
        case: &|index, random| {
            if index < ONE_DOT {
                one_dot_case(subject, index, random)
            } else if index < ONE_DOT + faults {
                fault_case(subject, index - ONE_DOT, random)
            } else {
                let number = index - ONE_DOT - faults;
                if number % SETS_A_SCREEN == 0 {
                    screen_case(subject, number / SETS_A_SCREEN, random)
                } else {
                    set_case(subject, number, random)
                }
            }
        },
    };
    drive(&part, plan, say)
}

#[cfg(test)]
mod tests {
    use super::*;
    use crate::compare::testing::silent;
    use crate::fast::Fast;
    use crate::parts::PaintOrder;
    use std::cell::RefCell;
    use std::collections::{BTreeMap, BTreeSet, HashMap, HashSet};
    use std::hash::Hash;

    const RANDOM_FROM: u64 = ONE_DOT + (FAULTS.len() * FAULTS.len()) as u64;

    fn some<S: Pack + Paint>(subject: &S, from: u64, count: u64) -> Result<u64, Difference> {
        run(subject, &Plan { from, count: Some(count), ..Plan::default() }, &mut silent)
    }

    #[test]
    fn the_fast_one_agrees_with_the_model() {
        assert!(some(&Fast, 0, RANDOM_FROM + 8000).unwrap() > RANDOM_FROM + 8000);
    }

    /// How many different glyphs there are.
    fn patterns(glyphs: &[u16]) -> usize {
        glyphs.chunks_exact(ROWS).collect::<HashSet<_>>().len()
    }

    /// Notes what the cases reach.
    #[derive(Default)]
    struct Notes {
        numbers: RefCell<BTreeMap<u32, u32>>,
        /// Of accepted calls and of those refused for the number of glyphs.
        glyphs: RefCell<BTreeMap<usize, u32>>,
        /// Of calls that are not refused with 16.
        patterns: RefCell<BTreeMap<usize, u32>>,
        /// The room for the font, less what is due, with the answer's number; and that for the cells.
        font_rooms: RefCell<BTreeSet<(i64, u32)>>,
        cell_rooms: RefCell<BTreeSet<(i64, u32)>>,
        /// The row and column of the one dot in which one glyph differs from all others, and where that glyph is.
        apart: RefCell<BTreeSet<(usize, u32, usize)>>,
        /// The first, a middle and the last place, if an empty glyph is there.
        empty: RefCell<BTreeSet<usize>>,
        lines: RefCell<u64>,
        shown: RefCell<BTreeSet<(u32, u8)>>,
        sizes: RefCell<BTreeSet<u32>>,
        blinked: RefCell<BTreeSet<bool>>,
        widths: RefCell<BTreeSet<u32>>,
    }

    fn count<K: Ord>(notes: &RefCell<BTreeMap<K, u32>>, key: K) {
        *notes.borrow_mut().entry(key).or_default() += 1;
    }

    impl Pack for Notes {
        fn pack(&self, glyphs: &[u16], font: &mut [u16], cells: &mut [u8]) -> Answer {
            let answer = Fast.pack(glyphs, font, cells);
            let all = glyphs.len() / ROWS;
            count(&self.numbers, answer.number);
            if answer.number == 0 || (all > MOST_GLYPHS && glyphs.len() % ROWS == 0) {
                count(&self.glyphs, all);
            }
            if answer.number != 16 {
                count(&self.patterns, patterns(glyphs));
            }
            self.font_rooms.borrow_mut().insert((font.len() as i64 - FONT_ROWS as i64, answer.number));
            self.cell_rooms.borrow_mut().insert((cells.len() as i64 - all as i64, answer.number));
            let list: Vec<&[u16]> = glyphs.chunks_exact(ROWS).collect();
            if answer.number == 0 && answer.value == 2 && all > 2 {
                let place = |at| usize::from(at > 0) + usize::from(at == all - 1);
                let times = |glyph| list.iter().filter(|&&other| other == glyph).count();
                let rare = (0..all).find(|&at| times(list[at]) == 1);
                let often = (0..all).find(|&at| times(list[at]) == all - 1);
                if let (Some(rare), Some(often)) = (rare, often) {
                    let changed: Vec<u16> =
                        list[rare].iter().zip(list[often]).map(|(one, other)| one ^ other).collect();
                    if changed.iter().map(|row| row.count_ones()).sum::<u32>() == 1 {
                        let row = changed.iter().position(|&row| row != 0).unwrap();
                        self.apart.borrow_mut().insert((row, changed[row].ilog2(), place(rare)));
                    }
                }
            }
            if answer.number == 0 && answer.value > 1 && all > 2 {
                let places = [0, all / 2, all - 1].into_iter().enumerate();
                let empty = places.filter(|&(_, at)| list[at] == EMPTY).map(|(place, _)| place);
                self.empty.borrow_mut().extend(empty);
            }
            answer
        }
    }

    impl Paint for Notes {
        fn paint(&self, order: &PaintOrder, dots: &mut [u8]) -> Answer {
            let answer = Fast.paint(order, dots);
            *self.lines.borrow_mut() += 1;
            let mode = if order.settings.on { order.settings.mode } else { 4 };
            let shown = dots[..order.width as usize].iter().map(|&dot| (mode, dot));
            self.shown.borrow_mut().extend(shown);
            let cells = crate::model::display::cells(order.words, &order.settings);
            for cell in cells.iter().filter(|cell| cell.top <= order.line && order.line < cell.top + 18 * cell.size) {
                self.sizes.borrow_mut().insert(cell.size);
                self.blinked.borrow_mut().extend(cell.glyph.map(|glyph| glyph.blink));
            }
            self.widths.borrow_mut().insert(order.width);
            answer
        }
    }

    #[test]
    fn the_cases_reach_every_number_count_room_and_picture() {
        let notes = Notes::default();
        some(&notes, 0, RANDOM_FROM + 12_000).unwrap();
        let numbers = notes.numbers.into_inner();
        assert!([0, 6, 16, 17].iter().all(|number| numbers[number] > 500), "{numbers:?}");
        assert_eq!(numbers.len(), 4);
        let glyphs = notes.glyphs.into_inner();
        assert!([0, 1, 2, 61, 62, 63, 255, 256, 257, 512].iter().all(|count| glyphs[count] > 20), "{glyphs:?}");
        let patterns = notes.patterns.into_inner();
        assert!([0, 1, 2, 61, 62, 63, 64, 256].iter().all(|count| patterns[count] > 20), "{patterns:?}");
        // At and around the bounds, accepted or refused by the room; and refused for more than a room too short.
        let (font, cells) = (notes.font_rooms.into_inner(), notes.cell_rooms.into_inner());
        for rooms in [&font, &cells] {
            assert!([-1, 0, 1, 60, 65_535]
                .map(|beyond| (beyond, 6 * u32::from(beyond < 0)))
                .iter()
                .all(|room| rooms.contains(room)));
            assert!([(-1, 16), (-1, 17), (0, 16), (0, 17)].iter().all(|room| rooms.contains(room)));
        }
        assert!(font.contains(&(-1116, 6)) && cells.contains(&(-256, 6)) && cells.contains(&(255, 0)));
        // All 216 dots in the first, a middle and the last place.
        assert_eq!(notes.apart.into_inner().len(), 3 * ROWS * COLUMNS);
        assert_eq!(notes.empty.into_inner(), BTreeSet::from([0, 1, 2]));
        assert!(notes.lines.into_inner() >= 4500);
        let mut shown: BTreeSet<(u32, u8)> = [0, 1, 2].iter().map(|&mode| (mode, 0)).collect();
        shown.extend((0..4).flat_map(|mode| (8..16).map(move |dot| (mode, dot))));
        shown.insert((4, 0));
        assert_eq!(notes.shown.into_inner(), shown);
        assert_eq!(notes.sizes.into_inner(), BTreeSet::from([1, 2, 3, 4]));
        assert_eq!(notes.blinked.into_inner().len(), 2);
        assert!([0, 1, 1023, 1024].iter().all(|width| notes.widths.borrow().contains(width)));
    }

    #[test]
    fn there_are_as_many_packs_and_lines_as_are_told() {
        let screens = RANDOM.div_ceil(SETS_A_SCREEN);
        assert!(RANDOM >= 100_000 && screens * LINES_A_SCREEN >= 20_000);
    }

    type Packer = fn(&[u16], &mut [u16], &mut [u8]) -> Answer;

    /// A stand-in with one mistake in packing, and none in painting.
    struct Planted(Packer);

    impl Pack for Planted {
        fn pack(&self, glyphs: &[u16], font: &mut [u16], cells: &mut [u8]) -> Answer {
            (self.0)(glyphs, font, cells)
        }
    }

    impl Paint for Planted {
        fn paint(&self, order: &PaintOrder, dots: &mut [u8]) -> Answer {
            Fast.paint(order, dots)
        }
    }

    /// Takes glyphs for alike if they have the same key.
    fn by_key<K: Hash + Eq>(key: impl Fn(&[u16]) -> K, glyphs: &[u16], font: &mut [u16], cells: &mut [u8]) -> Answer {
        if Fast.pack(glyphs, &mut [], &mut []).number == 16 {
            return Answer::refused(16, 0);
        }
        let mut first = HashMap::new();
        let merged = glyphs.chunks_exact(ROWS).flat_map(|rows| *first.entry(key(rows)).or_insert(rows));
        Fast.pack(&merged.copied().collect::<Vec<u16>>(), font, cells)
    }

    /// Mistakes by which glyphs that differ share a cell.
    const MERGED: &[(&str, Packer)] = &[
        ("the first row only", |glyphs, font, cells| by_key(|rows| rows[0], glyphs, font, cells)),
        ("all rows but the last", |glyphs, font, cells| by_key(|rows| rows[..ROWS - 1].to_vec(), glyphs, font, cells)),
        ("all rows but the first", |glyphs, font, cells| by_key(|rows| rows[1..].to_vec(), glyphs, font, cells)),
        ("the sum of the rows", |glyphs, font, cells| {
            by_key(|rows| rows.iter().map(|&row| u32::from(row)).sum::<u32>(), glyphs, font, cells)
        }),
        ("the exclusive or of the rows", |glyphs, font, cells| {
            by_key(|rows| rows.iter().fold(0, |all, row| all ^ row), glyphs, font, cells)
        }),
        ("a simple hash", |glyphs, font, cells| {
            by_key(
                |rows| rows.iter().fold(0u64, |sum, &row| sum.wrapping_mul(31).wrapping_add(row.into())),
                glyphs,
                font,
                cells,
            )
        }),
        ("the rows in any order", |glyphs, font, cells| {
            let sorted = |rows: &[u16]| {
                let mut rows = rows.to_vec();
                rows.sort_unstable();
                rows
            };
            by_key(sorted, glyphs, font, cells)
        }),
        ("the leftmost column ignored", |glyphs, font, cells| {
            by_key(|rows| rows.iter().map(|row| row & 0x7FF).collect::<Vec<_>>(), glyphs, font, cells)
        }),
        ("the rightmost column ignored", |glyphs, font, cells| {
            by_key(|rows| rows.iter().map(|row| row / 2).collect::<Vec<_>>(), glyphs, font, cells)
        }),
        ("the low bytes only", |glyphs, font, cells| {
            by_key(|rows| rows.iter().map(|&row| row as u8).collect::<Vec<_>>(), glyphs, font, cells)
        }),
    ];

    /// Numbers the cells of an accepted call anew, by what `order` gives for each, and moves the font's rows with them.
    fn renumber(used: u32, font: &mut [u16], cells: &mut [u8], order: impl Fn(u8, &[u8]) -> usize) {
        let mut olds: Vec<u8> = (0..used as u8).collect();
        olds.sort_by_key(|&old| order(old, cells));
        let before = font.to_vec();
        for (new, &old) in olds.iter().enumerate() {
            let old = usize::from(old);
            font[ROWS * new..ROWS * (new + 1)].copy_from_slice(&before[ROWS * old..ROWS * (old + 1)]);
        }
        for cell in cells {
            *cell = olds.iter().position(|old| old == cell).unwrap() as u8;
        }
    }

    const OTHERWISE_WRONG: &[(&str, Packer)] = &[
        ("always refuses", |_, _, _| Answer::refused(17, 0)),
        ("shares no cell", |glyphs, font, cells| {
            let answer = Fast.pack(glyphs, font, cells);
            let all = glyphs.len() / ROWS;
            if answer.number == 0 && all > answer.value as usize && all <= 62 {
                font[..glyphs.len()].copy_from_slice(glyphs);
                (0..all).for_each(|glyph| cells[glyph] = glyph as u8);
                return Answer::accepted(all as u32);
            }
            answer
        }),
        ("numbered by last appearance", |glyphs, font, cells| {
            let answer = Fast.pack(glyphs, font, cells);
            if answer.number == 0 {
                let places = &mut cells[..glyphs.len() / ROWS];
                renumber(answer.value, font, places, |old, cells| cells.iter().rposition(|&cell| cell == old).unwrap());
            }
            answer
        }),
        ("numbered from 1", |glyphs, font, cells| {
            let answer = Fast.pack(glyphs, font, cells);
            if answer.number == 0 && answer.value < 62 {
                font[..FONT_ROWS].rotate_right(ROWS);
                cells[..glyphs.len() / ROWS].iter_mut().for_each(|cell| *cell += 1);
            }
            answer
        }),
        ("an empty glyph put in a cell that is left over", |glyphs, font, cells| {
            let answer = Fast.pack(glyphs, font, cells);
            let empty = glyphs.chunks_exact(ROWS).position(|rows| rows == EMPTY);
            match empty {
                Some(empty) if answer.number == 0 => {
                    let cell = cells[empty];
                    let last = answer.value as usize - 1;
                    renumber(answer.value, font, &mut cells[..glyphs.len() / ROWS], |old, _| {
                        if old == cell {
                            last + 1
                        } else {
                            usize::from(old)
                        }
                    });
                    Answer::accepted(last as u32)
                }
                _ => answer,
            }
        }),
        ("cells that are left over not cleared", |glyphs, font, cells| {
            let before = font.to_vec();
            let answer = Fast.pack(glyphs, font, cells);
            if answer.number == 0 {
                let used = ROWS * answer.value as usize;
                font[used..].copy_from_slice(&before[used..]);
            }
            answer
        }),
        ("the last cell that is left over not cleared", |glyphs, font, cells| {
            let before = font.to_vec();
            let answer = Fast.pack(glyphs, font, cells);
            if answer.number == 0 && answer.value < 62 {
                font[FONT_ROWS - ROWS..].copy_from_slice(&before[FONT_ROWS - ROWS..]);
            }
            answer
        }),
        ("the 62nd pattern refused", |glyphs, font, cells| {
            if Fast.pack(glyphs, &mut [], &mut []).number == 6 && patterns(glyphs) == 62 {
                return Answer::refused(17, 0);
            }
            Fast.pack(glyphs, font, cells)
        }),
        ("the 63rd pattern taken", |glyphs, font, cells| {
            let answer = Fast.pack(glyphs, font, cells);
            if answer.number == 17 && patterns(glyphs) == 63 {
                // As if the last of them were the one before it.
                let mut first: Vec<&[u16]> = Vec::new();
                for rows in glyphs.chunks_exact(ROWS) {
                    if !first.contains(&rows) {
                        first.push(rows);
                    }
                }
                let merged =
                    glyphs.chunks_exact(ROWS).flat_map(|rows| if rows == first[62] { first[61] } else { rows });
                return Fast.pack(&merged.copied().collect::<Vec<u16>>(), font, cells);
            }
            answer
        }),
        ("257 glyphs taken", |glyphs, font, cells| {
            if glyphs.len() != 257 * ROWS || cells.len() < 257 {
                return Fast.pack(glyphs, font, cells);
            }
            let answer = Fast.pack(&glyphs[..256 * ROWS], font, cells);
            if answer.number == 0 {
                cells[256] = 0;
            }
            answer
        }),
        ("256 glyphs refused", |glyphs, font, cells| {
            if glyphs.len() == 256 * ROWS {
                return Answer::refused(16, 0);
            }
            Fast.pack(glyphs, font, cells)
        }),
        ("a length beyond 16 bits cut to them", |glyphs, font, cells| {
            Fast.pack(&glyphs[..glyphs.len() & 0xFFFF], font, cells)
        }),
        ("rows that are left over passed by", |glyphs, font, cells| {
            Fast.pack(&glyphs[..glyphs.len() / ROWS * ROWS], font, cells)
        }),
        ("a row of 4096 taken", |glyphs, font, cells| {
            let rows: Vec<u16> = glyphs.iter().map(|&row| if row == 4096 { 0 } else { row }).collect();
            Fast.pack(&rows, font, cells)
        }),
        ("a row of 4096 taken in the last place", |glyphs, font, cells| {
            let mut rows = glyphs.to_vec();
            if let Some(last) = rows.last_mut().filter(|last| **last == 4096) {
                *last = 0;
            }
            Fast.pack(&rows, font, cells)
        }),
        ("a row of 4095 refused", |glyphs, font, cells| {
            let rows: Vec<u16> = glyphs.iter().map(|&row| if row == 4095 { 4096 } else { row }).collect();
            Fast.pack(&rows, font, cells)
        }),
        ("the place of a row that is too large", |glyphs, font, cells| {
            let answer = Fast.pack(glyphs, font, cells);
            match glyphs.iter().position(|&row| row > 4095) {
                Some(place) if answer.number == 16 => Answer::refused(16, place as u32),
                _ => answer,
            }
        }),
        ("a row that is too large told as a painter does", |glyphs, font, cells| {
            let answer = Fast.pack(glyphs, font, cells);
            match glyphs.iter().position(|&row| row > 4095) {
                Some(place) if answer.number == 16 => Answer::refused(18, place as u32),
                _ => answer,
            }
        }),
        ("6 before 17", |glyphs, font, cells| {
            let answer = Fast.pack(glyphs, font, cells);
            if answer.number == 17 && (font.len() < FONT_ROWS || cells.len() < glyphs.len() / ROWS) {
                return Answer::refused(6, 0);
            }
            answer
        }),
        ("17 before 16", |glyphs, font, cells| {
            let answer = Fast.pack(glyphs, font, cells);
            if answer.number == 16 && patterns(glyphs) > 62 {
                return Answer::refused(17, 0);
            }
            answer
        }),
        ("6 before 16", |glyphs, font, cells| {
            let answer = Fast.pack(glyphs, font, cells);
            if answer.number == 16 && font.len() < FONT_ROWS {
                return Answer::refused(6, 0);
            }
            answer
        }),
        ("the font touched, then 17", |glyphs, font, cells| {
            let answer = Fast.pack(glyphs, font, cells);
            if answer.number == 17 && font.len() >= FONT_ROWS {
                font[..FONT_ROWS].copy_from_slice(&glyphs[..FONT_ROWS]);
            }
            answer
        }),
        ("the cells touched, then 6", |glyphs, font, cells| {
            let answer = Fast.pack(glyphs, font, cells);
            if answer.number == 6 && font.len() < FONT_ROWS && !cells.is_empty() {
                cells[0] = 0;
            }
            answer
        }),
        ("a font of 1,115 rows taken", |glyphs, font, cells| {
            let answer = Fast.pack(glyphs, font, cells);
            if answer.number == 6 && font.len() == FONT_ROWS - 1 {
                return Answer::accepted(patterns(glyphs) as u32);
            }
            answer
        }),
        ("a place too few taken", |glyphs, font, cells| {
            let answer = Fast.pack(glyphs, font, cells);
            if answer.number == 6 && cells.len() + 1 == glyphs.len() / ROWS && font.len() >= FONT_ROWS {
                return Answer::accepted(patterns(glyphs) as u32);
            }
            answer
        }),
        ("a place wanted without glyphs", |glyphs, font, cells| {
            if glyphs.is_empty() && cells.is_empty() && font.len() >= FONT_ROWS {
                return Answer::refused(6, 0);
            }
            Fast.pack(glyphs, font, cells)
        }),
        ("a place written past the glyphs", |glyphs, font, cells| {
            let answer = Fast.pack(glyphs, font, cells);
            if answer.number == 0 && cells.len() > glyphs.len() / ROWS {
                cells[glyphs.len() / ROWS] = 0;
            }
            answer
        }),
        ("a row written past the font", |glyphs, font, cells| {
            let answer = Fast.pack(glyphs, font, cells);
            if answer.number == 0 && font.len() > FONT_ROWS {
                font[FONT_ROWS] = 0;
            }
            answer
        }),
        ("a count that is one too few", |glyphs, font, cells| {
            let answer = Fast.pack(glyphs, font, cells);
            Answer { value: answer.value.saturating_sub(1), ..answer }
        }),
        ("a count that is one too many", |glyphs, font, cells| {
            let answer = Fast.pack(glyphs, font, cells);
            Answer { value: answer.value + u32::from(answer.number == 0), ..answer }
        }),
    ];

    #[test]
    fn every_planted_mistake_is_found() {
        for (name, mistake) in MERGED.iter().chain(OTHERWISE_WRONG) {
            let difference = some(&Planted(*mistake), 0, RANDOM_FROM + 4000).expect_err(name);
            assert!(difference.report.contains("library") && difference.report.contains("rows ["), "{name}");
        }
    }

    #[test]
    fn planted_mistakes_are_found_among_the_random_sets_too() {
        for (name, mistake) in MERGED.iter().chain(OTHERWISE_WRONG) {
            // Only the table of faults has lengths beyond 16 bits.
            if !name.contains("16 bits") {
                some(&Planted(*mistake), RANDOM_FROM, 20_000).expect_err(name);
            }
        }
    }

    /// The lines of a few thousand screens, painted well, from what a packer gives that is not looked at otherwise.
    fn pictures(pack: impl Fn(&[u16]) -> Packed) -> CaseResult {
        for index in 0..3000 {
            let mut random = Random::of_case(9, index);
            let rows = sets::packable_set(KINS[index as usize % KINS.len()], &mut random);
            let glyphs = drawn(&rows);
            let screen = Screen::of_glyphs(glyphs.len(), index, &mut random);
            compare_lines(&Fast, &screen, &glyphs, &pack(&rows), &mut random)?;
        }
        Ok(0)
    }

    fn packed_by(packer: Packer, rows: &[u16]) -> Packed {
        let mut packed = Packed { font: vec![0; FONT_ROWS], cells: vec![0; rows.len() / ROWS] };
        assert_eq!(packer(rows, &mut packed.font, &mut packed.cells).number, 0);
        packed
    }

    #[test]
    fn a_packed_screen_shows_the_glyphs() {
        let right: Packer = |glyphs, font, cells| Fast.pack(glyphs, font, cells);
        pictures(|rows| packed_by(right, rows)).unwrap();
        // Any numbers serve a picture, as long as font and cells go by the same.
        let last = OTHERWISE_WRONG.iter().find(|(name, _)| *name == "numbered by last appearance").unwrap().1;
        pictures(|rows| packed_by(last, rows)).unwrap();
    }

    #[test]
    fn the_picture_alone_shows_glyphs_that_were_merged() {
        for (name, mistake) in MERGED {
            let report = pictures(|rows| packed_by(*mistake, rows)).expect_err(name);
            assert!(report.contains("a packed screen: the dots differ") && report.contains("glyphs named"), "{name}");
        }
    }

    #[test]
    fn the_picture_alone_shows_the_glyphs_number_in_its_cells_place() {
        pictures(|rows| {
            let mut packed = packed_by(|glyphs, font, cells| Fast.pack(glyphs, font, cells), rows);
            for (glyph, cell) in packed.cells.iter_mut().enumerate() {
                *cell = (glyph % 62) as u8;
            }
            packed
        })
        .unwrap_err();
    }

    /// The packer is right, and the painter takes words and the mode for others.
    struct Mispainted(fn(u16) -> u16, fn(u32) -> u32);

    impl Pack for Mispainted {
        fn pack(&self, glyphs: &[u16], font: &mut [u16], cells: &mut [u8]) -> Answer {
            Fast.pack(glyphs, font, cells)
        }
    }

    impl Paint for Mispainted {
        fn paint(&self, order: &PaintOrder, dots: &mut [u8]) -> Answer {
            let words: Vec<u16> = order.words.iter().map(|&word| (self.0)(word)).collect();
            let settings = Settings { mode: (self.1)(order.settings.mode), ..order.settings };
            Fast.paint(&PaintOrder { words: &words, settings, ..*order }, dots)
        }
    }

    #[test]
    fn a_screen_painted_wrongly_is_found() {
        // The next cell; the cell before 61 for 61; a blink taken for none; one colour for another.
        let mistakes: [fn(u16) -> u16; 4] = [
            |word| if word < 61 * 16 { word + 16 } else { word },
            |word| if word / 16 == 61 { word - 16 } else { word },
            |word| if word < 62 * 16 { word & !1 } else { word },
            |word| if word < 62 * 16 && word % 16 / 2 == 5 { word ^ 2 } else { word },
        ];
        for mistake in mistakes {
            let difference = some(&Mispainted(mistake, |mode| mode), RANDOM_FROM, 30_000).unwrap_err();
            assert!(difference.report.contains("a packed screen") && difference.report.contains("drawn as"));
        }
    }

    #[test]
    fn a_screen_with_its_shadow_in_the_wrong_mode_is_found() {
        let none: fn(u32) -> u32 = |mode| if mode == 1 { 0 } else { mode };
        let too_many: fn(u32) -> u32 = |mode| mode.max(1);
        for (mistake, found_in) in [(none, "mode: 1,"), (too_many, "mode: 0,")] {
            let difference = some(&Mispainted(|word| word, mistake), RANDOM_FROM, 30_000).unwrap_err();
            assert!(difference.report.contains("a packed screen") && difference.report.contains(found_in));
        }
    }
}
