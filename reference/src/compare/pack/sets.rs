//! Sets of glyphs to pack: how their patterns are related, and how often and in which order each is drawn.

use crate::model::image::{CELLS, COLUMNS, ROWS};
use crate::model::pack::MOST_GLYPHS;
use crate::random::Random;
use std::array::from_fn;
use std::collections::HashSet;

pub type Pattern = [u16; ROWS];

pub const EMPTY: Pattern = [0; ROWS];
pub const FULL: Pattern = [4095; ROWS];

/// A row other than `row`, and a good one if that is.
fn another_row(row: u16, random: &mut Random) -> u16 {
    row ^ random.between(1, 4095) as u16
}

pub fn noise(random: &mut Random) -> Pattern {
    from_fn(|_| random.word() % 4096)
}

/// A pattern for others to be made of.
pub fn any_pattern(random: &mut Random) -> Pattern {
    match random.below(8) {
        0 => EMPTY,
        1 => FULL,
        2 => [random.word() % 4096; ROWS],
        // Few lit dots.
        3 => from_fn(|_| if random.one_in(4) { 1 << random.below(COLUMNS) } else { 0 }),
        _ => noise(random),
    }
}

/// Two rows, one above the other.
fn two_rows(random: &mut Random) -> (usize, usize) {
    let upper = random.below(ROWS - 1);
    (upper, random.between(upper + 1, ROWS - 1))
}

/// Adds the steps, all of them or with their signs turned, to the rows from a place on, if they all stay rows.
fn stepped(pattern: &Pattern, steps: &[i32], random: &mut Random) -> Pattern {
    let from = random.below(ROWS + 1 - steps.len());
    let sign = random.pick(&[1, -1]);
    let mut made = *pattern;
    for (row, step) in made[from..].iter_mut().zip(steps) {
        let stepped = i32::from(*row) + sign * step;
        if !(0..=4095).contains(&stepped) {
            return *pattern;
        }
        *row = stepped as u16;
    }
    made
}

/// Makes a pattern that is related to one pattern, by way of another that stays the same for all of a set. Each
/// deceives a packer that looks at less than all 216 dots, or takes a number worked out from them for the dots.
pub type Kin = fn(&Pattern, &Pattern, &mut Random) -> Pattern;

pub const KINS: &[Kin] = &[
    unrelated,
    one_dot,
    last_row,
    first_row,
    one_row,
    one_column,
    high_dots,
    low_dots,
    same_sum,
    same_or,
    same_weighted_sum,
    same_hash,
    rows_exchanged,
    rows_moved,
    crossed,
    stretch_of_both,
    columns_moved,
    mirrored,
];

fn unrelated(_: &Pattern, _: &Pattern, random: &mut Random) -> Pattern {
    noise(random)
}

fn one_dot(pattern: &Pattern, _: &Pattern, random: &mut Random) -> Pattern {
    let mut made = *pattern;
    made[random.below(ROWS)] ^= 1 << random.below(COLUMNS);
    made
}

fn with_another_row(pattern: &Pattern, row: usize, random: &mut Random) -> Pattern {
    let mut made = *pattern;
    made[row] = another_row(made[row], random);
    made
}

fn last_row(pattern: &Pattern, _: &Pattern, random: &mut Random) -> Pattern {
    with_another_row(pattern, ROWS - 1, random)
}

fn first_row(pattern: &Pattern, _: &Pattern, random: &mut Random) -> Pattern {
    with_another_row(pattern, 0, random)
}

fn one_row(pattern: &Pattern, other: &Pattern, random: &mut Random) -> Pattern {
    with_another_row(pattern, usize::from(other[0]) % ROWS, random)
}

fn one_column(pattern: &Pattern, other: &Pattern, random: &mut Random) -> Pattern {
    let column = other[0] % COLUMNS as u16;
    pattern.map(|row| row ^ (random.word() % 2) << column)
}

/// The four dots at the left, which an image keeps apart from the others.
fn high_dots(pattern: &Pattern, _: &Pattern, random: &mut Random) -> Pattern {
    pattern.map(|row| row ^ (random.word() % 16) << 8)
}

fn low_dots(pattern: &Pattern, _: &Pattern, random: &mut Random) -> Pattern {
    pattern.map(|row| row ^ (random.word() % 256))
}

/// What one row has less another has more.
fn same_sum(pattern: &Pattern, _: &Pattern, random: &mut Random) -> Pattern {
    let (upper, lower) = two_rows(random);
    let mut made = *pattern;
    let most = made[upper].min(4095 - made[lower]);
    let carried = random.between(0, usize::from(most)) as u16;
    made[upper] -= carried;
    made[lower] += carried;
    made
}

/// The same exclusive or of all rows.
fn same_or(pattern: &Pattern, _: &Pattern, random: &mut Random) -> Pattern {
    let (upper, lower) = two_rows(random);
    let mut made = *pattern;
    let changed = another_row(0, random);
    made[upper] ^= changed;
    made[lower] ^= changed;
    made
}

/// The same sum of rows, and of rows times their numbers.
fn same_weighted_sum(pattern: &Pattern, _: &Pattern, random: &mut Random) -> Pattern {
    stepped(pattern, &[1, -2, 1], random)
}

/// The same sum where each row counts so many times the one below it, as the simplest hashes have it.
fn same_hash(pattern: &Pattern, _: &Pattern, random: &mut Random) -> Pattern {
    let times = random.pick(&[2, 3, 5, 16, 17, 31, 31, 33, 37, 131, 256, 257, 4095]);
    stepped(pattern, &[1, -times], random)
}

fn rows_exchanged(pattern: &Pattern, _: &Pattern, random: &mut Random) -> Pattern {
    let (upper, lower) = two_rows(random);
    let mut made = *pattern;
    made.swap(upper, lower);
    made
}

fn rows_moved(pattern: &Pattern, _: &Pattern, random: &mut Random) -> Pattern {
    let mut made = *pattern;
    match random.below(3) {
        0 => made.rotate_left(random.below(ROWS)),
        1 => made.reverse(),
        _ => shuffle(&mut made, random),
    }
    made
}

/// Rows exchanged with the other pattern, a few or any of them.
fn crossed(pattern: &Pattern, other: &Pattern, random: &mut Random) -> Pattern {
    let often = random.pick(&[2, 2, 9]);
    from_fn(|row| if random.one_in(often) { other[row] } else { pattern[row] })
}

/// Rows that follow one another in the two patterns: where a place is reckoned wrongly, a pattern that is there shows.
fn stretch_of_both(pattern: &Pattern, other: &Pattern, random: &mut Random) -> Pattern {
    let from = random.between(0, ROWS);
    from_fn(|row| if from + row < ROWS { pattern[from + row] } else { other[from + row - ROWS] })
}

fn columns_moved(pattern: &Pattern, _: &Pattern, random: &mut Random) -> Pattern {
    let by = random.below(COLUMNS);
    pattern.map(|row| (row << by | row >> (COLUMNS - by)) & 4095)
}

/// Either pattern from right to left.
fn mirrored(pattern: &Pattern, other: &Pattern, random: &mut Random) -> Pattern {
    let chosen = random.pick(&[pattern, other]);
    chosen.map(|row| row.reverse_bits() >> 4)
}

fn shuffle<T>(list: &mut [T], random: &mut Random) {
    for last in (1..list.len()).rev() {
        list.swap(last, random.below(last + 1));
    }
}

/// So many patterns, no two alike, all related as `kin` says as far as there are so many such ones.
pub fn family(kin: Kin, count: usize, random: &mut Random) -> Vec<Pattern> {
    let (first, other) = (any_pattern(random), noise(random));
    let of_the_first = random.one_in(2);
    let mut family = Vec::with_capacity(count);
    let mut known = HashSet::with_capacity(count);
    let mut in_vain = 0;
    while family.len() < count {
        let fresh = match family.len() {
            0 => first,
            _ if in_vain > 20 => noise(random),
            _ if of_the_first => kin(&first, &other, random),
            grown => kin(&family[random.below(grown)], &other, random),
        };
        if known.insert(fresh) {
            family.push(fresh);
            in_vain = 0;
        } else {
            in_vain += 1;
        }
    }
    family
}

/// Glyphs that show the patterns, each at least once if there are enough glyphs; only order 3 may miss some.
pub fn arranged(patterns: &[Pattern], glyphs: usize, random: &mut Random) -> Vec<Pattern> {
    let count = patterns.len();
    if count == 0 {
        return Vec::new();
    }
    // The last pattern alone in its place, and the others round and round.
    let but_last = |glyph: usize, alone: usize| {
        if glyph == alone {
            count - 1
        } else {
            (glyph - usize::from(glyph > alone)) % (count - 1).max(1)
        }
    };
    let order = random.below(8);
    let mut list: Vec<Pattern> = (0..glyphs)
        .map(|glyph| match order {
            // There and back again.
            1 if glyph / count % 2 == 1 => count - 1 - glyph % count,
            2 => glyph * count / glyphs.max(count),
            3 => random.below(count),
            4 => but_last(glyph, glyphs - 1),
            5 => but_last(glyph, 0),
            6 => but_last(glyph, glyphs / 2),
            _ => glyph % count,
        })
        .map(|pattern| patterns[pattern])
        .collect();
    if order == 7 {
        shuffle(&mut list, random);
    }
    list
}

/// Any set: how many glyphs, and how many patterns they should show.
fn counts(random: &mut Random) -> (usize, usize) {
    let glyphs = match random.below(16) {
        0 => random.pick(&[0, 1, 2]),
        1 => random.between(61, 64),
        2..=4 => random.pick(&[MOST_GLYPHS - 1, MOST_GLYPHS, MOST_GLYPHS, MOST_GLYPHS + 1]),
        5 => random.between(1, MOST_GLYPHS),
        _ => random.between(1, 48),
    };
    match random.below(8) {
        0 => {
            let patterns = random.between(61, 64);
            (glyphs.max(patterns), patterns)
        }
        1 => (glyphs, glyphs),
        _ => (glyphs, random.between(1, 62)),
    }
}

/// Puts empty or full glyphs in the first, the middle or the last place, now and then.
fn edged(list: &mut [Pattern], random: &mut Random) {
    let count = list.len();
    if count == 0 || !random.one_in(3) {
        return;
    }
    let edge = random.pick(&[EMPTY, EMPTY, FULL]);
    match random.below(4) {
        0 => list[0] = edge,
        1 => list[count - 1] = edge,
        2 => list[count / 2] = edge,
        _ => [0, count / 2, count - 1].into_iter().for_each(|place| list[place] = edge),
    }
}

/// The rows of any set of whole glyphs; they may be more than can be packed.
pub fn any_set(kin: Kin, random: &mut Random) -> Vec<u16> {
    let (glyphs, patterns) = counts(random);
    let mut list = arranged(&family(kin, patterns.min(glyphs), random), glyphs, random);
    edged(&mut list, random);
    list.concat()
}

/// The rows of a set that can be packed and has a glyph.
pub fn packable_set(kin: Kin, random: &mut Random) -> Vec<u16> {
    let (glyphs, patterns) = counts(random);
    let glyphs = glyphs.clamp(1, MOST_GLYPHS);
    // One less than there are cells, as an edge may be a pattern of its own.
    let mut list = arranged(&family(kin, patterns.clamp(1, glyphs.min(CELLS - 1)), random), glyphs, random);
    edged(&mut list, random);
    list.concat()
}

#[cfg(test)]
mod tests {
    use super::*;

    fn different(list: &[Pattern]) -> usize {
        list.iter().collect::<HashSet<_>>().len()
    }

    #[test]
    fn families_are_as_large_as_they_are_to_be_and_hold_rows() {
        let mut random = Random::new(2);
        for &kin in KINS {
            for count in [0, 1, 2, 62, 63, 257] {
                let family = family(kin, count, &mut random);
                assert_eq!((family.len(), different(&family)), (count, count));
                assert!(family.iter().flatten().all(|&row| row <= 4095));
            }
        }
    }

    #[test]
    fn every_order_shows_all_patterns_but_one_that_may_miss_some() {
        let mut random = Random::new(3);
        for &count in &[1, 2, 5, 62] {
            let family = family(unrelated, count, &mut random);
            for &glyphs in &[count, count + 1, 256] {
                let all = (0..400).filter(|_| {
                    let list = arranged(&family, glyphs, &mut random);
                    assert_eq!(list.len(), glyphs);
                    different(&list) == count
                });
                assert!(all.count() > 320, "{count} in {glyphs}");
            }
        }
        assert!(arranged(&[], 3, &mut random).is_empty());
    }

    #[test]
    fn deceivers_deceive() {
        // What each of these keeps: a packer that takes it for the dots is deceived.
        type Kept = fn(&Pattern) -> u32;
        let sum: Kept = |pattern| pattern.iter().map(|&row| u32::from(row)).sum();
        let or: Kept = |pattern| u32::from(pattern.iter().fold(0, |all, row| all ^ row));
        let weighted: Kept = |pattern| (0..).zip(pattern).map(|(place, &row)| place * u32::from(row)).sum();
        let lit: Kept = |pattern| pattern.iter().map(|row| row.count_ones()).sum();
        let keeps: [(Kin, Kept); 8] = [
            (same_sum, sum),
            (same_or, or),
            (same_weighted_sum, sum),
            (same_weighted_sum, weighted),
            (rows_exchanged, sum),
            (rows_moved, or),
            (rows_moved, lit),
            (columns_moved, lit),
        ];
        let mut random = Random::new(4);
        for (kin, kept) in keeps {
            let (mut changed, other) = (0, noise(&mut random));
            for _ in 0..500 {
                let pattern = noise(&mut random);
                let made = kin(&pattern, &other, &mut random);
                assert_eq!(kept(&made), kept(&pattern));
                changed += usize::from(made != pattern);
            }
            assert!(changed > 300, "{changed}");
        }
    }
}
