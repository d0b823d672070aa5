//! Texts made for the places of refusals: which character is bad, and which line is no record.

use super::texts::{self, random_font, record, SHORT};
use crate::model::hex::written_text;
use crate::model::image;
use crate::random::Random;

/// Texts of one sort.
pub struct Sort {
    pub what: &'static str,
    pub count: u64,
    make: fn(u64, &mut Random) -> Vec<u8>,
}

pub const SORTS: &[Sort] = &[
    Sort { what: "short texts with one byte wrong", count: one_wrong_count(), make: one_wrong },
    Sort { what: "texts of three lines", count: KINDS.len().pow(3) as u64, make: three_lines },
    Sort { what: "records of 255 bytes with one byte wrong", count: changes(WIDE_RECORD) as u64, make: wide },
    Sort { what: "short texts with several bytes wrong", count: 60_000, make: several_wrong },
    Sort { what: "fonts' texts with bytes wrong", count: 2_500, make: font_wrong },
    Sort { what: "texts around the longest length", count: 400, make: longest },
];

/// How many texts there are of all sorts.
pub const TEXTS: u64 = {
    let (mut texts, mut sort) = (0, 0);
    while sort < SORTS.len() {
        texts += SORTS[sort].count;
        sort += 1;
    }
    texts
};

pub fn text(number: u64, random: &mut Random) -> Vec<u8> {
    let mut number = number;
    for sort in SORTS {
        if number < sort.count {
            return (sort.make)(number, random);
        }
        number -= sort.count;
    }
    panic!("there are no more texts than counted");
}

/// What each byte is exchanged for, and what is put before it: line ends and what looks like a part of one, blanks,
/// the neighbours of the digits, bytes above 127.
const WRONG: &[u8] = b"\r\n\0 \t:/@Gg`\x80\xFF";

/// So many ways to exchange a byte: for each of those above, and for another digit.
const EXCHANGES: usize = WRONG.len() + 1;

fn wrong(way: usize, byte: u8) -> u8 {
    match WRONG.get(way) {
        Some(&wrong) => wrong,
        None if byte == b'7' => b'D',
        None => b'7',
    }
}

/// At each place a byte is exchanged, taken out, or put in; behind the last byte one can only be put in.
const WAYS: usize = EXCHANGES + 1 + EXCHANGES;

/// How many changes a text of so many bytes has.
const fn changes(length: usize) -> usize {
    length * WAYS + EXCHANGES
}

/// Makes one of the changes to the bytes that begin at `from`.
fn change(text: &mut Vec<u8>, from: usize, number: usize) {
    let place = from + number / WAYS;
    let byte = text.get(place).copied();
    match (byte, number % WAYS) {
        (Some(byte), way) if way < EXCHANGES => text[place] = wrong(way, byte),
        (Some(_), EXCHANGES) => {
            text.remove(place);
        }
        (Some(byte), way) => text.insert(place, wrong(way - EXCHANGES - 1, byte)),
        (None, way) => text.push(wrong(way, 0)),
    }
}

/// Good texts in every dress, and texts with a fault that must win over one in a later line and lose to one before it.
const BASES: &[&[u8]] = &[
    b":00000001FF",
    b":00000001FF\n",
    b":00000001ff\r\n",
    b":0000000000\n:00000001FF",
    b":0000000000\n:00000001FF\n",
    b":0000000000\r\n:00000001FF",
    b":0000000000\r\n:00000001FF\r\n",
    b":0000000000\r\n:00000001FF\n",
    b":0000000000\n:00000001FF\r\n",
    b":04000000000F00F0FD\n:00000001FF",
    b":04000000000F00F0FD\r\n:00000001FF\r\n",
    b":0210000002ffed\r\n:0100000000ff\n:00000001ff\r\n",
    b":0210000002FFED\n:0100000000FF\r\n:00000001FF",
    // No end record, and something after it.
    b":0000000000",
    b":0100000000FF\n:0000000000\n",
    b":0000000000\r\n:0100000000FF\r\n",
    b":00000001FF\n:0000000000\n",
    b":00000001FF\r\n\r\n",
    // A wrong sum: in the first, a middle and the last line.
    b":0000000001\n:0000000000\n:00000001FF\n",
    b":0000000000\r\n:0000000001\r\n:00000001FF\r\n",
    b":0000000000\n:0000000000\n:00000001FE",
    // Another type, an address too far, a byte given twice.
    b":0000000000\n:00000004FC\n:00000001FF\n",
    b":0000000000\r\n:00200100DF\r\n:00000001FF",
    b":0100050001F9\n:0100050001F9\n:00000001FF\n",
    // A bad shape: empty lines, a colon alone, odd digits, too few bytes and too many.
    b":0000000000\n\n:00000001FF\n",
    b"\r\n:00000001FF\r\n",
    b":0000000000\n\n",
    b":\n:00000001FF\n",
    b":0000000000\r\n:\r\n",
    b":0000000000\n:",
    b":000000000\n:00000001FF\n",
    b":0000000000\r\n:00000001FFF\r\n",
    b":0000000000\n:01000001FE\n:00000001FF",
    b":0000000000FF01\r\n:00000001FF",
    // A bad character, in three lines.
    b":0000000000\n00000001FF\n",
    b":00 0000000\r\n:00000001FF\r\n",
    b":0000000000\n:00000001FF \n",
    b":0000000000\r\r\n:00000001FF\n",
    b":0000000000\n:00000001FF\r",
];

const fn one_wrong_count() -> u64 {
    let (mut count, mut base) = (0, 0);
    while base < BASES.len() {
        count += changes(BASES[base].len()) as u64;
        base += 1;
    }
    count
}

fn one_wrong(number: u64, _: &mut Random) -> Vec<u8> {
    let mut number = number as usize;
    let base = BASES.iter().find(|base| {
        let here = number < changes(base.len());
        number -= if here { 0 } else { changes(base.len()) };
        here
    });
    let mut text = base.expect("the count has every change").to_vec();
    change(&mut text, 0, number);
    text
}

/// Lines of every kind, without their line ends. One that ends with a CR is another with each line end.
const KINDS: &[&[u8]] = &[
    // In order, and of a byte given twice if it stands twice.
    b":00000001FF",
    b":0000000000",
    b":0100050001F9",
    b":02000a00aBcD7C",
    // Faults of records.
    b":0000000001",
    b":00000004FC",
    b":0100000100FE",
    b":00200100DF",
    // No bad character, and no record.
    b"",
    b":",
    b":0",
    b":000000000",
    b":00000001FFF",
    b":00",
    b":00000000",
    b":01000001FE",
    b":0000000000FF01",
    b":FF00000001",
    // No colon first.
    b"0000000000",
    b"x",
    b";00000001FF",
    b" :00000001FF",
    b"\0",
    b"\x80",
    b"\xEF\xBB\xBF:00000001FF",
    // No digit later.
    b":00000001FF ",
    b":0000 00000",
    b"::00000001FF",
    b":0000:00000",
    b":0000000G00",
    b":000000000g",
    b":/000000000",
    b":00@0000000",
    b":0`00000000",
    b":0000\x0000000",
    b":00000000\x800",
    b":\xFF",
    // CRs with no LF after them, or with one if that is the line's end.
    b"\r",
    b"\r\r",
    b":\r",
    b":0000\r00000",
    b":0000000000\r",
    b":00000001FF\r\r",
    b":0000000000\r:0000000000",
    // A bad character and a wrong number of digits.
    b":0000000G0",
    b":0000000000 0000",
    b":01000000FG",
];

/// The lines with their ends, all LF, all CR LF, or either; the last may have none.
fn ended(lines: &[&[u8]], random: &mut Random) -> Vec<u8> {
    const ENDS: &[&[u8]] = &[b"\n", b"\r\n"];
    let ends = random.pick(&[&ENDS[..1], &ENDS[1..], ENDS]);
    let mut text = Vec::new();
    for (at, line) in lines.iter().enumerate() {
        text.extend(*line);
        if at + 1 < lines.len() || !random.one_in(3) {
            text.extend(random.pick(ends));
        }
    }
    text
}

fn three_lines(number: u64, random: &mut Random) -> Vec<u8> {
    let (number, kinds) = (number as usize, KINDS.len());
    let kind = |turn: usize| KINDS[number / turn % kinds];
    ended(&[kind(kinds * kinds), kind(kinds), kind(1)], random)
}

/// The characters of a record of 255 bytes.
const WIDE_RECORD: usize = 1 + 2 * (255 + 5);

/// A record of the greatest length with one byte wrong, in the first, a middle or the last line.
fn wide(number: u64, random: &mut Random) -> Vec<u8> {
    let data: Vec<u8> = (0..255).map(|at: u8| at.wrapping_mul(7)).collect();
    let mut record = record(random.below(7000), 0, &data);
    change(&mut record, 0, number as usize);
    let all = [&b":0000000000"[..], &record, b":00000001FF"];
    let (from, to) = random.pick(&[(0, 3), (1, 3), (0, 2), (1, 2)]);
    ended(&all[from..to], random)
}

/// Makes so many changes at random places of a text.
fn change_at_random(text: &mut Vec<u8>, times: usize, random: &mut Random) {
    for _ in 0..times {
        let number = random.below(changes(text.len()));
        if random.one_in(4) && number / WAYS < text.len() {
            text[number / WAYS] = random.byte();
        } else {
            change(text, 0, number);
        }
    }
}

fn several_wrong(_: u64, random: &mut Random) -> Vec<u8> {
    let mut text = if random.one_in(8) { SHORT.to_vec() } else { random.pick(BASES).to_vec() };
    let times = random.between(2, 5);
    change_at_random(&mut text, times, random);
    text
}

/// A whole font's text that has a line spoilt, at its colon, at its end or anywhere, or some lines at random.
fn font_wrong(_: u64, random: &mut Random) -> Vec<u8> {
    let text = written_text(&image::of_font(&random_font(random)));
    let end = random.pick(&["\n", "\r\n"]);
    let mut lines: Vec<Vec<u8>> = text.lines().map(|line| format!("{line}{end}").into_bytes()).collect();
    let at = match random.below(4) {
        0 => 0,
        1 => lines.len() - 1,
        _ => random.below(lines.len()),
    };
    let line = &mut lines[at];
    let last = line.len() - end.len();
    match random.below(10) {
        0 => line[0] = random.byte(),
        1 => drop(line.remove(0)),
        2 => line.insert(0, random.pick(WRONG)),
        3 => line[last - 1] = random.pick(WRONG),
        4 => line.insert(last, random.pick(WRONG)),
        5 => drop(line.remove(last)),
        6 => line.insert(last, b'\r'),
        7 => drop(line.splice(..last, random.pick(KINDS).iter().copied())),
        8 => line.truncate(random.between(1, last)),
        _ => change_at_random(line, 1, random),
    }
    let mut text = lines.concat();
    let more = random.pick(&[0, 0, 1, 3]);
    change_at_random(&mut text, more, random);
    text
}

/// Texts around the longest length: one line, empty lines, CRs, or many records; most with a byte wrong.
fn longest(_: u64, random: &mut Random) -> Vec<u8> {
    let length = random.pick(&[65_534, 65_535, 65_535, 65_536, 65_537]);
    let mut text = match random.below(6) {
        0 => vec![b'\n'; length],
        1 => vec![b'\r'; length],
        2 | 3 => {
            let mut line = vec![b'0'; length];
            line[0] = b':';
            line
        }
        _ => texts::longest(random),
    };
    // Mostly far from the start, where a place needs all its 16 bits.
    let last = text.len() - 1;
    let place = match random.below(4) {
        0 => last,
        1 => random.below(text.len()),
        _ => random.between(32_000, last),
    };
    if !random.one_in(4) {
        text[place] = random.pick(WRONG);
    }
    text
}

#[cfg(test)]
mod tests {
    use super::*;
    use crate::model::hex::read;
    use std::collections::{BTreeMap, BTreeSet};

    #[test]
    fn there_are_as_many_texts_as_are_told() {
        // The numbers that README.md has.
        let counts: Vec<u64> = SORTS.iter().map(|sort| sort.count).collect();
        assert_eq!(counts, [29_372, 103_823, 15_123, 60_000, 2_500, 400]);
        assert_eq!((counts.iter().sum::<u64>(), TEXTS), (211_218, 211_218));
    }

    #[test]
    fn one_byte_is_wrong_at_every_place_in_every_way() {
        let base = b":0\n";
        let texts: Vec<Vec<u8>> = (0..changes(base.len()))
            .map(|number| {
                let mut text = base.to_vec();
                change(&mut text, 0, number);
                text
            })
            .collect();
        for text in [&b"x0\n"[..], b":\n\n", b":0", b"0\n", b":\n", b":\r\n", b"\r:0\n", b":0\n\xFF", b":0\r\n"] {
            let known = text != b"x0\n";
            assert_eq!(texts.iter().any(|one| one == text), known, "{}", text.escape_ascii());
        }
        let lengths = [2, 3, 4].map(|length| texts.iter().filter(|text| text.len() == length).count());
        assert_eq!(lengths, [3, 3 * EXCHANGES, 4 * EXCHANGES]);
    }

    #[test]
    fn the_first_and_the_last_text_of_each_sort_can_be_made() {
        let mut from = 0;
        for sort in SORTS {
            for number in [from, from + sort.count - 1] {
                text(number, &mut Random::of_case(1, number));
            }
            from += sort.count;
        }
        assert_eq!(from, TEXTS);
    }

    /// What the model says of some of the texts of a sort, and how often.
    fn numbers(sort: &Sort, step: usize) -> BTreeMap<u32, u32> {
        let mut numbers = BTreeMap::new();
        for number in (0..sort.count).step_by(step) {
            let text = (sort.make)(number, &mut Random::of_case(1, number));
            let answer = read(&text, &mut [0; 8192]).map_or_else(|refusal| refusal.number, |_| 0);
            *numbers.entry(answer).or_default() += 1;
        }
        numbers
    }

    #[test]
    fn each_sort_has_bad_characters_and_bad_shapes_and_more() {
        for (sort, step) in SORTS.iter().zip([7, 17, 5, 20, 10, 2]) {
            let numbers = numbers(sort, step);
            assert!([19, 20].iter().all(|number| numbers.get(number) > Some(&10)), "{}: {numbers:?}", sort.what);
            assert!(numbers.len() >= 4, "{}: {numbers:?}", sort.what);
        }
        let all: BTreeSet<u32> = SORTS.iter().flat_map(|sort| numbers(sort, 20).into_keys()).collect();
        assert_eq!(all, BTreeSet::from([0, 7, 8, 9, 10, 11, 12, 19, 20]));
    }

    #[test]
    fn the_places_are_in_every_line_and_at_both_ends_of_it() {
        let mut seen = BTreeSet::new();
        for number in (0..SORTS[0].count + SORTS[1].count).step_by(11) {
            let text = text(number, &mut Random::of_case(1, number));
            let Some(refusal) = read(&text, &mut [0; 8192]).err().filter(|refusal| [19, 20].contains(&refusal.number))
            else {
                continue;
            };
            let (before, after) = text.split_at(refusal.place as usize);
            let line = before.iter().filter(|&&byte| byte == b'\n').count();
            let first = before.last().is_none_or(|&byte| byte == b'\n');
            let end = match after.iter().position(|&byte| byte == b'\n') {
                None => "none",
                Some(at) if at > 0 && after[at - 1] == b'\r' => "CR LF",
                Some(_) => "LF",
            };
            seen.insert((refusal.number, line.min(2), first, end));
        }
        for line in 0..3 {
            for end in ["none", "LF", "CR LF"] {
                assert!(seen.contains(&(19, line, true, end)), "{line} {end}");
                assert!(seen.contains(&(19, line, false, end)), "{line} {end}");
                assert!(seen.contains(&(20, line, true, end)), "{line} {end}");
            }
        }
    }
}
