//! Libraries that count the high clocks wrongly: each must be found.

use super::tests::some_sequences;
use super::PERIOD;
use crate::model::Model;
use crate::parts::{Answer, Dac, RunningRecord};

/// The count that a record is left with, and the one that is answered.
type Counts = (u16, u32);

/// A play, and what is right after it.
struct Play<'a> {
    before: RunningRecord,
    after: RunningRecord,
    answer: Answer,
    /// Those played.
    levels: &'a [u8],
}

fn sum(levels: &[u8]) -> u32 {
    levels.iter().map(|&level| u32::from(level)).sum()
}

/// The same count kept and answered.
fn both(count: u32) -> Counts {
    let count = count % 16384;
    (count as u16, count)
}

impl Play<'_> {
    fn right(&self) -> Counts {
        (self.after.high, self.answer.value)
    }

    fn start(&self) -> usize {
        usize::from(self.before.position) % PERIOD
    }

    /// Which of the played clocks is the first of a period.
    fn first_clock(&self) -> Option<usize> {
        let first = (PERIOD - self.start()) % PERIOD;
        (first < self.levels.len()).then_some(first)
    }

    /// That clock, if others of the play come before it.
    fn crossing(&self) -> Option<usize> {
        self.first_clock().filter(|&first| first > 0)
    }

    /// What was counted before, and all that was played.
    fn on_top(&self) -> u32 {
        u32::from(self.before.high) + sum(self.levels)
    }

    /// As is right, but with the played clocks told by this: clock of the period, level, and whether it counts.
    fn counted(&self, counts: impl Fn(usize, u8) -> bool) -> Counts {
        let clock = |at: usize| (self.start() + at) % PERIOD;
        let from = self.first_clock().unwrap_or(0);
        let base = if self.first_clock().is_some() { 0 } else { u32::from(self.before.high) };
        let counted = (from..self.levels.len()).filter(|&at| counts(clock(at), self.levels[at])).count();
        both(base + counted as u32)
    }

    /// The number of the pair in force.
    fn number(&self) -> u32 {
        128 * u32::from(self.after.in_force.coarse) + u32::from(self.after.in_force.fine)
    }
}

type Played = fn(&Play) -> Counts;

/// Wrong after an accepted play of one clock or more.
const PLAYED: &[(&str, Played)] = &[
    ("not begun anew at the first clock", |play| both(play.on_top())),
    ("begun anew at the last clock", |play| if play.after.position == 0 { both(0) } else { play.right() }),
    ("begun anew at the last clock, after the answer", |play| match play.after.position {
        0 => (0, play.right().1),
        _ => play.right(),
    }),
    ("begun anew at each sub-period", |play| {
        let from = (128 - play.start() % 128) % 128;
        match play.levels.len().checked_sub(from + 1) {
            Some(rest) => both(sum(&play.levels[from + rest / 128 * 128..])),
            None => both(play.on_top()),
        }
    }),
    ("begun anew only where another pair comes into force", |play| {
        let same = play.first_clock().is_some() && play.before.in_force == play.before.completed;
        if same {
            both(play.on_top())
        } else {
            play.right()
        }
    }),
    ("begun anew only at a position that is 0 as handed over", |play| {
        if play.start() == 0 && play.before.position != 0 {
            both(play.on_top())
        } else {
            play.right()
        }
    }),
    ("the first clock's level left out", |play| play.counted(|clock, level| level == 1 && clock != 0)),
    ("the first clock always counted", |play| play.counted(|clock, level| level == 1 || clock == 0)),
    ("the last clock's level left out", |play| play.counted(|clock, level| level == 1 && clock != PERIOD - 1)),
    ("the call's last clock left out", |play| {
        let last = play.start() + play.levels.len() - 1;
        play.counted(|clock, level| level == 1 && clock != last % PERIOD)
    }),
    ("over two periods where the end is crossed", |play| play.crossing().map_or(play.right(), |_| both(play.on_top()))),
    ("the whole call where the end is crossed", |play| {
        play.crossing().map_or(play.right(), |_| both(sum(play.levels)))
    }),
    ("up to the end where it is crossed", |play| {
        play.crossing().map_or(play.right(), |first| both(u32::from(play.before.high) + sum(&play.levels[..first])))
    }),
    ("low clocks", |play| play.counted(|_, level| level == 0)),
    ("all clocks", |play| play.counted(|_, _| true)),
    ("added clocks left out", |play| {
        play.counted(|clock, level| level == 1 && clock % 128 < usize::from(play.after.in_force.coarse))
    }),
    ("the call's", |play| both(sum(play.levels))),
    ("the call's answered", |play| (play.right().0, sum(play.levels))),
    ("the call's kept", |play| (both(sum(play.levels)).0, play.right().1)),
    ("answered as it was before the play", |play| (play.right().0, both(u32::from(play.before.high)).1)),
    ("kept as it was before the play", |play| (play.before.high % 16384, play.right().1)),
    ("none answered", |play| (play.right().0, 0)),
    ("the pair's number", |play| both(play.number())),
    ("the pair's number answered", |play| (play.right().0, play.number())),
    ("by the pair completed", |play| {
        let mut other = RunningRecord { in_force: play.before.completed, ..play.before };
        both(Model.play(&mut other, play.levels.len() as u32, &mut play.levels.to_vec()).value)
    }),
    ("by the pair that was in force before", |play| {
        let mut other = RunningRecord { completed: play.before.in_force, ..play.before };
        both(Model.play(&mut other, play.levels.len() as u32, &mut play.levels.to_vec()).value)
    }),
    ("a made-up one kept as it is", |play| match play.first_clock() {
        None => (play.on_top() as u16, play.right().1),
        Some(_) => play.right(),
    }),
    ("a made-up one answered as it is", |play| match play.first_clock() {
        None => (play.right().0, play.on_top()),
        Some(_) => play.right(),
    }),
    ("a made-up one reduced before the play but not after it", |play| match play.first_clock() {
        None => {
            let count = u32::from(play.before.high) % 16384 + sum(play.levels);
            (count as u16, count)
        }
        Some(_) => play.right(),
    }),
    ("no more than 16,383", |play| match play.first_clock() {
        None => both((u32::from(play.before.high) % 16384 + sum(play.levels)).min(16383)),
        Some(_) => play.right(),
    }),
    ("modulo 16,383", |play| both(play.answer.value % 16383)),
    ("modulo 8,192", |play| both(play.answer.value % 8192)),
    ("modulo 32,768", |play| match play.first_clock() {
        None => {
            let count = play.on_top() % 32768;
            (count as u16, count)
        }
        Some(_) => play.right(),
    }),
    ("a call's modulo 256", |play| match play.first_clock() {
        None => both(u32::from(play.before.high) + sum(play.levels) % 256),
        Some(first) => both(sum(&play.levels[first..]) % 256),
    }),
];

/// Wrong after a play of no clocks.
const IDLE: &[(&str, Played)] = &[
    ("reduced by a play of no clocks", |play| (play.before.high % 16384, play.right().1)),
    ("raw answered by a play of no clocks", |play| (play.right().0, u32::from(play.before.high))),
    ("none answered by a play of no clocks", |play| (play.right().0, 0)),
    ("begun anew by a play of no clocks at position 0", |play| match play.start() {
        0 => both(0),
        _ => play.right(),
    }),
    ("none answered by a play of no clocks at position 0", |play| match play.start() {
        0 => (play.right().0, 0),
        _ => play.right(),
    }),
];

/// Wrong after a refused play.
const REFUSED: &[(&str, Played)] = &[
    ("lost at a refused play", |_| (0, 0)),
    ("reduced by a refused play", |play| (play.before.high % 16384, 0)),
    ("answered by a refused play", |play| (play.before.high, u32::from(play.before.high) % 16384)),
    ("raw answered by a refused play", |play| (play.before.high, u32::from(play.before.high))),
];

/// Given the record before a write and that after it, the count it is left with.
type Written = fn(&RunningRecord, &RunningRecord) -> u16;

/// Wrong after a write.
const WRITTEN: &[(&str, Written)] = &[
    ("begun anew by a write", |_, _| 0),
    ("begun anew by a write at position 0", |_, after| if after.position == 0 { 0 } else { after.high }),
    ("raw after a write", |before, _| before.high),
    ("raw after a write at position 0", |before, after| if after.position == 0 { before.high } else { after.high }),
];

/// Given the record before a reset, the count it is left with.
type Reset = fn(&RunningRecord) -> u16;

/// Wrong after a reset.
const RESET: &[(&str, Reset)] =
    &[("kept over a reset", |before| before.high), ("reduced by a reset", |before| before.high % 16384)];

/// Counts as the model does, but for one mistake.
#[derive(Default)]
struct Wrong {
    played: Option<Played>,
    idle: Option<Played>,
    refused: Option<Played>,
    written_low: Option<Written>,
    written_high: Option<Written>,
    reset: Option<Reset>,
}

fn rewritten(mistake: Option<Written>, record: &mut RunningRecord, write: impl FnOnce(&mut RunningRecord)) {
    let before = *record;
    write(record);
    if let Some(count) = mistake {
        record.high = count(&before, record);
    }
}

impl Dac for Wrong {
    fn reset(&self, record: &mut RunningRecord) {
        let before = *record;
        Dac::reset(&Model, record);
        if let Some(count) = self.reset {
            record.high = count(&before);
        }
    }

    fn write_low(&self, record: &mut RunningRecord, byte: u8) {
        rewritten(self.written_low, record, |record| Model.write_low(record, byte));
    }

    fn write_high(&self, record: &mut RunningRecord, byte: u8) {
        rewritten(self.written_high, record, |record| Model.write_high(record, byte));
    }

    fn play(&self, record: &mut RunningRecord, clocks: u32, levels: &mut [u8]) -> Answer {
        let before = *record;
        let mut answer = Model.play(record, clocks, levels);
        let (mistake, played) = match (answer.number, clocks) {
            (0, 0) => (self.idle, 0),
            (0, _) => (self.played, clocks as usize),
            _ => (self.refused, 0),
        };
        if let Some(counts) = mistake {
            let play = Play { before, after: *record, answer, levels: &levels[..played] };
            (record.high, answer.value) = counts(&play);
        }
        answer
    }
}

#[test]
fn every_wrong_count_is_found() {
    assert!(some_sequences(&Wrong::default()).is_ok());
    let recounted: Played = |play| play.counted(|_, level| level == 1);
    assert!(some_sequences(&Wrong { played: Some(recounted), ..Wrong::default() }).is_ok());
    let mut wrong: Vec<(String, Wrong)> = Vec::new();
    let mut plant = |name: &str, mistake: Wrong| wrong.push((name.to_string(), mistake));
    for &(name, counts) in PLAYED {
        plant(name, Wrong { played: Some(counts), ..Wrong::default() });
    }
    for &(name, counts) in IDLE {
        plant(name, Wrong { idle: Some(counts), ..Wrong::default() });
    }
    for &(name, counts) in REFUSED {
        plant(name, Wrong { refused: Some(counts), ..Wrong::default() });
    }
    for &(name, count) in WRITTEN {
        plant(&format!("{name} of the low half"), Wrong { written_low: Some(count), ..Wrong::default() });
        plant(&format!("{name} of the high half"), Wrong { written_high: Some(count), ..Wrong::default() });
    }
    for &(name, count) in RESET {
        plant(name, Wrong { reset: Some(count), ..Wrong::default() });
    }
    for (name, mistake) in &wrong {
        let difference = some_sequences(mistake).expect_err(name);
        let told = ["the records differ", "the answers differ"].iter().any(|what| difference.report.starts_with(what));
        assert!(told, "{name}: {}", difference.report);
    }
    assert_eq!(wrong.len(), 53);
}
