//! The DAC: every pair over whole periods first, then sequences of calls drawn at random.
//!
//! After every call the answer, the whole running record and the whole room are compared, so that a byte touched past
//! the played ones shows. Where a record began with a reset, the levels are also counted: for demand 3, and for the
//! record's own count. Some sequences are run in several ways that differ only in how the clocks are divided into plays.

#[cfg(test)]
mod planted;

use super::rooms::Rooms;
use super::{run as drive, CaseResult, Difference, Part, Plan};
use crate::model::share::Watcher;
use crate::model::Model;
use crate::parts::{Dac, Pair, RunningRecord};
use crate::random::Random;

const PERIOD: usize = 16384;
const PAIRS: u64 = 128 * 128;
const SEQUENCES: u64 = 240_000;
/// One of so many sequences is divided into plays in several ways.
const ONE_DIVIDED_IN: u64 = 8;

#[derive(Clone, Copy, Debug)]
enum Call {
    Reset,
    WriteLow(u8),
    WriteHigh(u8),
    Play { clocks: u32, room: usize },
}

/// One record in each hand, and what was done to them.
struct Sequence<'a> {
    subject: &'a dyn Dac,
    start: RunningRecord,
    expected: RunningRecord,
    got: RunningRecord,
    calls: Vec<Call>,
    /// Only from a reset on: demand 3 says nothing of a record the host made up.
    watcher: Option<Watcher>,
    comparisons: u64,
}

impl<'a> Sequence<'a> {
    fn new(subject: &'a dyn Dac, start: RunningRecord) -> Self {
        Sequence { subject, start, expected: start, got: start, calls: Vec::new(), watcher: None, comparisons: 0 }
    }

    fn complaint(&self, what: &str) -> String {
        format!("{what}\n  record at the start {:?}\n  calls {:?}", self.start, self.calls)
    }

    fn both(&self, what: &str, expected: &dyn std::fmt::Debug, got: &dyn std::fmt::Debug) -> String {
        self.complaint(&format!("{what} after the last call\n  model   {expected:?}\n  library {got:?}"))
    }

    fn call(&mut self, call: Call, random: &mut Random) -> Result<(), String> {
        self.calls.push(call);
        match call {
            Call::Reset => {
                Model.reset(&mut self.expected);
                self.subject.reset(&mut self.got);
                self.watcher.get_or_insert_with(Watcher::default).reset();
            }
            Call::WriteLow(byte) => {
                Model.write_low(&mut self.expected, byte);
                self.subject.write_low(&mut self.got, byte);
                if let Some(watcher) = &mut self.watcher {
                    watcher.write_low(byte);
                }
            }
            Call::WriteHigh(byte) => {
                Model.write_high(&mut self.expected, byte);
                self.subject.write_high(&mut self.got, byte);
                if let Some(watcher) = &mut self.watcher {
                    watcher.write_high(byte);
                }
            }
            Call::Play { clocks, room } => self.play(clocks, room, random)?,
        }
        self.comparisons += 1;
        if self.got != self.expected {
            return Err(self.both("the records differ", &self.expected, &self.got));
        }
        match &self.watcher {
            Some(watcher) if watcher.high() != u64::from(self.expected.high) => {
                let (sum, count) = (watcher.high(), self.expected.high);
                Err(self
                    .complaint(&format!("the model's count is {count}, but its levels of this period come to {sum}")))
            }
            _ => Ok(()),
        }
    }

    fn play(&mut self, clocks: u32, room: usize, random: &mut Random) -> Result<(), String> {
        let mut rooms = Rooms::of_bytes(room, random);
        let expected = Model.play(&mut self.expected, clocks, rooms.model());
        let got = self.subject.play(&mut self.got, clocks, rooms.library());
        if got != expected {
            return Err(self.both("the answers differ", &expected, &got));
        }
        if let Some(difference) = rooms.difference() {
            return Err(self.complaint(&format!("the room differs after the last call\n{difference}")));
        }
        if expected.number == 0 {
            if let Some(watcher) = &mut self.watcher {
                let counted = watcher.played(&rooms.model()[..clocks as usize]);
                counted.map_err(|what| self.complaint(&format!("counting the model's clocks: {what}")))?;
            }
        }
        Ok(())
    }
}

/// One pair over whole periods, each in plays of another size, with another pair written after the first of them.
fn pair_case(subject: &dyn Dac, number: u64, random: &mut Random) -> CaseResult {
    let (coarse, fine) = ((number / 128) as u8, (number % 128) as u8);
    let mut sequence = Sequence::new(subject, RunningRecord::default());
    sequence.call(Call::Reset, random)?;
    let sizes = [PERIOD, random.pick(&[1021, 2053, 4099, 8191]), 1000, 128];
    for size in sizes {
        sequence.call(Call::WriteLow(fine | random.byte() & 128), random)?;
        sequence.call(Call::WriteHigh(coarse | random.byte() & 128), random)?;
        for from in (0..PERIOD).step_by(size) {
            let clocks = size.min(PERIOD - from);
            let spare = if from == 0 { 0 } else { 3 };
            sequence.call(Call::Play { clocks: clocks as u32, room: clocks + spare }, random)?;
            if from == 0 {
                sequence.call(Call::WriteLow(random.byte()), random)?;
                sequence.call(Call::WriteHigh(random.byte()), random)?;
            }
        }
        if u64::from(sequence.got.high) != number {
            let count = sequence.got.high;
            return Err(sequence.complaint(&format!("the count after the period is {count}, not {number}")));
        }
    }
    sequence.call(Call::Play { clocks: 2, room: 2 }, random)?;
    match sequence.watcher.map(|watcher| watcher.completed_periods()) {
        Some(counted) if counted == sizes.len() as u64 => Ok(sequence.comparisons),
        counted => Err(format!("{} whole periods should have been counted, not {counted:?}", sizes.len())),
    }
}

/// A half as it is written: any byte, or one near the ends of what is kept.
fn half(random: &mut Random) -> u8 {
    if random.one_in(4) {
        random.pick(&[0, 1, 63, 64, 126, 127, 128, 255])
    } else {
        random.byte()
    }
}

fn random_pair(random: &mut Random) -> Pair {
    Pair { coarse: half(random), fine: half(random) }
}

fn start_record(random: &mut Random) -> RunningRecord {
    let position = match random.below(6) {
        0 => 0,
        1 => random.pick(&[16384, 32768, 49152, 16383, 16385, 32767, 65535]),
        // Just before a first clock, so that short plays reach it.
        2 | 3 => random.between(PERIOD - 200, PERIOD) as u16 + random.pick(&[0, 16384, 32768]),
        _ => random.word(),
    };
    let high = match random.below(4) {
        0 => random.pick(&[0, 1, 77, 16383, 16384, 16385, 16390, 32767, 32768, 49152, 65535]),
        // Just below where the count comes round.
        1 => random.between(PERIOD - 100, PERIOD - 1) as u16 + random.pick(&[0, 16384, 32768, 49152]),
        _ => random.word(),
    };
    let mut record = RunningRecord {
        position,
        held: random_pair(random),
        completed: random_pair(random),
        in_force: random_pair(random),
        high,
    };
    if random.one_in(3) {
        record.held = record.completed;
    }
    record
}

/// How far a play goes. Long ones only where asked for: the model goes clock by clock.
fn clocks(position: u16, long: bool, random: &mut Random) -> usize {
    let position = usize::from(position) % PERIOD;
    let to_sub_period_end = 128 - position % 128;
    let to_period_end = PERIOD - position;
    let near = |end: usize, random: &mut Random| (end + random.below(5)).saturating_sub(2);
    match random.below(if long { 10 } else { 6 }) {
        0 => random.between(0, 3),
        1 => near(to_sub_period_end, random),
        2 if to_period_end < 300 || long => near(to_period_end, random).min(PERIOD),
        2 | 3 => random.between(0, 40),
        4 => random.between(0, 200),
        5 => random.pick(&[1, 7, 127, 128, 129]),
        6 => PERIOD,
        7 => PERIOD - random.below(3),
        8 => to_period_end,
        _ => random.between(0, PERIOD),
    }
}

/// A play that leaves the record as it is: refused, or of no clocks.
fn idle_play(long: bool, random: &mut Random) -> Call {
    match random.below(3) {
        0 => Call::Play { clocks: random.pick(&[16385, 16386, 32768, 65536, 1 << 31, u32::MAX]), room: 20 },
        1 => {
            let room = random.between(0, 30);
            Call::Play { clocks: (room + random.between(1, 3)) as u32, room }
        }
        // Above a period although the room would do; a play of the room's whole length would be seen.
        _ if long => Call::Play { clocks: 16385, room: 16385 + random.below(4) },
        _ => Call::Play { clocks: 0, room: random.below(3) },
    }
}

fn random_call(position: u16, long: bool, random: &mut Random) -> Call {
    match random.below(20) {
        0 => Call::Reset,
        1..=4 => Call::WriteLow(half(random)),
        5..=8 => Call::WriteHigh(half(random)),
        9 => idle_play(long, random),
        _ => {
            let clocks = clocks(position, long, random);
            let spare = if random.one_in(2) { 0 } else { random.between(1, 40) };
            Call::Play { clocks: clocks as u32, room: clocks + spare }
        }
    }
}

/// A sequence on the record that the host made up, or else from a reset on.
fn begun<'a>(
    subject: &'a dyn Dac,
    made_up: Option<RunningRecord>,
    random: &mut Random,
) -> Result<Sequence<'a>, String> {
    let mut sequence = Sequence::new(subject, made_up.unwrap_or_default());
    if made_up.is_none() {
        sequence.call(Call::Reset, random)?;
    }
    Ok(sequence)
}

fn sequence_case(subject: &dyn Dac, random: &mut Random) -> CaseResult {
    let long = random.one_in(50);
    let calls = if long { random.between(6, 40) } else { random.between(2, 16) };
    let made_up = random.one_in(3).then(|| start_record(random));
    let mut sequence = begun(subject, made_up, random)?;
    if made_up.is_some() && random.one_in(4) {
        sequence.call(idle_play(false, random), random)?;
    }
    for _ in 0..calls {
        let call = random_call(sequence.expected.position, long, random);
        sequence.call(call, random)?;
    }
    Ok(sequence.comparisons)
}

/// What befalls a record: a write or a reset, or clocks that any number of plays can have.
#[derive(Clone, Copy)]
enum Moment {
    Call(Call),
    Clocks(usize),
}

fn random_moment(long: bool, random: &mut Random) -> Moment {
    match random.below(24) {
        0 => Moment::Call(Call::Reset),
        1..=5 => Moment::Call(Call::WriteLow(half(random))),
        6..=10 => Moment::Call(Call::WriteHigh(half(random))),
        11 => Moment::Clocks(random.below(3)),
        _ => Moment::Clocks(random.between(0, if long { 5 * PERIOD / 2 } else { 300 })),
    }
}

/// How clocks are divided into plays.
#[derive(Clone, Copy)]
enum Division {
    AsFewAsCanBe,
    OfSize(usize),
    /// Plays of no clocks and refused ones among them.
    Anyhow,
}

impl Sequence<'_> {
    fn clocks(&mut self, clocks: usize, division: Division, random: &mut Random) -> Result<(), String> {
        let mut left = clocks;
        loop {
            let most = left.min(PERIOD);
            let now = match division {
                Division::AsFewAsCanBe => most,
                Division::OfSize(size) => most.min(size),
                Division::Anyhow => random.between(0, most),
            };
            self.call(Call::Play { clocks: now as u32, room: now + random.below(3) }, random)?;
            left -= now;
            if matches!(division, Division::Anyhow) && random.one_in(4) {
                self.call(idle_play(false, random), random)?;
            }
            if left == 0 {
                return Ok(());
            }
        }
    }
}

/// The same moments in three divisions: after each of them the record must be the same in all.
fn divided_case(subject: &dyn Dac, random: &mut Random) -> CaseResult {
    let long = random.one_in(40);
    let made_up = random.one_in(2).then(|| start_record(random));
    let moments: Vec<Moment> = (0..random.between(2, 8)).map(|_| random_moment(long, random)).collect();
    let size = if long {
        random.between(128, 8192)
    } else if random.one_in(16) {
        1
    } else {
        random.between(5, 150)
    };
    let mut first = Vec::new();
    let mut comparisons = 0;
    for division in [Division::AsFewAsCanBe, Division::OfSize(size), Division::Anyhow] {
        let mut sequence = begun(subject, made_up, random)?;
        for (number, moment) in moments.iter().enumerate() {
            match *moment {
                Moment::Call(call) => sequence.call(call, random)?,
                Moment::Clocks(clocks) => sequence.clocks(clocks, division, random)?,
            }
            match first.get(number) {
                None => first.push(sequence.got),
                Some(before) if *before == sequence.got => comparisons += 1,
                Some(before) => {
                    let what = format!("divided in another way, the same clocks and writes led to {before:?}");
                    return Err(sequence.complaint(&what));
                }
            }
        }
        comparisons += sequence.comparisons;
    }
    Ok(comparisons)
}

pub fn run(subject: &dyn Dac, plan: &Plan, say: &mut dyn FnMut(String)) -> Result<u64, Difference> {
    let part = Part {
        name: "dac",
        what: "every pair over four periods, then random sequences of calls, an eighth of them divided in three ways",
        cases: PAIRS + SEQUENCES,
        case: &|index, random| match index {
            0..PAIRS => pair_case(subject, index, random),
            _ if (index - PAIRS) % ONE_DIVIDED_IN == 0 => divided_case(subject, random),
            _ => sequence_case(subject, random),
        },
    };
    drive(&part, plan, say)
}

#[cfg(test)]
mod tests {
    use super::*;
    use crate::compare::testing::silent;
    use crate::fast::Fast;
    use crate::parts::Answer;

    pub fn some_sequences(subject: &dyn Dac) -> Result<u64, Difference> {
        run(subject, &Plan { from: PAIRS, count: Some(3000), ..Plan::default() }, &mut silent)
    }

    #[test]
    fn the_fast_one_agrees_with_the_model() {
        assert!(some_sequences(&Fast).unwrap() > 20_000);
        let pairs = Plan { from: 3 * 128, count: Some(128), ..Plan::default() };
        assert!(run(&Fast, &pairs, &mut silent).unwrap() > 128 * 170);
    }

    /// The bit of a fine half that serves a sub-period, if any does.
    type Serving = fn(u16, u8) -> Option<u32>;

    /// The model with one mistake in it.
    enum Mistake {
        LowReachesTheOutput,
        ServedBy(Serving),
        LoadsAtTheEnd,
        TouchesOneByteMore,
        RawFieldsStay,
        RefusalReduces,
        RepeatsItsFirstPlay(std::cell::RefCell<Vec<u8>>),
        AlwaysRefuses,
    }

    impl Dac for Mistake {
        fn reset(&self, record: &mut RunningRecord) {
            Model.reset(record);
        }

        fn write_low(&self, record: &mut RunningRecord, byte: u8) {
            let before = *record;
            Model.write_low(record, byte);
            match self {
                Mistake::LowReachesTheOutput => record.completed.fine = byte % 128,
                Mistake::RawFieldsStay => record.position = before.position,
                _ => {}
            }
        }

        fn write_high(&self, record: &mut RunningRecord, byte: u8) {
            Model.write_high(record, byte);
        }

        fn play(&self, record: &mut RunningRecord, clocks: u32, levels: &mut [u8]) -> Answer {
            let before = *record;
            let mut answer = Model.play(record, clocks, levels);
            let played = clocks as usize;
            match self {
                // Only where the play stays in one period, as all those of the pairs do.
                Mistake::ServedBy(bit) if answer.number == 0 && usize::from(before.position) + played <= PERIOD => {
                    let pair = record.in_force;
                    for (level, position) in levels[..played].iter_mut().zip(before.position..) {
                        let added = bit(position / 128, pair.fine).is_some_and(|bit| pair.fine >> bit & 1 == 1);
                        *level = u8::from(position % 128 < u16::from(pair.coarse) + u16::from(added));
                    }
                }
                Mistake::LoadsAtTheEnd if record.position == 0 && played > 0 && answer.number == 0 => {
                    record.in_force = record.completed;
                }
                Mistake::TouchesOneByteMore if levels.len() > played => levels[played] = 0,
                Mistake::RefusalReduces if answer.number != 0 => record.position %= 16384,
                Mistake::RepeatsItsFirstPlay(first) if answer.number == 0 => {
                    let mut first = first.borrow_mut();
                    if first.is_empty() {
                        *first = levels[..played].to_vec();
                    } else {
                        let same = played.min(first.len());
                        levels[..same].copy_from_slice(&first[..same]);
                    }
                }
                Mistake::AlwaysRefuses => answer = Answer::refused(14, 0),
                _ => {}
            }
            answer
        }
    }

    #[test]
    fn every_planted_mistake_is_found() {
        let mistakes = [
            Mistake::LowReachesTheOutput,
            Mistake::LoadsAtTheEnd,
            Mistake::TouchesOneByteMore,
            Mistake::RawFieldsStay,
            Mistake::RefusalReduces,
            Mistake::RepeatsItsFirstPlay(Default::default()),
            Mistake::AlwaysRefuses,
        ];
        for mistake in mistakes {
            let difference = some_sequences(&mistake).unwrap_err();
            assert!(difference.report.contains("calls [") && difference.report.contains("library"));
        }
    }

    #[test]
    fn a_bit_that_serves_another_sub_period_is_found() {
        fn not_0(n: u16, bit: fn(u16) -> u32) -> Option<u32> {
            (n != 0).then(|| bit(n))
        }
        let right = |n, _| not_0(n, |n| 6 - n.trailing_zeros());
        let wrong: [(&str, Serving); 9] = [
            ("0 is served as 64 is", |n, _| Some(6 - n.trailing_zeros().min(6))),
            ("0 is served, but only by the whole fine half", |n, fine| match (n, fine) {
                (0, 127) => Some(0),
                _ => not_0(n, |n| 6 - n.trailing_zeros()),
            }),
            ("64 is not served", |n, _| not_0(n % 64, |n| 6 - n.trailing_zeros())),
            ("one bit low, and none for 64", |n, _| {
                not_0(n, |n| 6 - n.trailing_zeros()).and_then(|bit| bit.checked_sub(1))
            }),
            ("one bit high", |n, _| not_0(n, |n| 7 - n.trailing_zeros())),
            ("in the other order", |n, _| not_0(n, |n| n.trailing_zeros())),
            ("by the highest bit of the number", |n, _| not_0(n, |n| n.leading_zeros() - 9)),
            ("by how many bits of the number are 0", |n, _| not_0(n, |n| 7 - n.count_ones())),
            ("96 by bit 0", |n, _| not_0(n, |n| if n == 96 { 0 } else { 6 - n.trailing_zeros() })),
        ];
        let pairs = Plan { from: 5 * 128, count: Some(128), ..Plan::default() };
        assert!(run(&Mistake::ServedBy(right), &pairs, &mut silent).is_ok());
        for (name, bit) in wrong {
            let difference = run(&Mistake::ServedBy(bit), &pairs, &mut silent).expect_err(name);
            assert!(difference.report.contains("the room differs"), "{name}: {}", difference.report);
        }
    }

    #[test]
    fn a_case_can_be_run_again_alone() {
        let difference = some_sequences(&Mistake::LoadsAtTheEnd).unwrap_err();
        let again = Plan { from: difference.index, count: Some(1), ..Plan::default() };
        let seen = run(&Mistake::LoadsAtTheEnd, &again, &mut silent).unwrap_err();
        assert_eq!(seen.report, difference.report);
    }
}
