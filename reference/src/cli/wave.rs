//! Events for the DAC: the periods and the wave that `play` makes of them.

use crate::lines::{number, statements};
use crate::model::dac;
use crate::parts::{Pair, RunningRecord};
use std::fmt::Write;

#[derive(Clone, Copy, Debug, PartialEq, Eq)]
pub enum Event {
    Low(u8),
    High(u8),
    Play(u32),
    Reset,
}

/// What is wrong with a file of events: its line, and whether it is the library that refuses it.
#[derive(Clone, Copy, Debug, PartialEq, Eq)]
pub struct Fault {
    pub line: usize,
    pub refused: bool,
}

fn event(line: &[&[u8]]) -> Option<Event> {
    let byte = |word: &[u8]| number(word).and_then(|number| u8::try_from(number).ok());
    match line {
        [b"low", word] => Some(Event::Low(byte(word)?)),
        [b"high", word] => Some(Event::High(byte(word)?)),
        [b"play", clocks] => Some(Event::Play(number(clocks)?)),
        [b"reset"] => Some(Event::Reset),
        _ => None,
    }
}

/// The events of a file, or its faults in the order of their lines.
pub fn events(text: &[u8]) -> Result<Vec<Event>, Vec<Fault>> {
    let mut events = Vec::new();
    let mut faults = Vec::new();
    for (number, line) in statements(text) {
        match event(&line) {
            Some(Event::Play(clocks)) if clocks > 16384 => faults.push(Fault { line: number, refused: true }),
            Some(event) => events.push(event),
            None => faults.push(Fault { line: number, refused: false }),
        }
    }
    if faults.is_empty() {
        Ok(events)
    } else {
        Err(faults)
    }
}

/// A period, or what was played of one.
#[derive(Clone, Copy, Debug)]
struct Period {
    pair: Pair,
    clocks: u32,
    high: u32,
}

/// Everything that was played, a clock at a time.
#[derive(Default)]
pub struct Wave {
    periods: Vec<Period>,
    /// The level of each clock, and the pair in force as it was played.
    clocks: Vec<(u8, Pair)>,
}

impl Wave {
    pub fn of(events: &[Event]) -> Self {
        let mut wave = Wave::default();
        let mut record = RunningRecord::default();
        // Whether the last period of the list can go on.
        let mut under_way = false;
        for event in events {
            match *event {
                Event::Low(byte) => dac::write_low(&mut record, byte),
                Event::High(byte) => dac::write_high(&mut record, byte),
                Event::Reset => {
                    dac::reset(&mut record);
                    under_way = false;
                }
                Event::Play(clocks) => {
                    for _ in 0..clocks {
                        wave.play_clock(&mut record, under_way);
                        under_way = record.position != 0;
                    }
                }
            }
        }
        wave
    }

    fn play_clock(&mut self, record: &mut RunningRecord, under_way: bool) {
        let mut level = [9];
        dac::play(record, 1, &mut level).expect("one clock is never refused");
        if !under_way {
            self.periods.push(Period { pair: record.in_force, clocks: 0, high: 0 });
        }
        let period = self.periods.last_mut().expect("a period was begun");
        period.clocks += 1;
        period.high += u32::from(level[0]);
        self.clocks.push((level[0], record.in_force));
    }

    /// Whether no clock is played.
    pub fn is_empty(&self) -> bool {
        self.clocks.is_empty()
    }

    /// The lines about the periods.
    pub fn lines(&self) -> String {
        let mut lines = String::new();
        for (index, Period { pair: Pair { coarse, fine }, clocks, high }) in self.periods.iter().enumerate() {
            let due = 128 * u32::from(*coarse) + u32::from(*fine);
            let cut = match clocks {
                1 => " in 1 clock".to_string(),
                2..=16383 => format!(" in {clocks} clocks"),
                _ => String::new(),
            };
            let _ = writeln!(lines, "period {}: coarse {coarse} fine {fine} T {due} high {high}{cut}", index + 1);
        }
        lines
    }

    /// The VCD file.
    pub fn vcd(&self) -> String {
        let mut vcd = heading();
        let mut before = (0, Pair::default());
        for (clock, &(level, pair)) in self.clocks.iter().enumerate() {
            let (old_level, old_pair) = before;
            before = (level, pair);
            if (old_level, old_pair) == before {
                continue;
            }
            let _ = writeln!(vcd, "#{clock}");
            if level != old_level {
                let _ = writeln!(vcd, "{level}l");
            }
            for (name, new, old) in bits(pair).zip(bits(old_pair)).map(|((name, new), (_, old))| (name, new, old)) {
                if new != old {
                    let _ = writeln!(vcd, "{new}{name}");
                }
            }
        }
        let _ = writeln!(vcd, "#{}", self.clocks.len());
        vcd
    }
}

/// The bits of a pair, each with its letter in the file: A to G are bits 6 to 0 of the coarse half, a to g of the fine one.
fn bits(pair: Pair) -> impl Iterator<Item = (char, u8)> {
    let coarse = ('A'..='G').zip((0..7).rev()).map(move |(name, bit)| (name, pair.coarse >> bit & 1));
    let fine = ('a'..='g').zip((0..7).rev()).map(move |(name, bit)| (name, pair.fine >> bit & 1));
    coarse.chain(fine)
}

fn heading() -> String {
    HEADING.replace("VERSION", super::version())
}

const HEADING: &str = "\
$comment dirgeflint VERSION: the 14-bit DAC; a time unit is a clock $end
$timescale 1 us $end
$scope module dac $end
$var wire 1 l level $end
$var wire 1 A coarse[6] $end
$var wire 1 B coarse[5] $end
$var wire 1 C coarse[4] $end
$var wire 1 D coarse[3] $end
$var wire 1 E coarse[2] $end
$var wire 1 F coarse[1] $end
$var wire 1 G coarse[0] $end
$var wire 1 a fine[6] $end
$var wire 1 b fine[5] $end
$var wire 1 c fine[4] $end
$var wire 1 d fine[3] $end
$var wire 1 e fine[2] $end
$var wire 1 f fine[1] $end
$var wire 1 g fine[0] $end
$upscope $end
$enddefinitions $end
$dumpvars
0l
0A
0B
0C
0D
0E
0F
0G
0a
0b
0c
0d
0e
0f
0g
$end
";

#[cfg(test)]
mod tests {
    use super::*;

    fn wave(text: &str) -> Wave {
        Wave::of(&events(text.as_bytes()).unwrap())
    }

    fn changes(text: &str) -> String {
        wave(text).vcd().strip_prefix(&heading()).unwrap().replace('\n', " ")
    }

    #[test]
    fn periods_whole_and_cut() {
        assert_eq!(wave("").lines(), "");
        assert_eq!(wave("low 3\nhigh 1\nplay 0\nreset").lines(), "");
        assert_eq!(wave("low 3\nhigh 1\nplay 16384").lines(), "period 1: coarse 1 fine 3 T 131 high 131\n");
        // 40 sub-periods were begun, and number 32 has the clock that is added.
        assert_eq!(
            wave("low 3\nhigh 1 ; a pair\nplay 16384\nplay 5000").lines(),
            "period 1: coarse 1 fine 3 T 131 high 131\nperiod 2: coarse 1 fine 3 T 131 high 41 in 5000 clocks\n"
        );
        // A reset ends a period, and the next begins with the pair of reset.
        assert_eq!(
            wave("high 2\nplay 1\nreset\nplay 1\nhigh 0xFF\nplay 16383\nplay 2").lines(),
            "period 1: coarse 2 fine 0 T 256 high 1 in 1 clock\n\
             period 2: coarse 0 fine 0 T 0 high 0\n\
             period 3: coarse 127 fine 0 T 16256 high 2 in 2 clocks\n"
        );
    }

    #[test]
    fn changes_are_those_of_played_clocks() {
        assert_eq!(changes(""), "#0 ");
        assert_eq!(changes("high 2\nplay 0"), "#0 ");
        assert_eq!(changes("play 7"), "#7 ");
        assert_eq!(changes("low 3\nhigh 2\nplay 3"), "#0 1l 1F 1f 1g #2 0l #3 ");
        assert_eq!(changes("high 1\nplay 1\nreset\nhigh 1\nplay 1"), "#0 1l 1G #2 ");
        assert_eq!(changes("low 1\nhigh 0\nplay 2\nreset\nplay 1\nlow 2\nhigh 5"), "#0 1g #2 0g #3 ");
    }

    #[test]
    fn faults_have_their_lines() {
        let faults = |text: &str| events(text.as_bytes()).unwrap_err();
        assert_eq!(faults("play 16385"), [Fault { line: 1, refused: true }]);
        assert_eq!(faults("\nplay 4294967296"), [Fault { line: 2, refused: false }]);
        for wrong in ["low", "low 256", "high -1", "play", "play x", "reset 0", "low 1 2", "Play 1", "\0"] {
            assert_eq!(faults(&format!("reset # here\n{wrong}\n")), [Fault { line: 2, refused: false }], "{wrong}");
        }
    }
}
