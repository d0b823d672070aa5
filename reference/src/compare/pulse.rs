//! The small outputs: every combination of the channels, bytes and clocks below.

use super::{run as drive, CaseResult, Difference, Part, Plan};
use crate::model::Model;
use crate::parts::Pulse;

const BYTES: u64 = 256;

/// Every channel, the first ones past the last, and numbers whose low bits would pass for a channel.
fn channels() -> Vec<u32> {
    let mut channels: Vec<u32> = (0..=9).collect();
    channels.extend([256, 264, 1 << 31, u32::MAX - 1, u32::MAX]);
    channels
}

/// Every clock of the longer period, some past it, and numbers whose low bits would pass for a clock.
fn clocks() -> Vec<u32> {
    let mut clocks: Vec<u32> = (0..=130).collect();
    clocks.extend([256, 1 << 31, u32::MAX - 1, u32::MAX]);
    clocks
}

fn compare_one(subject: &dyn Pulse, channel: u32, byte: u8, t: u32) -> CaseResult {
    let expected = Model.level(channel, byte, t);
    let got = subject.level(channel, byte, t);
    if got != expected {
        return Err(format!("channel {channel}, byte {byte}, t {t}\n  model   {expected:?}\n  library {got:?}"));
    }
    Ok(1)
}

pub fn run(subject: &dyn Pulse, plan: &Plan, say: &mut dyn FnMut(String)) -> Result<u64, Difference> {
    let channels = channels();
    let clocks = clocks();
    let cases = channels.len() as u64 * BYTES * clocks.len() as u64;
    let case = |index: u64| {
        let index = index % cases;
        let t = clocks[(index % clocks.len() as u64) as usize];
        let byte = (index / clocks.len() as u64 % BYTES) as u8;
        let channel = channels[(index / clocks.len() as u64 / BYTES) as usize];
        compare_one(subject, channel, byte, t)
    };
    let part =
        Part { name: "pulse", what: "every listed channel, byte and clock", cases, case: &|index, _| case(index) };
    drive(&part, plan, say)
}

#[cfg(test)]
mod tests {
    use super::*;
    use crate::compare::testing::silent;
    use crate::fast::Fast;
    use crate::parts::Answer;

    #[test]
    fn the_fast_one_agrees_with_the_model() {
        let made = run(&Fast, &Plan::default(), &mut silent).unwrap();
        assert_eq!(made, 15 * 256 * 135);
    }

    struct Planted(fn(u32, u8, u32) -> bool);

    impl Pulse for Planted {
        fn level(&self, channel: u32, byte: u8, t: u32) -> Answer {
            let mut answer = Model.level(channel, byte, t);
            if (self.0)(channel, byte, t) {
                answer.value ^= 1;
            }
            answer
        }
    }

    #[test]
    fn a_planted_difference_is_found_wherever_it_is() {
        let places: [fn(u32, u8, u32) -> bool; 4] = [
            |channel, byte, t| channel == 0 && byte == 0 && t == 0,
            |channel, byte, t| channel == 7 && byte == 255 && t == 63,
            |channel, _, _| channel == 264,
            |_, byte, t| byte == 200 && t == u32::MAX,
        ];
        for place in places {
            let difference = run(&Planted(place), &Plan::default(), &mut silent).unwrap_err();
            assert!(difference.report.contains("channel"));
            // The same case alone shows it again.
            let again = Plan { from: difference.index, count: Some(1), ..Plan::default() };
            assert_eq!(run(&Planted(place), &again, &mut silent).unwrap_err().report, difference.report);
        }
    }
}
