//! Demand 3 by counting: does a whole period give exactly its number, evenly spread?
//!
//! The watcher is told of every call on one record from its reset on. It works from that history and from the levels
//! played; it never sees the running record, so it cannot share a mistake with it.

const SUB_PERIOD: usize = 128;
const PERIOD: usize = 128 * SUB_PERIOD;

#[derive(Clone, Copy, Debug, PartialEq, Eq)]
enum Write {
    Low(u8),
    High(u8),
}

/// Watches the calls on one record.
#[derive(Clone, Debug, Default)]
pub struct Watcher {
    /// The writes since the last reset, in order.
    writes: Vec<Write>,
    /// The levels of the period under way; a whole one stays until the next begins.
    period: Vec<u8>,
    /// Their sum.
    high: u64,
    /// The number due in the period under way.
    due: u64,
    completed_periods: u64,
}

impl Watcher {
    pub fn reset(&mut self) {
        self.writes.clear();
        self.period.clear();
        self.high = 0;
    }

    pub fn write_low(&mut self, byte: u8) {
        self.writes.push(Write::Low(byte % 128));
    }

    pub fn write_high(&mut self, byte: u8) {
        self.writes.push(Write::High(byte % 128));
    }

    /// T as the writes since the last reset ask for it: 128 for each unit of the coarse half, one for each of the fine half; 0 before any pair.
    fn number_due(&self) -> u64 {
        let Some(last_high) = self.writes.iter().rposition(|write| matches!(write, Write::High(_))) else {
            return 0;
        };
        let Write::High(coarse) = self.writes[last_high] else { unreachable!() };
        let fine = self.writes[..last_high].iter().rev().find_map(|write| match write {
            Write::Low(fine) => Some(*fine),
            Write::High(_) => None,
        });
        128 * u64::from(coarse) + u64::from(fine.unwrap_or(0))
    }

    /// Takes note of the levels of an accepted play.
    pub fn played(&mut self, levels: &[u8]) -> Result<(), String> {
        for &level in levels {
            if self.period.is_empty() || self.period.len() == PERIOD {
                self.period.clear();
                self.high = 0;
                self.due = self.number_due();
            }
            self.period.push(level);
            self.high += u64::from(level);
            if self.period.len() == PERIOD {
                check(&self.period, self.due)?;
                self.completed_periods += 1;
            }
        }
        Ok(())
    }

    /// The high clocks of the period under way, or of the latest while the next has not begun.
    pub fn high(&self) -> u64 {
        self.high
    }

    pub fn completed_periods(&self) -> u64 {
        self.completed_periods
    }
}

/// Checks one whole period against the number due in it.
pub fn check(period: &[u8], due: u64) -> Result<(), String> {
    let high: Vec<u64> =
        period.chunks(SUB_PERIOD).map(|sub_period| sub_period.iter().map(|&level| u64::from(level)).sum()).collect();
    let total: u64 = high.iter().sum();
    if total != due {
        return Err(format!("the period is high for {total} clocks where {due} are due"));
    }
    for run in [1, 2, 4, 8, 16, 32, 64] {
        for (number, sub_periods) in high.chunks(run).enumerate() {
            let clocks: u64 = sub_periods.iter().sum();
            let distance = (128 * clocks).abs_diff(run as u64 * due);
            if distance >= 128 {
                return Err(format!("run {number} of {run} sub-periods has {clocks} high clocks, the period {due}"));
            }
        }
    }
    Ok(())
}

#[cfg(test)]
mod tests {
    use super::*;
    use crate::model::dac;
    use crate::parts::RunningRecord;
    use crate::random::Random;

    /// Any calls at all, from reset; returns how many whole periods were looked at.
    fn watch_random_calls(random: &mut Random, calls: usize) -> u64 {
        let mut record = RunningRecord::default();
        let mut watcher = Watcher::default();
        let mut room = vec![0; PERIOD];
        for _ in 0..calls {
            match random.below(16) {
                0..=3 => {
                    let byte = random.byte();
                    dac::write_low(&mut record, byte);
                    watcher.write_low(byte);
                }
                4..=6 => {
                    let byte = random.byte();
                    dac::write_high(&mut record, byte);
                    watcher.write_high(byte);
                }
                7 if random.one_in(4) => {
                    dac::reset(&mut record);
                    watcher.reset();
                }
                _ => {
                    let clocks = match random.below(3) {
                        0 => PERIOD,
                        1 => random.between(0, PERIOD),
                        _ => random.between(0, 300),
                    };
                    dac::play(&mut record, clocks as u32, &mut room).unwrap();
                    watcher.played(&room[..clocks]).unwrap();
                }
            }
            assert_eq!(u64::from(record.high), watcher.high());
        }
        watcher.completed_periods()
    }

    #[test]
    fn whole_periods_are_exact_and_even() {
        let mut random = Random::new(3);
        let periods: u64 = (0..12).map(|_| watch_random_calls(&mut random, 60)).sum();
        assert!(periods > 100, "only {periods}");
    }

    #[test]
    fn every_pair_is_exact_and_even() {
        // The share of a run does not depend on the coarse half; a few of those, every fine one.
        for coarse in [0u8, 1, 64, 126, 127] {
            for fine in 0..128u8 {
                let high: Vec<u64> =
                    (0..128).map(|n| u64::from(coarse) + u64::from(dac::added_clock(fine, n))).collect();
                let due = 128 * u64::from(coarse) + u64::from(fine);
                for run in [1, 2, 4, 8, 16, 32, 64] {
                    for sub_periods in high.chunks(run) {
                        let clocks: u64 = sub_periods.iter().sum();
                        assert!((128 * clocks).abs_diff(run as u64 * due) < 128);
                    }
                }
            }
        }
    }

    #[test]
    fn only_aligned_runs_are_even() {
        // Why the runs are counted from the period's start: others, of other lengths, can be further off.
        let high: u64 = (22..=106).map(|n| u64::from(dac::added_clock(43, n))).sum();
        assert_eq!((128 * high).abs_diff(85 * 43), 313);
    }

    #[test]
    fn wrong_periods_are_noticed() {
        let mut period = vec![0; PERIOD];
        assert!(check(&period, 0).is_ok());
        assert!(check(&period, 1).is_err());
        // The right number, but all of it in one place.
        period[..200].fill(1);
        assert!(check(&period, 200).is_err());
    }

    #[test]
    fn the_high_clocks_are_those_of_one_period() {
        let mut watcher = Watcher::default();
        assert_eq!(watcher.high(), 0);
        watcher.write_low(1);
        watcher.write_high(0);
        let mut period = vec![0; PERIOD];
        period[64 * SUB_PERIOD] = 1;
        watcher.played(&period[..8192]).unwrap();
        assert_eq!(watcher.high(), 0);
        watcher.played(&period[8192..]).unwrap();
        assert_eq!(watcher.high(), 1);
        watcher.write_high(1);
        watcher.played(&[]).unwrap();
        assert_eq!(watcher.high(), 1);
        watcher.played(&[1, 1, 0]).unwrap();
        assert_eq!(watcher.high(), 2);
        watcher.reset();
        assert_eq!(watcher.high(), 0);
    }

    #[test]
    fn the_number_due_is_that_of_the_last_completed_pair() {
        let mut watcher = Watcher::default();
        assert_eq!(watcher.number_due(), 0);
        watcher.write_low(9);
        assert_eq!(watcher.number_due(), 0);
        watcher.write_high(129);
        assert_eq!(watcher.number_due(), 128 + 9);
        watcher.write_low(11);
        assert_eq!(watcher.number_due(), 128 + 9);
        watcher.write_high(2);
        assert_eq!(watcher.number_due(), 256 + 11);
        watcher.write_high(3);
        assert_eq!(watcher.number_due(), 384 + 11);
        watcher.reset();
        assert_eq!(watcher.number_due(), 0);
        watcher.write_high(1);
        assert_eq!(watcher.number_due(), 128);
    }
}
