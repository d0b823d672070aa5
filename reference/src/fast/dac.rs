//! The DAC by fills: two for each sub-period touched, the first of them counted.

use super::Fast;
use crate::parts::{Answer, Dac, Pair, RunningRecord};

const PERIOD_MASK: u16 = 16383;
const COUNT_MASK: u16 = 16383;

fn reduced(pair: Pair) -> Pair {
    Pair { coarse: pair.coarse & 127, fine: pair.fine & 127 }
}

fn reduce(record: &mut RunningRecord) {
    record.position &= PERIOD_MASK;
    record.held = reduced(record.held);
    record.completed = reduced(record.completed);
    record.in_force = reduced(record.in_force);
    record.high &= COUNT_MASK;
}

/// The high clocks of a sub-period. A marker above bit 6 gives sub-period 0 a bit that no fine half has.
fn high_clocks(pair: Pair, sub_period: u16) -> usize {
    let served = (sub_period | 128).trailing_zeros();
    usize::from(pair.coarse) + usize::from((u16::from(pair.fine) << served) >> 6 & 1)
}

impl Dac for Fast {
    fn reset(&self, record: &mut RunningRecord) {
        *record = RunningRecord::default();
    }

    fn write_low(&self, record: &mut RunningRecord, byte: u8) {
        reduce(record);
        record.held.fine = byte & 127;
    }

    fn write_high(&self, record: &mut RunningRecord, byte: u8) {
        reduce(record);
        record.held.coarse = byte & 127;
        record.completed = record.held;
    }

    fn play(&self, record: &mut RunningRecord, clocks: u32, levels: &mut [u8]) -> Answer {
        if clocks > 16384 || clocks as usize > levels.len() {
            return Answer::refused(14, 0);
        }
        if clocks == 0 {
            return Answer::accepted(u32::from(record.high & COUNT_MASK));
        }
        reduce(record);
        let mut rest = &mut levels[..clocks as usize];
        while !rest.is_empty() {
            if record.position == 0 {
                record.in_force = record.completed;
                record.high = 0;
            }
            let clock = usize::from(record.position & 127);
            let run = rest.len().min(128 - clock);
            let high = high_clocks(record.in_force, record.position >> 7).saturating_sub(clock).min(run);
            let (now, later) = rest.split_at_mut(run);
            let (ones, zeros) = now.split_at_mut(high);
            ones.fill(1);
            zeros.fill(0);
            rest = later;
            record.high = (record.high + high as u16) & COUNT_MASK;
            record.position = (record.position + run as u16) & PERIOD_MASK;
        }
        Answer::accepted(u32::from(record.high))
    }
}
