//! The 14-bit DAC, one clock at a time.

use super::Refusal;
use crate::parts::{Pair, RunningRecord};

pub const SUB_PERIODS: u16 = 128;
pub const SUB_PERIOD_CLOCKS: u16 = 128;
pub const PERIOD_CLOCKS: u16 = SUB_PERIODS * SUB_PERIOD_CLOCKS;
/// The count of high clocks is kept modulo this.
const COUNT: u16 = 16384;

fn kept_pair(pair: Pair) -> Pair {
    Pair { coarse: pair.coarse % 128, fine: pair.fine % 128 }
}

/// The record as every call but a play of 0 clocks or a refused play takes it.
fn kept(record: RunningRecord) -> RunningRecord {
    RunningRecord {
        position: record.position % PERIOD_CLOCKS,
        held: kept_pair(record.held),
        completed: kept_pair(record.completed),
        in_force: kept_pair(record.in_force),
        high: record.high % COUNT,
    }
}

pub fn reset(record: &mut RunningRecord) {
    let zero = Pair { coarse: 0, fine: 0 };
    *record = RunningRecord { position: 0, held: zero, completed: zero, in_force: zero, high: 0 };
}

pub fn write_low(record: &mut RunningRecord, byte: u8) {
    *record = kept(*record);
    record.held.fine = byte % 128;
}

pub fn write_high(record: &mut RunningRecord, byte: u8) {
    *record = kept(*record);
    record.held.coarse = byte % 128;
    record.completed = record.held;
}

fn trailing_zero_bits(mut number: u16) -> u16 {
    let mut zeros = 0;
    while number % 2 == 0 {
        number /= 2;
        zeros += 1;
    }
    zeros
}

/// How many clocks the fine half adds to a sub-period: none or one.
pub fn added_clock(fine: u8, sub_period: u16) -> u16 {
    if sub_period == 0 {
        return 0;
    }
    // The one bit that serves this sub-period: 6 less the trailing zeros, which are 0 to 6 for 1 to 127.
    let bit = 6 - trailing_zero_bits(sub_period);
    u16::from(fine >> bit & 1)
}

/// Plays one clock of a record that holds kept values only, and tells whether it is high.
fn play_clock(record: &mut RunningRecord) -> bool {
    if record.position == 0 {
        record.in_force = record.completed;
        record.high = 0;
    }
    let sub_period = record.position / SUB_PERIOD_CLOCKS;
    let clock = record.position % SUB_PERIOD_CLOCKS;
    let high_clocks = u16::from(record.in_force.coarse) + added_clock(record.in_force.fine, sub_period);
    let high = clock < high_clocks;
    if high {
        record.high = (record.high + 1) % COUNT;
    }
    record.position = (record.position + 1) % PERIOD_CLOCKS;
    high
}

/// Plays so many clocks, and tells the count of high clocks after them.
pub fn play(record: &mut RunningRecord, clocks: u32, levels: &mut [u8]) -> Result<u16, Refusal> {
    if clocks > u32::from(PERIOD_CLOCKS) || clocks as usize > levels.len() {
        return Err(Refusal::plain(14));
    }
    if clocks == 0 {
        return Ok(kept(*record).high);
    }
    *record = kept(*record);
    for level in &mut levels[..clocks as usize] {
        *level = u8::from(play_clock(record));
    }
    Ok(record.high)
}

#[cfg(test)]
mod tests {
    use super::*;
    use crate::random::Random;

    fn pair(coarse: u8, fine: u8) -> Pair {
        Pair { coarse, fine }
    }

    fn set(record: &mut RunningRecord, coarse: u8, fine: u8) {
        write_low(record, fine);
        write_high(record, coarse);
    }

    fn played(record: &mut RunningRecord, clocks: usize) -> Vec<u8> {
        let mut levels = vec![7; clocks];
        assert_eq!(play(record, clocks as u32, &mut levels), Ok(record.high));
        levels
    }

    fn high(levels: &[u8]) -> usize {
        levels.iter().filter(|&&level| level == 1).count()
    }

    fn period_of(coarse: u8, fine: u8) -> Vec<u8> {
        let mut record = RunningRecord::default();
        set(&mut record, coarse, fine);
        played(&mut record, 16384)
    }

    fn served(fine: u8) -> Vec<u16> {
        (0..128).filter(|&n| added_clock(fine, n) == 1).collect()
    }

    #[test]
    fn fine_bits_serve_their_sub_periods() {
        assert_eq!(served(1), [64]);
        assert_eq!(served(3), [32, 64, 96]);
        assert_eq!(served(64), (0..64).map(|n| 2 * n + 1).collect::<Vec<u16>>());
        assert_eq!(served(127), (1..128).collect::<Vec<u16>>());
    }

    /// The rows of sheet 000's Table 39, which has more of them than sheet 004's Table 5 and sheet 002's Table 2; those
    /// agree with it, a clear bit for a set one. Where a row leaves numbers out, the printed ones go on by the step
    /// between its first two, in 111 1110 on either side of 64.
    #[test]
    fn fine_bits_serve_the_sub_periods_that_the_sheets_print() {
        let steps = |first: u16, second: u16, last: u16| (first..=last).step_by(usize::from(second - first)).collect();
        let rows: [(u8, Vec<u16>, usize); 12] = [
            (0b000_0000, vec![], 0),
            (0b000_0001, vec![64], 1),
            (0b000_0010, vec![32, 96], 2),
            (0b000_0011, vec![32, 64, 96], 3),
            (0b000_0100, vec![16, 48, 80, 112], 4),
            (0b000_0101, vec![16, 48, 64, 80, 112], 5),
            (0b000_1000, vec![8, 24, 40, 56, 72, 88, 104, 120], 8),
            (0b001_0000, steps(4, 12, 124), 16),
            (0b010_0000, steps(2, 6, 126), 32),
            (0b100_0000, steps(1, 3, 127), 64),
            (0b111_1110, [steps(1, 2, 63), steps(65, 66, 127)].concat(), 126),
            (0b111_1111, steps(1, 2, 127), 127),
        ];
        for (fine, sub_periods, total) in rows {
            assert_eq!(sub_periods.len(), total);
            assert_eq!(served(fine), sub_periods, "fine half {fine}");
        }
    }

    #[test]
    fn coarse_1_fine_3_has_131_high_clocks_and_33_in_a_run_of_32() {
        let period = period_of(1, 3);
        assert_eq!(high(&period), 131);
        assert_eq!(high(&period[32 * 128..64 * 128]), 33);
        assert_eq!(high(&period[..32 * 128]), 32);
    }

    #[test]
    fn the_two_ends() {
        assert_eq!(high(&period_of(127, 127)), 16383);
        assert_eq!(high(&period_of(0, 0)), 0);
    }

    #[test]
    fn a_sub_period_is_high_first() {
        let period = period_of(5, 64);
        assert_eq!(period[..6], [1, 1, 1, 1, 1, 0]);
        assert_eq!(period[128..128 + 7], [1, 1, 1, 1, 1, 1, 0]);
    }

    #[test]
    fn every_pair_gives_its_number_of_high_clocks() {
        // By sub-periods, so that all 16,384 pairs can be looked at.
        for coarse in 0..128u32 {
            for fine in 0..128u8 {
                let total: u32 = (0..128).map(|n| coarse + u32::from(added_clock(fine, n))).sum();
                assert_eq!(total, 128 * coarse + u32::from(fine));
            }
        }
    }

    #[test]
    fn a_low_half_waits_for_the_next_high_one() {
        let mut record = RunningRecord::default();
        set(&mut record, 2, 0);
        write_low(&mut record, 127);
        assert_eq!(high(&played(&mut record, 16384)), 256);
        assert_eq!(high(&played(&mut record, 16384)), 256);
        write_high(&mut record, 2);
        assert_eq!(high(&played(&mut record, 16384)), 256 + 127);
        // The completed pair stays in force, period after period.
        assert_eq!(high(&played(&mut record, 16384)), 256 + 127);
    }

    #[test]
    fn a_write_counts_from_the_next_first_clock() {
        let mut record = RunningRecord::default();
        set(&mut record, 1, 0);
        assert_eq!(high(&played(&mut record, 1)), 1);
        set(&mut record, 100, 100);
        assert_eq!(high(&played(&mut record, 16383)), 127);
        assert_eq!(record.position, 0);
        // Not yet: nothing of the next period has been played.
        assert_eq!(record.in_force, pair(1, 0));
        set(&mut record, 3, 3);
        assert_eq!(high(&played(&mut record, 16384)), 387);
        assert_eq!(record.in_force, pair(3, 3));
    }

    #[test]
    fn a_play_across_the_end_of_a_period_takes_the_new_pair_there() {
        let mut record = RunningRecord::default();
        played(&mut record, 16380);
        set(&mut record, 127, 0);
        assert_eq!(played(&mut record, 7), [0, 0, 0, 0, 1, 1, 1]);
        assert_eq!(record.position, 3);
        let levels = played(&mut record, 16384);
        assert_eq!(high(&levels), 127 * 128);
        assert_eq!(record.position, 3);
    }

    #[test]
    fn reset_clears_everything() {
        let mut record = RunningRecord {
            position: 0xFFFF,
            held: pair(1, 2),
            completed: pair(200, 4),
            in_force: pair(5, 255),
            high: 77,
        };
        reset(&mut record);
        assert_eq!(record, RunningRecord::default());
    }

    #[test]
    fn registers_keep_seven_bits() {
        let mut record = RunningRecord::default();
        set(&mut record, 0x81, 0xFF);
        assert_eq!(record.held, pair(1, 127));
        assert_eq!(record.completed, pair(1, 127));
    }

    #[test]
    fn plays_are_refused_above_a_period_or_the_room() {
        let mut record = RunningRecord {
            position: 0xFFFF,
            held: pair(255, 255),
            completed: pair(255, 255),
            in_force: pair(255, 255),
            high: 0xFFFF,
        };
        let before = record;
        let mut room = vec![9; 16385];
        assert_eq!(play(&mut record, 16385, &mut room), Err(Refusal::plain(14)));
        assert_eq!(play(&mut record, u32::MAX, &mut room), Err(Refusal::plain(14)));
        assert_eq!(play(&mut record, 1, &mut []), Err(Refusal::plain(14)));
        assert_eq!(record, before);
        assert!(room.iter().all(|&byte| byte == 9));
        // One clock of the old period, then all but one of the next, of which clock 127 alone is low.
        assert_eq!(play(&mut record, 16384, &mut room), Ok(16382));
        assert_eq!(room[16384], 9);
    }

    #[test]
    fn a_play_of_no_clocks_leaves_even_a_made_up_record() {
        let mut record = RunningRecord {
            position: 40000,
            held: pair(255, 128),
            completed: pair(200, 201),
            in_force: pair(129, 255),
            high: 16390,
        };
        let before = record;
        assert_eq!(play(&mut record, 0, &mut []), Ok(6));
        assert_eq!(record, before);
    }

    #[test]
    fn other_calls_reduce_a_made_up_record_whole() {
        let raw = RunningRecord {
            position: 16384 + 5,
            held: pair(255, 128),
            completed: pair(200, 201),
            in_force: pair(129, 255),
            high: 32768 + 9,
        };
        let kept =
            RunningRecord { position: 5, held: pair(127, 0), completed: pair(72, 73), in_force: pair(1, 127), high: 9 };
        let mut record = raw;
        write_low(&mut record, 3);
        assert_eq!(record, RunningRecord { held: pair(127, 3), ..kept });
        let mut record = raw;
        write_high(&mut record, 3);
        assert_eq!(record, RunningRecord { held: pair(3, 0), completed: pair(3, 0), ..kept });
        let mut record = raw;
        assert_eq!(played(&mut record, 1), [0]);
        assert_eq!(record, RunningRecord { position: 6, ..kept });
    }

    #[test]
    fn a_made_up_position_of_a_whole_period_is_a_first_clock() {
        let mut record = RunningRecord { position: 16384, completed: pair(127, 0), ..RunningRecord::default() };
        assert_eq!(played(&mut record, 1), [1]);
    }

    #[test]
    fn the_count_begins_with_the_first_clocks_own_level() {
        let mut record = RunningRecord { completed: pair(2, 0), high: 77, ..RunningRecord::default() };
        let counts: Vec<u16> = (0..4).map(|_| play(&mut record, 1, &mut [9]).unwrap()).collect();
        assert_eq!(counts, [1, 2, 2, 2]);
        let mut record = RunningRecord { high: 77, ..RunningRecord::default() };
        assert_eq!(play(&mut record, 1, &mut [9]), Ok(0));
    }

    #[test]
    fn the_count_stays_from_a_last_clock_to_the_next_first_one() {
        let mut record = RunningRecord::default();
        set(&mut record, 1, 3);
        played(&mut record, 16384);
        assert_eq!((record.position, record.high), (0, 131));
        set(&mut record, 127, 127);
        assert_eq!(record.high, 131);
        assert_eq!(play(&mut record, 0, &mut []), Ok(131));
        assert_eq!(play(&mut record, 1, &mut []), Err(Refusal::plain(14)));
        assert_eq!(record.high, 131);
        assert_eq!(play(&mut record, 1, &mut [9]), Ok(1));
    }

    #[test]
    fn writes_leave_the_count_and_reset_clears_it() {
        let mut record = RunningRecord::default();
        set(&mut record, 100, 0);
        played(&mut record, 60);
        write_low(&mut record, 0);
        assert_eq!(record.high, 60);
        write_high(&mut record, 0);
        assert_eq!(record.high, 60);
        // The pair in force goes on: 40 more of this sub-period, and 100 of the next.
        played(&mut record, 2 * 128 - 60);
        assert_eq!(record.high, 200);
        reset(&mut record);
        assert_eq!(record.high, 0);
        assert_eq!(play(&mut record, 0, &mut []), Ok(0));
    }

    #[test]
    fn a_play_across_the_end_counts_the_new_period_alone() {
        let mut record = RunningRecord::default();
        set(&mut record, 127, 127);
        played(&mut record, 16380);
        assert_eq!(record.high, 16379);
        set(&mut record, 2, 0);
        assert_eq!(played(&mut record, 4 + 100), [&[1, 1, 1, 1, 1, 1][..], &[0; 98]].concat());
        assert_eq!(record.high, 2);
        // As long as a period, from its clock 100 to clock 99 of the next.
        played(&mut record, 16384);
        assert_eq!((record.position, record.high), (100, 2));
    }

    #[test]
    fn the_count_after_a_whole_period_is_its_number() {
        for (coarse, fine) in [(0, 0), (0, 1), (1, 3), (64, 64), (127, 0), (127, 127)] {
            let number = 128 * u16::from(coarse) + u16::from(fine);
            for size in [16384, 4099, 1000, 128, 1] {
                let mut record = RunningRecord { high: 0xFFFF, ..RunningRecord::default() };
                set(&mut record, coarse, fine);
                let mut sum = 0;
                for from in (0..16384).step_by(size) {
                    sum += high(&played(&mut record, size.min(16384 - from)));
                    assert_eq!(usize::from(record.high), sum);
                }
                assert_eq!((record.position, record.high), (0, number));
            }
        }
    }

    #[test]
    fn the_count_is_the_same_however_the_plays_are_divided() {
        let mut random = Random::new(11);
        for _ in 0..40 {
            let start = RunningRecord {
                position: random.word(),
                held: pair(random.byte(), random.byte()),
                completed: pair(random.byte(), random.byte()),
                in_force: pair(random.byte(), random.byte()),
                high: random.word(),
            };
            let clocks = random.between(1, 16384);
            let mut whole = start;
            let levels = played(&mut whole, clocks);
            let mut divided = start;
            let mut parts = Vec::new();
            while parts.len() < clocks {
                let part = random.between(0, 300.min(clocks - parts.len()));
                play(&mut divided, part as u32, &mut [0; 300]).unwrap();
                parts.resize(parts.len() + part, 0);
            }
            assert_eq!(divided, whole);
            // From a first clock on it is the sum of the levels; before one, what was there is counted as well.
            let left = 16384 - usize::from(start.position) % 16384;
            let due = match left {
                16384 => high(&levels),
                _ if clocks > left => high(&levels[left..]),
                _ => usize::from(start.high) + high(&levels),
            };
            assert_eq!(usize::from(whole.high), due % 16384);
        }
    }

    #[test]
    fn a_made_up_count_is_taken_and_kept_modulo_16384() {
        for (raw, kept) in [(16384, 0), (16390, 6), (65535, 16383), (16383, 16383), (77, 77)] {
            // In a sub-period whose first 100 clocks are high.
            let start = RunningRecord { position: 128, in_force: pair(100, 0), high: raw, ..RunningRecord::default() };
            let mut record = start;
            assert_eq!(play(&mut record, 0, &mut [9]), Ok(kept));
            assert_eq!(record, start);
            assert_eq!(play(&mut record, 2, &mut [9]), Err(Refusal::plain(14)));
            assert_eq!(play(&mut record, 16385, &mut [9; 16385]), Err(Refusal::plain(14)));
            assert_eq!(record, start);
            assert_eq!(play(&mut record, 1, &mut [9]), Ok((kept + 1) % 16384));
            let mut record = start;
            assert_eq!(play(&mut record, 128, &mut [9; 128]), Ok((kept + 100) % 16384));
            for write in [write_low, write_high] {
                let mut record = start;
                write(&mut record, 5);
                assert_eq!((record.position, record.high), (128, kept));
            }
        }
    }

    #[test]
    fn a_made_up_count_at_position_0_stays_until_the_first_clock() {
        for position in [0, 16384, 49152] {
            let mut record = RunningRecord { position, high: 77, ..RunningRecord::default() };
            assert_eq!(play(&mut record, 0, &mut []), Ok(77));
            set(&mut record, 5, 0);
            assert_eq!((record.position, record.high), (0, 77));
            assert_eq!(play(&mut record, 0, &mut []), Ok(77));
            assert_eq!(play(&mut record, 7, &mut [9; 7]), Ok(5));
        }
    }
}
