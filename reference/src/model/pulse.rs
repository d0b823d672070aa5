//! The eight small outputs.

use super::Refusal;

/// The level of an output at clock `t` of its period: true is high.
pub fn level(channel: u32, byte: u8, t: u32) -> Result<bool, Refusal> {
    if channel > 7 {
        return Err(Refusal::plain(15));
    }
    // A period is as long as the register can count: seven bits kept, or six.
    let period: u32 = if channel <= 3 { 128 } else { 64 };
    if t >= period {
        return Err(Refusal::plain(15));
    }
    let kept = u32::from(byte) % period;
    Ok(t < kept)
}

#[cfg(test)]
mod tests {
    use super::*;

    fn high_clocks(channel: u32, byte: u8, period: u32) -> usize {
        (0..period).filter(|&t| level(channel, byte, t) == Ok(true)).count()
    }

    #[test]
    fn the_first_four_keep_seven_bits_and_the_others_six() {
        assert_eq!(high_clocks(0, 255, 128), 127);
        assert_eq!(high_clocks(3, 128, 128), 0);
        assert_eq!(high_clocks(4, 255, 64), 63);
        assert_eq!(high_clocks(7, 64, 64), 0);
        assert_eq!(high_clocks(7, 65, 64), 1);
    }

    #[test]
    fn high_comes_first() {
        assert_eq!(level(2, 3, 2), Ok(true));
        assert_eq!(level(2, 3, 3), Ok(false));
        assert_eq!(level(2, 0, 0), Ok(false));
    }

    #[test]
    fn a_ninth_channel_and_a_clock_past_the_period_are_refused() {
        let refused = Err(Refusal::plain(15));
        assert_eq!(level(8, 0, 0), refused);
        assert_eq!(level(u32::MAX, 0, 0), refused);
        assert_eq!(level(3, 0, 127), Ok(false));
        assert_eq!(level(3, 0, 128), refused);
        assert_eq!(level(4, 0, 63), Ok(false));
        assert_eq!(level(4, 0, 64), refused);
        assert_eq!(level(0, 255, u32::MAX), refused);
    }
}
