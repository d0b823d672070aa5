//! The small outputs without a branch on the byte or the clock.

use super::Fast;
use crate::parts::{Answer, Pulse};

impl Pulse for Fast {
    fn level(&self, channel: u32, byte: u8, t: u32) -> Answer {
        let mask = 127 >> (channel >> 2 & 1);
        if channel > 7 || t > mask {
            return Answer::refused(15, 0);
        }
        Answer::accepted(u32::from(t < (u32::from(byte) & mask)))
    }
}
