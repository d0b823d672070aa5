//! What every call must answer, for reading rather than for speed.

pub mod dac;
pub mod display;
pub mod fontcheck;
pub mod hex;
pub mod image;
pub mod pack;
pub mod port;
pub mod pulse;
pub mod share;

use crate::parts::{Answer, Dac, Hex, Pack, Paint, PaintOrder, Port, PortRecord, Pulse, RunningRecord};

/// Why a call was refused: the number from the customer's table, and the place.
#[derive(Clone, Copy, Debug, PartialEq, Eq)]
pub struct Refusal {
    pub number: u32,
    pub place: u32,
}

impl Refusal {
    /// For the refusals that have no place of their own.
    pub fn plain(number: u32) -> Self {
        Refusal { number, place: 0 }
    }
}

fn answer(outcome: Result<u32, Refusal>) -> Answer {
    match outcome {
        Ok(value) => Answer::accepted(value),
        Err(refusal) => Answer::refused(refusal.number, refusal.place),
    }
}

/// The model in the shape of the library, so that it can stand on either side of a comparison.
pub struct Model;

impl Pulse for Model {
    fn level(&self, channel: u32, byte: u8, t: u32) -> Answer {
        answer(pulse::level(channel, byte, t).map(u32::from))
    }
}

impl Dac for Model {
    fn reset(&self, record: &mut RunningRecord) {
        dac::reset(record);
    }

    fn write_low(&self, record: &mut RunningRecord, byte: u8) {
        dac::write_low(record, byte);
    }

    fn write_high(&self, record: &mut RunningRecord, byte: u8) {
        dac::write_high(record, byte);
    }

    fn play(&self, record: &mut RunningRecord, clocks: u32, levels: &mut [u8]) -> Answer {
        answer(dac::play(record, clocks, levels).map(u32::from))
    }
}

impl Port for Model {
    fn reset(&self, port: &mut PortRecord) {
        port::reset(port);
    }

    fn write_address(&self, port: &mut PortRecord, byte: u8) {
        port::write_address(port, byte);
    }

    fn write_attribute(&self, port: &mut PortRecord, byte: u8) {
        port::write_attribute(port, byte);
    }

    fn write_character(&self, port: &mut PortRecord, byte: u8) {
        port::write_character(port, byte);
    }
}

impl Paint for Model {
    fn paint(&self, order: &PaintOrder, dots: &mut [u8]) -> Answer {
        answer(display::paint(order, dots).map(|()| 0))
    }
}

impl Hex for Model {
    fn read(&self, text: &[u8], image: &mut [u8]) -> Answer {
        answer(hex::read(text, image))
    }

    fn write(&self, font: &[u16], text: &mut [u8]) -> Answer {
        answer(hex::write(font, text).map(|()| 0))
    }

    fn image_to_font(&self, image: &[u8], font: &mut [u16]) -> Answer {
        answer(image::to_font(image, font).map(|()| 0))
    }
}

impl Pack for Model {
    fn pack(&self, glyphs: &[u16], font: &mut [u16], cells: &mut [u8]) -> Answer {
        answer(pack::pack(glyphs, font, cells))
    }
}

#[cfg(test)]
mod tests {
    use super::*;
    use crate::parts::{Pair, Settings};

    #[test]
    fn accepted_calls_answer_a_level_a_count_or_0() {
        assert_eq!(Model.level(0, 1, 0), Answer::accepted(1));
        let completed = Pair { coarse: 1, fine: 0 };
        let mut record = RunningRecord { completed, high: 9, ..RunningRecord::default() };
        assert_eq!(Model.play(&mut record, 0, &mut []), Answer::accepted(9));
        assert_eq!(Model.play(&mut record, 1, &mut [9]), Answer::accepted(1));
        let font = vec![0; image::FONT_ROWS];
        let mut text = vec![0; hex::WRITTEN_TEXT];
        assert_eq!(Model.write(&font, &mut text), Answer::accepted(0));
        let mut image = vec![0; image::IMAGE_BYTES];
        assert_eq!(Model.read(&text, &mut image), Answer::accepted(8192));
        assert_eq!(Model.image_to_font(&image, &mut font.clone()), Answer::accepted(0));
        let settings = Settings { on: true, mode: 0, colour: 0, h: 0, v: 0, ratio: 0, frequency: 0 };
        let order = PaintOrder { words: &[0; 64], font: &font, settings, frame: 0, line: 0, width: 1 };
        assert_eq!(Model.paint(&order, &mut [9]), Answer::accepted(0));
        assert_eq!(Model.pack(&[0; 36], &mut font.clone(), &mut [9; 2]), Answer::accepted(1));
    }

    #[test]
    fn refusals_carry_their_number_and_place() {
        assert_eq!(Model.level(8, 0, 0), Answer::refused(15, 0));
        let mut record = RunningRecord { high: 9, ..RunningRecord::default() };
        assert_eq!(Model.play(&mut record, 1, &mut []), Answer::refused(14, 0));
        let text = b":0000000000\n:0000000001\n";
        assert_eq!(Model.read(text, &mut [0; 8192]), Answer::refused(8, 12));
    }
}
