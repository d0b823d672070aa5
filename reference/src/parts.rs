//! What passes between a caller and the library: the records, the answers, and one trait for each part.
//!
//! The fields are those of the library's header. The model, `fast` and the library behind its bridge all implement the
//! traits; whatever implements one can be put beside the model.

/// What a call answers. `number` is 0 if the call was accepted, else the number of the refusal; `place` is the
/// refusal's place; `value` is what an accepted call gives.
#[derive(Clone, Copy, Debug, PartialEq, Eq)]
pub struct Answer {
    pub number: u32,
    pub place: u32,
    pub value: u32,
}

impl Answer {
    pub fn accepted(value: u32) -> Self {
        Answer { number: 0, place: 0, value }
    }

    pub fn refused(number: u32, place: u32) -> Self {
        Answer { number, place, value: 0 }
    }
}

/// The two halves of a number for the DAC.
#[derive(Clone, Copy, Debug, Default, PartialEq, Eq)]
pub struct Pair {
    pub coarse: u8,
    pub fine: u8,
}

/// The running record of the DAC.
#[derive(Clone, Copy, Debug, Default, PartialEq, Eq)]
pub struct RunningRecord {
    pub position: u16,
    /// What the high and the low register keep.
    pub held: Pair,
    pub completed: Pair,
    pub in_force: Pair,
    /// The high clocks from the last first clock of a period on.
    pub high: u16,
}

/// The record of the write port.
#[derive(Clone, Copy, Debug, PartialEq, Eq)]
pub struct PortRecord {
    pub address: u8,
    pub attribute: u8,
    pub character: u8,
    pub words: [u16; 64],
}

/// The settings of the display.
#[derive(Clone, Copy, Debug, PartialEq, Eq)]
pub struct Settings {
    pub on: bool,
    pub mode: u32,
    pub colour: u32,
    pub h: u32,
    pub v: u32,
    pub ratio: u32,
    pub frequency: u32,
}

pub trait Pulse {
    fn level(&self, channel: u32, byte: u8, t: u32) -> Answer;
}

pub trait Dac {
    fn reset(&self, record: &mut RunningRecord);
    fn write_low(&self, record: &mut RunningRecord, byte: u8);
    fn write_high(&self, record: &mut RunningRecord, byte: u8);
    fn play(&self, record: &mut RunningRecord, clocks: u32, levels: &mut [u8]) -> Answer;
}

pub trait Port {
    fn reset(&self, port: &mut PortRecord);
    fn write_address(&self, port: &mut PortRecord, byte: u8);
    fn write_attribute(&self, port: &mut PortRecord, byte: u8);
    fn write_character(&self, port: &mut PortRecord, byte: u8);
}

/// Everything a painter is given but the room for the dots.
#[derive(Clone, Copy, Debug)]
pub struct PaintOrder<'a> {
    pub words: &'a [u16],
    pub font: &'a [u16],
    pub settings: Settings,
    pub frame: u32,
    pub line: u32,
    pub width: u32,
}

pub trait Paint {
    fn paint(&self, order: &PaintOrder, dots: &mut [u8]) -> Answer;
}

pub trait Hex {
    fn read(&self, text: &[u8], image: &mut [u8]) -> Answer;
    fn write(&self, font: &[u16], text: &mut [u8]) -> Answer;
    fn image_to_font(&self, image: &[u8], font: &mut [u16]) -> Answer;
}

pub trait Pack {
    fn pack(&self, glyphs: &[u16], font: &mut [u16], cells: &mut [u8]) -> Answer;
}
