//! The write port by masks, in place.

use super::Fast;
use crate::parts::{Port, PortRecord};

fn cut(port: &mut PortRecord) {
    port.address &= 63;
    port.attribute &= 15;
    port.character &= 63;
    for word in &mut port.words {
        *word &= 1023;
    }
}

impl Port for Fast {
    fn reset(&self, port: &mut PortRecord) {
        *port = PortRecord { address: 0, attribute: 0, character: 0, words: [0; 64] };
    }

    fn write_address(&self, port: &mut PortRecord, byte: u8) {
        cut(port);
        port.address = byte & 63;
    }

    fn write_attribute(&self, port: &mut PortRecord, byte: u8) {
        cut(port);
        port.attribute = byte & 15;
    }

    fn write_character(&self, port: &mut PortRecord, byte: u8) {
        cut(port);
        port.character = byte & 63;
        port.words[usize::from(port.address & 63)] = u16::from(port.character) << 4 | u16::from(port.attribute);
        port.address = (port.address + 1) & 63;
    }
}
