//! The write port of the display RAM.

use crate::parts::PortRecord;

/// The record with only the bits that the chip keeps. Every call starts from this, since none is ever refused.
fn kept(port: PortRecord) -> PortRecord {
    PortRecord {
        address: port.address % 64,
        attribute: port.attribute % 16,
        character: port.character % 64,
        words: port.words.map(|word| word % 1024),
    }
}

pub fn reset(port: &mut PortRecord) {
    *port = PortRecord { address: 0, attribute: 0, character: 0, words: [0; 64] };
}

pub fn write_address(port: &mut PortRecord, byte: u8) {
    *port = kept(*port);
    port.address = byte % 64;
}

pub fn write_attribute(port: &mut PortRecord, byte: u8) {
    *port = kept(*port);
    port.attribute = byte % 16;
}

pub fn write_character(port: &mut PortRecord, byte: u8) {
    *port = kept(*port);
    port.character = byte % 64;
    let word = 16 * u16::from(port.character) + u16::from(port.attribute);
    port.words[usize::from(port.address)] = word;
    port.address = (port.address + 1) % 64;
}

#[cfg(test)]
mod tests {
    use super::*;

    fn made_up() -> PortRecord {
        PortRecord { address: 0xFF, attribute: 0xFF, character: 0xFF, words: [0xFFFF; 64] }
    }

    fn after_reset() -> PortRecord {
        let mut port = made_up();
        reset(&mut port);
        port
    }

    fn written(mut port: PortRecord, write: fn(&mut PortRecord, u8), byte: u8) -> PortRecord {
        write(&mut port, byte);
        port
    }

    #[test]
    fn a_reset_leaves_nothing_of_what_was_there() {
        assert_eq!(after_reset(), PortRecord { address: 0, attribute: 0, character: 0, words: [0; 64] });
    }

    #[test]
    fn a_character_is_stored_with_the_attribute_and_the_address_moves_on() {
        let mut port = after_reset();
        write_address(&mut port, 5);
        write_attribute(&mut port, 14);
        write_character(&mut port, 62);
        assert_eq!(port.words[5], 62 * 16 + 14);
        assert_eq!(port.address, 6);
        assert!((0..64).all(|place| place == 5 || port.words[place] == 0));
        write_character(&mut port, 1);
        assert_eq!(port.words[6], 16 + 14);
        assert_eq!(port.words[5], 62 * 16 + 14);
    }

    #[test]
    fn the_last_address_is_followed_by_the_first() {
        let mut port = after_reset();
        write_address(&mut port, 63);
        write_character(&mut port, 7);
        assert_eq!(port.words[63], 7 * 16);
        assert_eq!(port.address, 0);
    }

    #[test]
    fn registers_keep_their_bits() {
        assert_eq!(written(after_reset(), write_address, 0xFF).address, 63);
        assert_eq!(written(after_reset(), write_attribute, 0xFF).attribute, 15);
        assert_eq!(written(after_reset(), write_character, 0xFF).character, 63);
        assert_eq!(written(after_reset(), write_character, 0x40).words[0], 0);
    }

    #[test]
    fn every_call_cuts_a_made_up_record_whole() {
        let port = written(made_up(), write_address, 9);
        assert_eq!(port, PortRecord { address: 9, attribute: 15, character: 63, words: [1023; 64] });
        let port = written(made_up(), write_attribute, 9);
        assert_eq!(port, PortRecord { address: 63, attribute: 9, character: 63, words: [1023; 64] });
        let port = written(made_up(), write_character, 9);
        let mut words = [1023; 64];
        words[63] = 9 * 16 + 15;
        assert_eq!(port, PortRecord { address: 0, attribute: 15, character: 9, words });
    }
}
