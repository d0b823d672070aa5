//! Requests and replies as bytes.

use crate::parts::{Answer, Pair, PortRecord, RunningRecord};

/// A request or a reply, written from the front and read from the front.
#[derive(Clone, Debug, PartialEq, Eq)]
pub struct Message {
    bytes: Vec<u8>,
    /// How much of it has been read.
    read: usize,
}

impl Message {
    /// A request for the call of this name.
    pub fn request(name: u8) -> Self {
        Message { bytes: vec![name], read: 0 }
    }

    /// A reply of good health.
    pub fn reply() -> Self {
        Message { bytes: vec![0], read: 1 }
    }

    /// A reply that came over the bridge; its health has been looked at.
    pub fn from_bytes(bytes: Vec<u8>) -> Self {
        Message { bytes, read: 1 }
    }

    pub fn bytes(&self) -> &[u8] {
        &self.bytes
    }

    pub fn byte(mut self, byte: u8) -> Self {
        self.bytes.push(byte);
        self
    }

    pub fn number(mut self, number: u32) -> Self {
        self.bytes.extend(number.to_le_bytes());
        self
    }

    /// Bytes without their count.
    pub fn plain(mut self, bytes: &[u8]) -> Self {
        self.bytes.extend(bytes);
        self
    }

    /// Words without their count.
    pub fn plain_words(mut self, words: &[u16]) -> Self {
        self.bytes.extend(words.iter().flat_map(|word| word.to_le_bytes()));
        self
    }

    pub fn slice(self, bytes: &[u8]) -> Self {
        self.number(bytes.len() as u32).plain(bytes)
    }

    pub fn words(self, words: &[u16]) -> Self {
        self.number(words.len() as u32).plain_words(words)
    }

    pub fn answer(self, answer: Answer) -> Self {
        self.number(answer.number).number(answer.place).number(answer.value)
    }

    fn pair(self, pair: Pair) -> Self {
        self.byte(pair.coarse).byte(pair.fine)
    }

    pub fn dac(self, record: &RunningRecord) -> Self {
        let pairs = self.plain_words(&[record.position]).pair(record.held).pair(record.completed).pair(record.in_force);
        pairs.plain_words(&[record.high])
    }

    pub fn port(self, port: &PortRecord) -> Self {
        self.byte(port.address).byte(port.attribute).byte(port.character).plain_words(&port.words)
    }

    fn take(&mut self, count: usize) -> &[u8] {
        let start = self.read;
        self.read += count;
        &self.bytes[start..self.read]
    }

    fn take_byte(&mut self) -> u8 {
        self.take(1)[0]
    }

    fn take_word(&mut self) -> u16 {
        u16::from_le_bytes(self.take(2).try_into().expect("two bytes"))
    }

    fn take_number(&mut self) -> u32 {
        u32::from_le_bytes(self.take(4).try_into().expect("four bytes"))
    }

    pub fn take_answer(&mut self) -> Answer {
        Answer { number: self.take_number(), place: self.take_number(), value: self.take_number() }
    }

    fn take_pair(&mut self) -> Pair {
        Pair { coarse: self.take_byte(), fine: self.take_byte() }
    }

    pub fn take_dac(&mut self) -> RunningRecord {
        RunningRecord {
            position: self.take_word(),
            held: self.take_pair(),
            completed: self.take_pair(),
            in_force: self.take_pair(),
            high: self.take_word(),
        }
    }

    pub fn take_port(&mut self) -> PortRecord {
        let (address, attribute, character) = (self.take_byte(), self.take_byte(), self.take_byte());
        let mut words = [0; 64];
        self.take_words(&mut words);
        PortRecord { address, attribute, character, words }
    }

    pub fn take_bytes(&mut self, bytes: &mut [u8]) {
        bytes.copy_from_slice(self.take(bytes.len()));
    }

    pub fn take_words(&mut self, words: &mut [u16]) {
        for word in words {
            *word = self.take_word();
        }
    }
}

#[cfg(test)]
mod tests {
    use super::*;

    #[test]
    fn what_is_written_can_be_read() {
        let record = RunningRecord {
            position: 0x1234,
            held: Pair { coarse: 1, fine: 2 },
            completed: Pair { coarse: 3, fine: 4 },
            in_force: Pair { coarse: 5, fine: 6 },
            high: 0x5678,
        };
        let mut words = [0; 64];
        words[63] = 0x3FF;
        let port = PortRecord { address: 7, attribute: 8, character: 9, words };
        let answer = Answer { number: 1 << 31, place: 2, value: 3 };
        let mut message = Message::reply().answer(answer).dac(&record).port(&port).plain(&[5, 6]).plain_words(&[7]);
        assert_eq!(message.take_answer(), answer);
        assert_eq!(message.take_dac(), record);
        assert_eq!(message.take_port(), port);
        let (mut bytes, mut rows) = ([0; 2], [0]);
        message.take_bytes(&mut bytes);
        message.take_words(&mut rows);
        assert_eq!((bytes, rows), ([5, 6], [7]));
        assert_eq!(message.read, message.bytes.len());
    }

    #[test]
    fn slices_carry_their_count() {
        assert_eq!(Message::request(b'x').slice(&[9, 8]).bytes(), [b'x', 2, 0, 0, 0, 9, 8]);
        assert_eq!(Message::request(b'x').words(&[0x0102]).bytes(), [b'x', 1, 0, 0, 0, 2, 1]);
    }
}
