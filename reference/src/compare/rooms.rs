//! The room lent to a call, once for each side, and the judgement on what both sides came to.

use crate::parts::Answer;
use crate::random::Random;
use std::fmt::Display;
use std::ops::Range;

/// What lies on both sides of the room and is not lent: a call that goes past its room shows here.
const MARGIN: usize = 16;

/// Two copies of one room, alike before the calls.
pub(crate) struct Rooms<T> {
    before: Vec<T>,
    expected: Vec<T>,
    got: Vec<T>,
}

impl Rooms<u8> {
    /// Rooms of `length` random bytes.
    pub fn of_bytes(length: usize, random: &mut Random) -> Self {
        let mut before = vec![0; MARGIN + length + MARGIN];
        random.fill(&mut before);
        Rooms::holding(before)
    }
}

impl Rooms<u16> {
    /// Rooms of `length` random font rows, most of them no good as such.
    pub fn of_rows(length: usize, random: &mut Random) -> Self {
        Rooms::holding((0..MARGIN + length + MARGIN).map(|_| random.word()).collect())
    }
}

impl<T: Clone + PartialEq + Display> Rooms<T> {
    fn holding(before: Vec<T>) -> Self {
        Rooms { expected: before.clone(), got: before.clone(), before }
    }

    fn lent(&self) -> Range<usize> {
        MARGIN..self.before.len() - MARGIN
    }

    /// The room to lend to the model.
    pub fn model(&mut self) -> &mut [T] {
        let lent = self.lent();
        &mut self.expected[lent]
    }

    /// The room to lend to the library.
    pub fn library(&mut self) -> &mut [T] {
        let lent = self.lent();
        &mut self.got[lent]
    }

    /// Says where the two first differ, if they do. Places in the margins are below 0 or past the room's length.
    pub fn difference(&self) -> Option<String> {
        if self.expected == self.got {
            return None;
        }
        let at = (0..self.before.len()).find(|&at| self.expected[at] != self.got[at])?;
        Some(format!(
            "  at place {} of a room of {}: model {}, library {}, before the call {}",
            at as i64 - MARGIN as i64,
            self.lent().len(),
            self.expected[at],
            self.got[at],
            self.before[at]
        ))
    }
}

/// Judges the two answers, the model's first, and how the rooms differ after the calls.
pub(crate) fn judge(
    answers: [Answer; 2],
    difference: Option<String>,
    inputs: impl FnOnce() -> String,
) -> Result<Answer, String> {
    let [expected, got] = answers;
    let what = if got != expected {
        format!("the answers differ\n  model   {expected:?}\n  library {got:?}")
    } else if let Some(difference) = difference {
        format!("the rooms differ after {expected:?}\n{difference}")
    } else {
        return Ok(expected);
    };
    Err(format!("{what}\n  {}", inputs()))
}

#[cfg(test)]
mod tests {
    use super::*;

    #[test]
    fn a_change_on_one_side_is_seen_in_the_room_and_round_it() {
        let mut random = Random::new(5);
        let mut rooms = Rooms::of_bytes(4, &mut random);
        assert_eq!(rooms.model().len(), 4);
        assert_eq!(rooms.difference(), None);
        rooms.model()[3] ^= 1;
        assert!(rooms.difference().unwrap().contains("place 3 of a room of 4"));
        rooms.library()[3] ^= 1;
        assert_eq!(rooms.difference(), None);
        rooms.got[MARGIN + 4] ^= 1;
        assert!(rooms.difference().unwrap().contains("place 4 of"));
        rooms.got[MARGIN - 1] ^= 1;
        assert!(rooms.difference().unwrap().contains("place -1 of"));
    }

    #[test]
    fn an_empty_room_can_be_lent() {
        let mut rooms = Rooms::of_rows(0, &mut Random::new(5));
        assert!(rooms.library().is_empty());
    }
}
