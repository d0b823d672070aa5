//! The write port: sequences of resets and writes on made-up records, the whole record compared after each.

use super::{run as drive, CaseResult, Difference, Part, Plan};
use crate::model::Model;
use crate::parts::{Port, PortRecord};
use crate::random::Random;

const SEQUENCES: u64 = 50_000;

#[derive(Clone, Copy, Debug)]
enum Call {
    Reset,
    Address(u8),
    Attribute(u8),
    Character(u8),
}

fn apply(side: &dyn Port, port: &mut PortRecord, call: Call) {
    match call {
        Call::Reset => side.reset(port),
        Call::Address(byte) => side.write_address(port, byte),
        Call::Attribute(byte) => side.write_attribute(port, byte),
        Call::Character(byte) => side.write_character(port, byte),
    }
}

fn made_up(random: &mut Random) -> PortRecord {
    let mut port = PortRecord { address: 0xFF, attribute: 0xFF, character: 0xFF, words: [0xFFFF; 64] };
    if random.one_in(8) {
        return port;
    }
    // Half of these hold kept bits only, as a record made by calls does.
    let (register, word) = if random.one_in(2) { (0xFF, 0xFFFF) } else { (0x3F, 0x03FF) };
    port.address = random.byte() & register;
    port.attribute = random.byte() & register & if register == 0xFF { 0xFF } else { 0x0F };
    port.character = random.byte() & register;
    port.words = std::array::from_fn(|_| random.word() & word);
    port
}

fn random_call(random: &mut Random) -> Call {
    match random.below(32) {
        0 => Call::Reset,
        1..=4 => Call::Address(random.byte()),
        5..=8 => Call::Address(random.pick(&[0, 62, 63, 64, 127, 191, 255])),
        9..=15 => Call::Attribute(random.byte()),
        _ => Call::Character(random.byte()),
    }
}

fn case(subject: &dyn Port, random: &mut Random) -> CaseResult {
    let start = made_up(random);
    let (mut expected, mut got) = (start, start);
    let mut calls = Vec::new();
    // Now and then more than 64 writes, so that the address comes round.
    let length = if random.one_in(10) { 150 } else { random.between(1, 20) };
    while calls.len() < length {
        // Half of the sequences start as a host does.
        let call = if calls.is_empty() && random.one_in(2) { Call::Reset } else { random_call(random) };
        calls.push(call);
        apply(&Model, &mut expected, call);
        apply(subject, &mut got, call);
        if got != expected {
            return Err(format!("from {start:?}\n  calls {calls:?}\n  model   {expected:?}\n  library {got:?}"));
        }
    }
    Ok(length as u64)
}

pub fn run(subject: &dyn Port, plan: &Plan, say: &mut dyn FnMut(String)) -> Result<u64, Difference> {
    let part = Part {
        name: "port",
        what: "random sequences of resets and register writes",
        cases: SEQUENCES,
        case: &|_, random| case(subject, random),
    };
    drive(&part, plan, say)
}

#[cfg(test)]
mod tests {
    use super::*;
    use crate::compare::testing::silent;
    use crate::fast::Fast;

    fn some(subject: &dyn Port) -> Result<u64, Difference> {
        run(subject, &Plan { count: Some(2000), ..Plan::default() }, &mut silent)
    }

    #[test]
    fn the_fast_one_agrees_with_the_model() {
        assert!(some(&Fast).unwrap() > 20_000);
    }

    enum Mistake {
        ResetsRegistersOnly,
        StoresNothing,
        NoWrap,
        RawWordsStay,
        EventOnly,
    }

    impl Port for Mistake {
        fn reset(&self, port: &mut PortRecord) {
            let before = *port;
            Model.reset(port);
            if let Mistake::ResetsRegistersOnly = self {
                port.words = before.words;
            }
        }

        fn write_address(&self, port: &mut PortRecord, byte: u8) {
            let before = *port;
            Model.write_address(port, byte);
            if let Mistake::RawWordsStay = self {
                port.words = before.words;
            }
        }

        fn write_attribute(&self, port: &mut PortRecord, byte: u8) {
            Model.write_attribute(port, byte);
        }

        fn write_character(&self, port: &mut PortRecord, byte: u8) {
            let before = *port;
            Model.write_character(port, byte);
            match self {
                Mistake::StoresNothing => port.words = before.words,
                Mistake::NoWrap if port.address == 0 => port.address = 64,
                Mistake::EventOnly => port.character = before.character,
                _ => {}
            }
        }
    }

    #[test]
    fn every_planted_mistake_is_found() {
        use Mistake::*;
        for mistake in [ResetsRegistersOnly, StoresNothing, NoWrap, RawWordsStay, EventOnly] {
            assert!(some(&mistake).unwrap_err().report.contains("library"));
        }
    }
}
