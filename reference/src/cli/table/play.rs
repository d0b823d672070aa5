//! `play` and `pulse`.

use crate::cli::case::{case, Case, Line};
use crate::cli::expect::{play, pulse, To};

fn played(name: &str, events: &str) -> Vec<Case> {
    let to = |to: To, way: &str| play(&format!("play: {name}{way}"), "e.txt", events.as_bytes(), to);
    vec![to(To::Nowhere, ""), to(To::New, ", to a file")]
}

fn good() -> Vec<Case> {
    let files: [(&str, &str); 24] = [
        ("nothing", ""),
        ("comments only", "; nothing\n\n# nothing\n \t\n"),
        ("no clock", "low 3\nhigh 1\nplay 0\nreset\n"),
        ("plays of no clock", "play 0\nreset\nplay 0x0\n"),
        ("a clock", "play 1\n"),
        ("a clock and a period", "play 1\nreset\nplay 16384\nplay 1\n"),
        ("a clock less than a period", "high 3\nplay 16383\nreset\nplay 1\nreset\nplay 2"),
        ("a high clock", "high 1\nplay 1\n"),
        ("a period", "low 3\nhigh 1\nplay 16384\n"),
        ("a period and part of one", "low 3\nhigh 1\nplay 16384\nplay 5000\n"),
        ("the greatest pair", "low 127\nhigh 127\nplay 16384\n"),
        ("only the last bits are kept", "low 0xFF\nhigh 128\nplay 16384\nhigh 255\nplay 16384\n"),
        ("a low half that waits", "low 5\nplay 16384\nhigh 0\nplay 16384\n"),
        ("retuned inside a period", "low 1\nhigh 2\nplay 100\nlow 9\nhigh 90\nplay 16284\nplay 16384\n"),
        ("retuned before the first clock", "high 2\nplay 16384\nhigh 3\nplay 1\nhigh 4\n"),
        ("a play across a period's end", "high 1\nplay 16000\nhigh 127\nplay 16384\nplay 384\n"),
        ("a reset inside a period", "high 9\nplay 10\nreset\nplay 10\nhigh 2\nplay 16374\nplay 3\n"),
        ("a reset at a period's end", "high 9\nplay 16384\nreset\nhigh 9\nplay 1\n"),
        ("resets with nothing between", "reset\nreset\nplay 3\nreset\nreset\nhigh 1\nplay 3\nreset\n"),
        ("writes and a reset without a clock", "high 9\nlow 3\nreset\nplay 5\nhigh 7\n"),
        ("writes at the end", "high 1\nplay 16384\nhigh 2\nlow 3\n"),
        ("leading zeros", "low 0003\nhigh 0x0001\nplay 00000000000000016384\n"),
        ("clock by clock", "high 2\nplay 1\nplay 1\nplay 0\nplay 1\n"),
        ("blanks and comments", "  low\t3 ; a half\nhigh 0x01#the other\n\tplay  200\t\n"),
    ];
    let mut cases: Vec<Case> = files.iter().flat_map(|(name, events)| played(name, events)).collect();
    let tune = b"low 3\r\nhigh 1\r\nplay 16384\r\nplay 77";
    for (name, file, to) in [
        ("to -", "e.txt", To::Dash),
        ("over a file", "e.txt", To::Old),
        ("from standard input", "-", To::Nowhere),
        ("from standard input to -", "-", To::Dash),
        ("from standard input to a file", "-", To::New),
    ] {
        cases.push(play(&format!("play with CR LF {name}"), file, tune, to));
        cases.push(play(&format!("play nothing {name}"), file, b"low 3\nplay 0\n", to));
        cases.push(play(&format!("play one clock {name}"), file, b"play 1", to));
    }
    cases
}

fn faults() -> Vec<Case> {
    let mut cases = Vec::new();
    for line in [
        "play 16385",
        "play 0x4001",
        "play 4294967295",
        "play 4294967296",
        "play 99999999999999999999",
        "play",
        "play x",
        "play -1",
        "play 1 2",
        "low",
        "low 256",
        "low -1",
        "low 1 1",
        "high 256",
        "high 0x100",
        "high x",
        "reset 1",
        "stop",
        "Low 1",
        "14",
        "low 1\0",
        "\u{e9}",
    ] {
        let events = format!("high 1\n\nplay 300\n{line}\nplay 5\n");
        cases.push(play(&format!("play: {}", line.escape_default()), "e.txt", events.as_bytes(), To::Old));
    }
    let last = "high 1\nplay 16384\n".repeat(20) + "play 16385";
    let long = format!("play 1\nplay {}\n", "9".repeat(60_000));
    cases.push(play("play: refused at the end", "e.txt", last.as_bytes(), To::Nowhere));
    cases.push(play("play: refused at the end, to -", "-", last.as_bytes(), To::Dash));
    cases.push(play("play: a very long number", "e.txt", long.as_bytes(), To::New));
    cases.push(play("play: two faults", "e.txt", b"play 16385\nstop\n", To::Old));
    let none = Line::exactly("none: cannot be read: No such file or directory");
    cases.push(case("play a file that is not there", "play none -o out").status(2).says(none));
    cases
}

fn pulses() -> Vec<Case> {
    let mut cases = Vec::new();
    for channel in 0..8 {
        for byte in [0, 1, 63, 64, 127, 128, 194, 255] {
            cases.push(pulse(channel, byte, &format!("{channel} {byte}")));
        }
    }
    cases.push(pulse(4, 194, "0x4 0xc2"));
    cases.push(pulse(4, 194, "004 0194"));
    cases.push(pulse(7, 9, "-- 7 9"));
    for channel in [8, 9, u32::MAX] {
        cases.push(pulse(channel, 0, &format!("{channel} 0")));
    }
    cases
}

pub fn all() -> Vec<Case> {
    [good(), faults(), pulses()].concat()
}
