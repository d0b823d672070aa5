//! One run of the program, and what it must come to.

use super::folder::{Folder, Thing, Things};
use super::glyphs::hidden;
use super::program::{End, Ended, Order, Program};
use super::report::{difference, indented, shown, typed};
use std::ffi::{OsStr, OsString};

/// A line of standard error, with those right under it that belong to it. Where its wording is free, only its start and
/// its end are known, and what it has to name.
#[derive(Clone, Debug)]
pub struct Line {
    pub start: String,
    pub names: Vec<String>,
    /// Sets of names of which one will do; none if there is no set.
    one_of: Vec<Vec<String>>,
    pub end: String,
    /// Whether anything may stand between start and end.
    free: bool,
    /// The lines right under it, to the letter.
    under: Box<[String]>,
}

impl Line {
    pub fn new(start: impl Into<String>, end: impl Into<String>) -> Self {
        let (start, end) = (start.into(), end.into());
        Line { start, names: Vec::new(), one_of: Vec::new(), end, free: true, under: Box::default() }
    }

    pub fn exactly(text: impl Into<String>) -> Self {
        Line::new(text, "").without_more()
    }

    /// Nothing stands between start and end.
    pub fn without_more(mut self) -> Self {
        self.free = false;
        self
    }

    /// With these lines right under it.
    pub fn over(mut self, lines: impl IntoIterator<Item = String>) -> Self {
        self.under = lines.into_iter().collect();
        self
    }

    pub fn naming(mut self, what: impl Into<String>) -> Self {
        self.names.push(what.into());
        self
    }

    pub fn naming_one_of(mut self, sets: Vec<Vec<String>>) -> Self {
        self.one_of = sets;
        self
    }

    fn fits(&self, line: &str) -> bool {
        let rest = line.strip_prefix(self.start.as_str()).and_then(|rest| rest.strip_suffix(self.end.as_str()));
        let all = |names: &Vec<String>| names.iter().all(|name| has(line, name));
        rest.is_some_and(|rest| self.free || rest.is_empty())
            && all(&self.names)
            && (self.one_of.is_empty() || self.one_of.iter().any(all))
    }

    /// How many lines it is, with those under it.
    fn height(&self) -> usize {
        1 + self.under.len()
    }

    /// Whether it is the first of these lines, and those under it are the next.
    fn leads(&self, lines: &[&str]) -> bool {
        lines.len() >= self.height() && self.fits(lines[0]) && *self.under == lines[1..self.height()]
    }
}

/// Whether a line has a name, and not as part of a longer word or number.
fn has(line: &str, name: &str) -> bool {
    let joined = |one: Option<char>, other: Option<char>| {
        one.is_some_and(|one| one.is_ascii_alphanumeric()) && other.is_some_and(|other| other.is_ascii_alphanumeric())
    };
    line.match_indices(name).any(|(at, _)| {
        let (before, after) = (&line[..at], &line[at + name.len()..]);
        !joined(before.chars().last(), name.chars().next()) && !joined(name.chars().last(), after.chars().next())
    })
}

impl std::fmt::Display for Line {
    fn fmt(&self, out: &mut std::fmt::Formatter) -> std::fmt::Result {
        write!(out, "{}", self.start)?;
        for name in &self.names {
            write!(out, "..{name}")?;
        }
        if let Some(set) = self.one_of.first() {
            write!(out, "..{}{}", set.join(".."), if self.one_of.len() > 1 { " or others" } else { "" })?;
        }
        write!(out, "{}{}", if self.free { ".." } else { "" }, self.end)?;
        self.under.iter().try_for_each(|line| write!(out, "\n{line}"))
    }
}

/// What standard output must be.
#[derive(Clone, Debug)]
pub enum Out {
    Exactly(Vec<u8>),
    /// Text that has each of these words.
    Naming(Vec<String>),
    /// Empty unless the status is 0.
    IfDone,
    Anything,
}

/// What standard error must be.
#[derive(Clone, Debug)]
pub enum Said {
    Exactly(Vec<u8>),
    Lines(Vec<Line>),
    /// All the lines that are due and any of the others, in any order: where either will do.
    Among {
        due: Vec<Line>,
        others: Vec<Line>,
    },
    /// Not empty unless the status is 0.
    IfNotDone,
}

/// What becomes of a file.
#[derive(Clone, Debug)]
pub enum Written {
    Exactly(Vec<u8>),
    /// This test holds of it if the status is 0; else it is as it was.
    IfDone(fn(&[u8]) -> bool),
}

#[derive(Clone, Debug)]
pub struct Case {
    pub name: String,
    pub things: Vec<(OsString, Thing)>,
    pub words: Vec<Vec<u8>>,
    pub input: Option<Vec<u8>>,
    /// A file that is standard input.
    pub input_file: Option<String>,
    pub full: bool,
    /// 0, 1 or 2 if not given.
    pub status: Option<i32>,
    pub out: Out,
    pub said: Said,
    /// Every file that is new or changed; all else in the folder stays.
    pub written: Vec<(OsString, Written)>,
}

/// A case that is done, says nothing and writes nothing: what differs is added.
pub fn case(name: &str, words: &str) -> Case {
    Case {
        name: name.to_string(),
        things: Vec::new(),
        words: words.split(' ').filter(|word| !word.is_empty()).map(|word| word.as_bytes().to_vec()).collect(),
        input: None,
        input_file: None,
        full: false,
        status: Some(0),
        out: Out::Exactly(Vec::new()),
        said: Said::Lines(Vec::new()),
        written: Vec::new(),
    }
}

impl Case {
    pub fn file(self, name: impl AsRef<OsStr>, bytes: impl Into<Vec<u8>>) -> Self {
        self.thing(name, Thing::file(bytes))
    }

    pub fn thing(mut self, name: impl AsRef<OsStr>, thing: Thing) -> Self {
        self.things.push((name.as_ref().to_os_string(), thing));
        self
    }

    pub fn word(mut self, word: impl Into<Vec<u8>>) -> Self {
        self.words.push(word.into());
        self
    }

    pub fn input(mut self, bytes: impl Into<Vec<u8>>) -> Self {
        self.input = Some(bytes.into());
        self
    }

    pub fn input_file(mut self, name: &str) -> Self {
        self.input_file = Some(name.to_string());
        self
    }

    pub fn full(mut self) -> Self {
        self.full = true;
        self
    }

    pub fn status(mut self, status: i32) -> Self {
        self.status = Some(status);
        self
    }

    pub fn any_status(mut self) -> Self {
        self.status = None;
        self
    }

    pub fn out(mut self, bytes: impl Into<Vec<u8>>) -> Self {
        self.out = Out::Exactly(bytes.into());
        self
    }

    pub fn out_naming(mut self, words: &[&str]) -> Self {
        self.out = Out::Naming(words.iter().map(|word| word.to_string()).collect());
        self
    }

    pub fn out_if_done(mut self) -> Self {
        self.out = Out::IfDone;
        self
    }

    pub fn any_out(mut self) -> Self {
        self.out = Out::Anything;
        self
    }

    /// One more line of standard error.
    pub fn says(mut self, line: Line) -> Self {
        match &mut self.said {
            Said::Lines(lines) => lines.push(line),
            said => *said = Said::Lines(vec![line]),
        }
        self
    }

    pub fn said(mut self, said: Said) -> Self {
        self.said = said;
        self
    }

    pub fn writes(mut self, name: impl AsRef<OsStr>, bytes: impl Into<Vec<u8>>) -> Self {
        self.written.push((name.as_ref().to_os_string(), Written::Exactly(bytes.into())));
        self
    }

    pub fn writes_if_done(mut self, name: &str, complete: fn(&[u8]) -> bool) -> Self {
        self.written.push((name.into(), Written::IfDone(complete)));
        self
    }

    /// The words as they would be typed.
    pub fn command(&self) -> String {
        let words: Vec<String> = self.words.iter().map(|word| typed(word)).collect();
        let input = match (&self.input_file, &self.input) {
            (Some(name), _) => format!(" <{name}"),
            (None, Some(_)) => " <stdin.given".to_string(),
            (None, None) => String::new(),
        };
        format!("dirgeflint {}{}{}", words.join(" "), input, if self.full { " >/dev/full" } else { "" })
    }

    /// Runs the case in an empty folder; a difference is what was due and what came.
    pub fn judge(&self, program: &Program, folder: &Folder) -> Result<(), String> {
        let trouble = |error| format!("the case cannot be run: {error}");
        for (name, thing) in &self.things {
            folder.put(name, thing).map_err(trouble)?;
        }
        let before = folder.things().map_err(trouble)?;
        let order = Order {
            words: &self.words,
            input: self.input.as_deref(),
            input_file: self.input_file.as_deref(),
            folder: folder.path(),
            full: self.full,
        };
        let ended = program.run(&order).map_err(trouble)?;
        let after = folder.things().map_err(trouble)?;
        let differences = [
            self.judge_end(&ended),
            self.judge_out(&ended),
            self.judge_said(&ended),
            self.judge_things(&ended, before, &after),
        ];
        let differences: Vec<String> = differences.into_iter().flatten().collect();
        if differences.is_empty() {
            return Ok(());
        }
        Err(format!("{}\nit said:\n{}", differences.join("\n"), indented(&shown(&ended.err, 2000))))
    }

    fn judge_end(&self, ended: &Ended) -> Option<String> {
        match (ended.end, self.status) {
            (End::Status(got), Some(due)) if got == due => None,
            (End::Status(0..=2), None) => None,
            (End::Status(got), Some(due)) => Some(format!("status {got}, and {due} is due")),
            (End::Status(got), None) => Some(format!("status {got}, and only 0, 1 and 2 are possible")),
            (End::Signal(signal), _) => Some(format!("ended by signal {signal}")),
            (End::Hung, _) => Some("it did not end in time".to_string()),
        }
    }

    fn judge_out(&self, ended: &Ended) -> Option<String> {
        if self.full {
            return None;
        }
        let wrong = match &self.out {
            Out::Exactly(due) => difference(due, &ended.out),
            Out::Naming(names) => {
                let text = String::from_utf8_lossy(&ended.out);
                let missing: Vec<&str> = names.iter().map(String::as_str).filter(|name| !text.contains(name)).collect();
                (!missing.is_empty()).then(|| format!("does not name: {}", missing.join(", ")))
            }
            Out::IfDone if ended.end != End::Status(0) => difference(b"", &ended.out),
            Out::IfDone | Out::Anything => None,
        };
        wrong.map(|wrong| format!("standard output {wrong}"))
    }

    fn judge_said(&self, ended: &Ended) -> Option<String> {
        let wrong = match &self.said {
            Said::Exactly(due) => difference(due, &ended.err),
            Said::Lines(due) => lines_differ(due, &ended.err),
            Said::Among { due, others } => lines_not_among(due, others, &ended.err),
            Said::IfNotDone => {
                (ended.err.is_empty() && ended.end != End::Status(0)).then(|| "is empty, and it failed".to_string())
            }
        };
        wrong.or_else(|| self.unreadable(&ended.err)).map(|wrong| format!("standard error {wrong}"))
    }

    /// Whatever the input has, a message is for people: printable, in whole lines, not too long.
    fn unreadable(&self, err: &[u8]) -> Option<String> {
        if !err.is_empty() && !err.ends_with(b"\n") {
            return Some("does not end with a line's end".to_string());
        }
        let control = err.iter().any(|&byte| byte < b' ' && byte != b'\n' || byte == 127);
        // Bytes above 127 may be those of a file's name, which is shown in the user's own letters.
        let plain = self.words.iter().flatten().all(u8::is_ascii);
        if control || plain && !self.in_letters(err) {
            return Some("has a byte that is not printable".to_string());
        }
        let longest = err.split(|&byte| byte == b'\n').map(<[u8]>::len).max().unwrap_or(0);
        (longest > LONGEST_MESSAGE).then(|| format!("has a line of {longest} bytes"))
    }

    /// Whether what is said is in ASCII, or of a command that shows glyphs' names in letters that these may have.
    fn in_letters(&self, err: &[u8]) -> bool {
        let names = self.words.first().is_some_and(|word| word == b"pack" || word == b"paint");
        let seen = |letter: char| letter.is_ascii() || names && !hidden(letter);
        std::str::from_utf8(err).is_ok_and(|text| text.chars().all(seen))
    }

    fn judge_things(&self, ended: &Ended, before: Things, after: &Things) -> Option<String> {
        let mut due = before;
        let mut wrong = Vec::new();
        for (name, written) in &self.written {
            let name = name.clone();
            match written.due(after.get(&name), ended.end == End::Status(0)) {
                Due::AsItWas => {}
                Due::Bytes(bytes) => {
                    // A file that was there keeps its permissions.
                    let mode = due.get(&name).and_then(Thing::mode);
                    due.insert(name, Thing::File { bytes, mode });
                }
                Due::More => wrong.push(format!("{} is not complete", name.to_string_lossy())),
            }
        }
        wrong.extend(things_differ(&due, after));
        (!wrong.is_empty()).then(|| wrong.join("\n"))
    }
}

/// What a file must be after a run.
enum Due {
    AsItWas,
    Bytes(Vec<u8>),
    /// More than it is: it is not complete.
    More,
}

impl Written {
    fn due(&self, got: Option<&Thing>, done: bool) -> Due {
        match (self, got) {
            (Written::Exactly(bytes), _) => Due::Bytes(bytes.clone()),
            (Written::IfDone(_), _) if !done => Due::AsItWas,
            (Written::IfDone(complete), Some(Thing::File { bytes, .. })) if complete(bytes) => {
                Due::Bytes(bytes.clone())
            }
            _ => Due::More,
        }
    }
}

const LONGEST_MESSAGE: usize = 600;

fn things_differ(due: &Things, got: &Things) -> Vec<String> {
    let mut wrong = Vec::new();
    for (name, thing) in due {
        let name_shown = name.to_string_lossy();
        match (thing, got.get(name)) {
            (_, None) => wrong.push(format!("{name_shown} is missing")),
            (Thing::File { bytes, mode }, Some(Thing::File { bytes: other, mode: other_mode })) => {
                wrong.extend(difference(bytes, other).map(|what| format!("{name_shown} {what}")));
                if mode != other_mode {
                    let (got, due) = (permissions(*other_mode), permissions(*mode));
                    wrong.push(format!("{name_shown} has {got} permissions, and {due} are due"));
                }
            }
            (due, Some(other)) if due == other => {}
            (_, Some(_)) => wrong.push(format!("{name_shown} is no longer what it was")),
        }
    }
    let more = got.keys().filter(|name| !due.contains_key(*name));
    wrong.extend(more.map(|name| format!("{} is left in the folder", name.to_string_lossy())));
    wrong
}

fn permissions(mode: Option<u32>) -> String {
    mode.map_or("the usual".to_string(), |mode| format!("{mode:o}"))
}

fn lines_differ(due: &[Line], err: &[u8]) -> Option<String> {
    let text = String::from_utf8_lossy(err);
    let lines: Vec<&str> = text.split_terminator('\n').collect();
    let after = due.iter().try_fold(&lines[..], |rest, line| line.leads(rest).then(|| &rest[line.height()..]));
    (!after.is_some_and(<[_]>::is_empty)).then(|| format!("is not what is due:\n{}", listed(due)))
}

fn lines_not_among(due: &[Line], others: &[Line], err: &[u8]) -> Option<String> {
    let text = String::from_utf8_lossy(err);
    let lines: Vec<&str> = text.split_terminator('\n').collect();
    let said = |known: &Line| (0..lines.len()).filter(|&at| known.leads(&lines[at..])).count();
    // No two lines that are known here fit the same line.
    let all: usize = due.iter().chain(others).map(|known| known.height() * said(known)).sum();
    let right =
        due.iter().all(|known| said(known) == 1) && others.iter().all(|known| said(known) <= 1) && all == lines.len();
    (!right).then(|| format!("is not what is due:\n{}", listed(due)))
}

fn listed(due: &[Line]) -> String {
    let lines: Vec<String> = due.iter().map(|line| indented(&line.to_string())).collect();
    if lines.is_empty() {
        "  nothing".to_string()
    } else {
        lines.join("\n")
    }
}
