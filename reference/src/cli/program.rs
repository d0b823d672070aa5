//! The program as a process: what it is given, and how it ends.

use std::ffi::{OsStr, OsString};
use std::fs::{File, OpenOptions};
use std::io::{self, Read, Write};
use std::os::unix::ffi::OsStrExt;
use std::os::unix::process::ExitStatusExt;
use std::path::Path;
use std::process::{Child, Command, ExitStatus, Stdio};
use std::sync::mpsc::{channel, Receiver, Sender};
use std::thread::{self, JoinHandle};
use std::time::{Duration, Instant};

/// How the program is started, and how long one run may take.
#[derive(Clone, Debug)]
pub struct Program {
    /// The command that runs it, if it cannot run by itself, and its path.
    pub words: Vec<OsString>,
    pub limit: Duration,
}

/// One run: the words after the program's name, and what surrounds it.
#[derive(Clone, Copy, Debug)]
pub struct Order<'a> {
    pub words: &'a [Vec<u8>],
    /// Standard input, through a pipe; it is empty if none is given.
    pub input: Option<&'a [u8]>,
    /// A file of the folder that is standard input instead.
    pub input_file: Option<&'a str>,
    /// Where it runs.
    pub folder: &'a Path,
    /// Standard output is a disk with no room left.
    pub full: bool,
}

#[derive(Clone, Copy, Debug, PartialEq, Eq)]
pub enum End {
    Status(i32),
    Signal(i32),
    /// Stopped because its time was over.
    Hung,
}

#[derive(Clone, Debug)]
pub struct Ended {
    pub end: End,
    pub out: Vec<u8>,
    pub err: Vec<u8>,
}

impl Program {
    pub fn run(&self, order: &Order) -> io::Result<Ended> {
        let mut child = Command::new(&self.words[0])
            .args(&self.words[1..])
            .args(order.words.iter().map(|word| OsStr::from_bytes(word)))
            .current_dir(order.folder)
            .stdin(match order.input_file {
                Some(name) => File::open(order.folder.join(name))?.into(),
                None if order.input.is_some() => Stdio::piped(),
                None => Stdio::null(),
            })
            .stdout(if order.full { full()? } else { Stdio::piped() })
            .stderr(Stdio::piped())
            .spawn()?;
        if let (Some(pipe), Some(input)) = (child.stdin.take(), order.input) {
            feed(pipe, input.to_vec());
        }
        // Each reader holds a sender until its pipe is over.
        let (sender, over) = channel();
        let out = collect(child.stdout.take(), sender.clone());
        let err = collect(child.stderr.take(), sender);
        let end = wait(&mut child, &over, Instant::now() + self.limit)?;
        Ok(Ended { end, out: out.join().unwrap_or_default(), err: err.join().unwrap_or_default() })
    }
}

fn full() -> io::Result<Stdio> {
    Ok(OpenOptions::new().write(true).open("/dev/full")?.into())
}

/// Writes standard input beside the run. A program that does not read all of it is no fault.
fn feed(mut pipe: impl Write + Send + 'static, input: Vec<u8>) {
    thread::spawn(move || {
        let _ = pipe.write_all(&input);
    });
}

fn collect(pipe: Option<impl Read + Send + 'static>, sender: Sender<()>) -> JoinHandle<Vec<u8>> {
    thread::spawn(move || {
        let mut bytes = Vec::new();
        if let Some(mut pipe) = pipe {
            let _ = pipe.read_to_end(&mut bytes);
        }
        drop(sender);
        bytes
    })
}

/// Waits until both pipes are over, and then for the end itself.
fn wait(child: &mut Child, over: &Receiver<()>, deadline: Instant) -> io::Result<End> {
    // Nothing is ever sent: this returns when both senders are gone, or the time is.
    let _ = over.recv_timeout(deadline.saturating_duration_since(Instant::now()));
    loop {
        if let Some(status) = child.try_wait()? {
            return Ok(end_of(status));
        }
        if Instant::now() >= deadline {
            child.kill()?;
            child.wait()?;
            return Ok(End::Hung);
        }
        thread::sleep(Duration::from_micros(100));
    }
}

fn end_of(status: ExitStatus) -> End {
    match status.code() {
        Some(code) => End::Status(code),
        None => End::Signal(status.signal().unwrap_or_default()),
    }
}
