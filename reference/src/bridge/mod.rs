//! The library under test, called over the bridge.
//!
//! The library is x86-64 code, whatever processor this program runs on. So it lives in a process of its own, the
//! bridge, which answers requests over its standard input and output; `bridge/bridge.c` is that process and tells the
//! protocol.
//!
//! Waiting for each reply would take most of the time of a comparison. `Library::ahead` therefore does not wait: it
//! returns what `fast` predicts, and a second thread holds the replies against the predictions as they come in.
//! What the comparison sees is then the prediction, so the library is right exactly if both agree: the prediction with
//! the model, and the reply with the prediction. `Library::alone` waits, and shows the library's own answers.

mod calls;
mod message;

use message::Message;
use std::cell::{Cell, RefCell};
use std::io::{BufReader, BufWriter, Read, Write};
use std::process::{Child, ChildStdin, ChildStdout, Command, Stdio};
use std::sync::atomic::{AtomicU64, Ordering};
use std::sync::mpsc::{channel, Sender};
use std::sync::Arc;
use std::thread::{spawn, JoinHandle};

/// How to start the bridge: a command, and the words after it.
#[derive(Clone, Debug)]
pub struct Start {
    pub words: Vec<String>,
}

/// No case has this index.
const NONE: u64 = u64::MAX;

pub struct Library {
    process: RefCell<Child>,
    requests: RefCell<Option<BufWriter<ChildStdin>>>,
    replies: Replies,
    /// The case under way.
    case: Cell<u64>,
}

enum Replies {
    Awaited(RefCell<BufReader<ChildStdout>>),
    Predicted {
        predictions: RefCell<Option<Sender<Prediction>>>,
        checker: RefCell<Option<JoinHandle<()>>>,
        first_wrong: Arc<AtomicU64>,
    },
}

struct Prediction {
    case: u64,
    reply: Message,
}

/// Reads a reply for each prediction. Returns early, with the case noted, once one differs or the bridge has stopped.
fn check(
    mut replies: BufReader<ChildStdout>,
    predictions: std::sync::mpsc::Receiver<Prediction>,
    first_wrong: &AtomicU64,
) {
    let mut reply = Vec::new();
    for prediction in predictions {
        let due = prediction.reply.bytes();
        reply.resize(due.len(), 0);
        if replies.read_exact(&mut reply).is_err() || reply != due {
            first_wrong.store(prediction.case, Ordering::Release);
            return;
        }
    }
}

impl Library {
    fn start(start: &Start, replies: impl FnOnce(BufReader<ChildStdout>) -> Replies) -> Result<Self, String> {
        let (command, words) = start.words.split_first().ok_or("no command is given to start the bridge")?;
        let mut process = Command::new(command)
            .args(words)
            .stdin(Stdio::piped())
            .stdout(Stdio::piped())
            .spawn()
            .map_err(|error| format!("the bridge does not start with {:?}: {error}", start.words))?;
        let requests = BufWriter::with_capacity(1 << 16, process.stdin.take().expect("its input is a pipe"));
        let output = BufReader::with_capacity(1 << 16, process.stdout.take().expect("its output is a pipe"));
        Ok(Library {
            process: RefCell::new(process),
            requests: RefCell::new(Some(requests)),
            replies: replies(output),
            case: Cell::new(NONE),
        })
    }

    /// Waits for each reply.
    pub fn alone(start: &Start) -> Result<Self, String> {
        Library::start(start, |replies| Replies::Awaited(RefCell::new(replies)))
    }

    /// Predicts the replies and has them checked on the way.
    pub fn ahead(start: &Start) -> Result<Self, String> {
        Library::start(start, |replies| {
            let (sender, receiver) = channel();
            let first_wrong = Arc::new(AtomicU64::new(NONE));
            let noted = first_wrong.clone();
            let checker = spawn(move || check(replies, receiver, &noted));
            Replies::Predicted {
                predictions: RefCell::new(Some(sender)),
                checker: RefCell::new(Some(checker)),
                first_wrong,
            }
        })
    }

    /// Takes note that a case begins. False if a wrong prediction has come to light and the run can stop.
    pub fn begin(&self, case: u64) -> bool {
        self.case.set(case);
        match &self.replies {
            Replies::Awaited(_) => true,
            Replies::Predicted { first_wrong, .. } => first_wrong.load(Ordering::Acquire) == NONE,
        }
    }

    /// Waits until every reply is in, and returns the first case with a reply that was not predicted.
    pub fn finish(self) -> Option<u64> {
        // Closing its input lets the bridge send what it holds back, and end.
        drop(self.requests.borrow_mut().take());
        let first = match &self.replies {
            Replies::Awaited(_) => NONE,
            Replies::Predicted { predictions, checker, first_wrong } => {
                drop(predictions.borrow_mut().take());
                if let Some(checker) = checker.borrow_mut().take() {
                    checker.join().expect("the checker does not panic");
                }
                first_wrong.load(Ordering::Acquire)
            }
        };
        (first != NONE).then_some(first)
    }

    /// Sends a request. The reply is the library's own or the predicted one.
    fn exchange(&self, request: &Message, predict: impl FnOnce() -> Message) -> Message {
        match &self.replies {
            Replies::Awaited(replies) => {
                self.send(request, true);
                // A reply is as long as the prediction: the request alone decides on the length.
                let mut reply = vec![0; predict().bytes().len()];
                let fault = if replies.borrow_mut().read_exact(&mut reply).is_err() {
                    Some("the bridge stopped instead of replying; the library may have crashed")
                } else if reply[0] != 0 {
                    Some("the library wrote outside the memory lent to it, or to memory lent for reading")
                } else {
                    None
                };
                if let Some(fault) = fault {
                    // No right reply looks like this, so the comparison ends here and shows the inputs.
                    eprintln!("bridge: {fault}");
                    reply.fill(0xFF);
                }
                Message::from_bytes(reply)
            }
            Replies::Predicted { predictions, .. } => {
                let reply = predict();
                let prediction = Prediction { case: self.case.get(), reply: reply.clone() };
                if let Some(predictions) = &*predictions.borrow() {
                    // Fails only when the checker has already found a difference.
                    let _ = predictions.send(prediction);
                }
                self.send(request, false);
                reply
            }
        }
    }

    fn send(&self, request: &Message, awaited: bool) {
        let mut requests = self.requests.borrow_mut();
        let requests = requests.as_mut().expect("requests are open until the end");
        // A bridge that has gone shows in its replies, so failures to write are passed over here.
        let _ = requests.write_all(request.bytes());
        if awaited {
            let _ = requests.write_all(b".");
            let _ = requests.flush();
        }
    }
}

impl Drop for Library {
    fn drop(&mut self) {
        drop(self.requests.borrow_mut().take());
        let process = self.process.get_mut();
        let _ = process.kill();
        let _ = process.wait();
    }
}

#[cfg(test)]
mod tests {
    use super::*;
    use crate::compare::pulse;
    use crate::compare::testing::silent;
    use crate::compare::Plan;

    fn start(words: &[&str]) -> Start {
        Start { words: words.iter().map(|word| word.to_string()).collect() }
    }

    /// A bridge to a library whose small outputs are always low and that refuses nothing: every reply is all zeros.
    /// It is right for a byte of 0 inside the period, so the first case that shows it is the clock after that.
    const ALWAYS_LOW: &[&str] = &["cat", "/dev/zero"];

    fn first_wrong_ahead(words: &[&str], cases: u64) -> Option<u64> {
        let library = Library::ahead(&start(words)).unwrap();
        let plan = Plan { count: Some(cases), go_on: &|case| library.begin(case), ..Plan::default() };
        pulse::run(&library, &plan, &mut silent).expect("predictions agree with the model");
        library.finish()
    }

    #[test]
    fn a_wrong_library_is_found_ahead() {
        assert_eq!(first_wrong_ahead(ALWAYS_LOW, 128), None);
        assert_eq!(first_wrong_ahead(ALWAYS_LOW, 129), Some(128));
        assert_eq!(first_wrong_ahead(ALWAYS_LOW, 500_000), Some(128));
    }

    #[test]
    fn a_wrong_library_is_shown_alone() {
        let library = Library::alone(&start(ALWAYS_LOW)).unwrap();
        let difference = pulse::run(&library, &Plan::default(), &mut silent).unwrap_err();
        assert_eq!(difference.index, 128);
        assert!(difference.report.contains("library Answer { number: 0, place: 0, value: 0 }"));
    }

    #[test]
    fn a_bridge_that_stops_is_a_difference() {
        assert_eq!(first_wrong_ahead(&["true"], 10), Some(0));
        let library = Library::alone(&start(&["true"])).unwrap();
        assert_eq!(pulse::run(&library, &Plan::default(), &mut silent).unwrap_err().index, 0);
    }

    #[test]
    fn a_bridge_that_is_not_there_is_said_so() {
        assert!(Library::ahead(&start(&["no such program"])).err().unwrap().contains("does not start"));
        assert!(Library::alone(&start(&[])).is_err());
    }
}
