//! One file read and checked in a thread of its own, and the line of progress while it is waited for.

use crate::input::{self, is_standard};
use crate::lend::{self, Answer, MOST_BYTES};
use crate::plain;
use crate::status::Failure;
use std::ffi::{OsStr, OsString};
use std::io::{self, IsTerminal, Write};
use std::sync::atomic::{AtomicUsize, Ordering};
use std::sync::mpsc::{channel, Receiver, RecvTimeoutError};
use std::sync::Arc;
use std::time::{Duration, Instant};

/// A text and what the core answered.
pub struct Done {
    pub text: Vec<u8>,
    pub answer: Answer,
}

pub struct Job {
    pub name: OsString,
    length: Arc<AtomicUsize>,
    begun: Instant,
    result: Receiver<Result<Done, Failure>>,
}

fn work(name: &OsStr, memory: u64, full: bool, length: &AtomicUsize) -> Result<Done, Failure> {
    let text = input::read(name, MOST_BYTES)?;
    length.store(text.len(), Ordering::Relaxed);
    let answer = lend::streams(&text, memory, full)?;
    Ok(Done { text, answer })
}

impl Job {
    /// The frames are full or have mandatory variables only.
    pub fn start(name: &OsStr, memory: u64, full: bool) -> Job {
        let length = Arc::new(AtomicUsize::new(0));
        let (give, result) = channel();
        let (mine, counted, failed) = (name.to_owned(), length.clone(), give.clone());
        let thread = std::thread::Builder::new();
        if let Err(error) = thread.spawn(move || drop(give.send(work(&mine, memory, full, &counted)))) {
            let _ = failed.send(Err(Failure::failed(input::reason(&error))));
        }
        Job { name: name.to_owned(), length, begun: Instant::now(), result }
    }

    /// The answer. A call that takes over a second shows its progress, if standard error is a terminal.
    pub fn wait(&self, quiet: bool) -> Result<Done, Failure> {
        let shows = !quiet && io::stderr().is_terminal() && !is_standard(&self.name);
        let mut shown = false;
        let answer = loop {
            match self.result.recv_timeout(Duration::from_secs(1)) {
                Ok(answer) => break answer,
                Err(RecvTimeoutError::Disconnected) => break Err(Failure::fault("the call came to no end")),
                Err(RecvTimeoutError::Timeout) if shows => shown = self.progress(),
                Err(RecvTimeoutError::Timeout) => {}
            }
        };
        if shown {
            let _ = write!(io::stderr(), "\r\x1b[K");
        }
        answer
    }

    fn progress(&self) -> bool {
        let megabytes = self.length.load(Ordering::Relaxed) as f64 / 1e6;
        let (name, seconds) = (plain::file_name(&self.name), self.begun.elapsed().as_secs());
        write!(io::stderr(), "\r\x1b[K{name}: checking {megabytes:.1} MB, {seconds} s").is_ok()
    }
}
