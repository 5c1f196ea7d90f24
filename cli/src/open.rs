//! One file opened for a command that is about a part of it: read, checked, and both streams looked through.

use crate::check::{self, Counts};
use crate::job::Job;
use crate::lend::{Answer, Streams};
use crate::out::{complain, Out};
use crate::plain;
use crate::source::Source;
use crate::status::Status;
use crate::words::Options;
use std::ffi::OsStr;
use std::io;

/// A text that was read.
pub struct Opened {
    pub text: Vec<u8>,
    pub streams: Streams,
    pub errors: usize,
    counts: Counts,
}

/// Reads and checks a file, for full frames or short ones. A refusal or a failure is shown here, and its status handed back.
pub fn open(out: &mut Out, file: &OsStr, full: bool, options: &Options) -> io::Result<Result<Opened, Status>> {
    let done = match Job::start(file, options.memory, full).wait(options.quiet) {
        Ok(done) => done,
        Err(failure) => return check::failed(out, file, &failure, options).map(Err),
    };
    let streams = match done.answer {
        Answer::Refused(refusal) => {
            return check::refused(out, &Source::of(file, &done.text), refusal, options).map(Err);
        }
        Answer::Read(streams) => streams,
    };
    match check::looked(&streams) {
        Ok((diagnostics, counts)) => Ok(Ok(Opened { text: done.text, streams, errors: diagnostics.len(), counts })),
        Err(failure) => check::failed(out, file, &failure, options).map(Err),
    }
}

impl Opened {
    /// The line of counts, and the status of the whole text.
    pub fn summary(&self, out: &mut Out, file: &OsStr) -> io::Result<Status> {
        check::summary(out, &Source::of(file, &self.text), self.errors, &self.counts)
    }

    /// Errors of the text are not what was asked for; that there are some is said beside it.
    pub fn aside(&self, out: &mut Out, file: &OsStr, options: &Options) -> io::Result<()> {
        if out.json() {
            return self.summary(out, file).map(drop);
        }
        out.flush()?;
        if self.errors > 0 {
            let (name, errors) = (plain::file_name(file), check::many(self.errors, "error"));
            complain(options, &format!("janorembe: {name}: {errors}; `check` shows what is wrong"));
        }
        Ok(())
    }
}
