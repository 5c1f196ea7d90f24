//! The tool for people over the proved core. The core decides: number, place, streams and the exit status are its own. This package
//! adds files, lines, columns and words.
#![forbid(unsafe_code)]

pub mod check;
pub mod decode;
pub mod explain;
pub mod frame;
pub mod help;
pub mod input;
pub mod job;
pub mod json;
pub mod labels;
pub mod lend;
pub mod open;
pub mod out;
pub mod place;
pub mod plain;
pub mod report;
pub mod say;
pub mod similar;
pub mod source;
pub mod status;
pub mod streams;
pub mod version;
pub mod words;

use out::{complain, Out};
use status::Status;
use std::ffi::OsString;
use std::io::{self, Write};
use words::{Command, Options, Order};

/// Does what the words ask for.
pub fn run(words: Vec<OsString>) -> Status {
    let order = match words::read(words) {
        Ok(order) => order,
        Err(usage) => {
            let of = usage.command.map_or(String::new(), |name| format!("{name} "));
            let _ = writeln!(io::stderr(), "janorembe: {}\n`janorembe {of}--help` says more", usage.message);
            return Status::Failed;
        }
    };
    let mut out = Out::of(&order.options);
    let done = perform(&mut out, &order).and_then(|status| out.flush().map(|()| status));
    done.unwrap_or_else(|error| unwritten(&error, &order.options))
}

/// Standard output cannot be written to: silent if nobody reads it.
fn unwritten(error: &io::Error, options: &Options) -> Status {
    if error.kind() != io::ErrorKind::BrokenPipe {
        complain(options, &format!("janorembe: standard output: {}", input::reason(error)));
    }
    Status::Failed
}

fn perform(out: &mut Out, order: &Order) -> io::Result<Status> {
    let options = &order.options;
    let speaks = matches!(order.command, Command::Help(_) | Command::Version);
    if out.json() && !speaks {
        out.line(&json::begin())?;
    }
    match &order.command {
        Command::Check { files } => check::check(out, files, options),
        Command::Frame { file, labels, stream: false } => frame::in_text(out, file, labels, options),
        Command::Frame { file, labels, stream: true } => frame::in_stream(out, file, labels, options),
        Command::Labels { file, bytes } => labels::labels(out, file, *bytes, options),
        Command::Streams { file, full, frames, diags } => {
            let places = streams::Places { frames: frames.as_ref(), diags: diags.as_ref() };
            streams::streams(out, file, *full, places, options)
        }
        Command::Explain(topic) => explain::explain(out, *topic),
        Command::Help(command) => out.line(help::of(*command)).map(|()| Status::Clean),
        Command::Version => out.line(&version::text()).map(|()| Status::Clean),
    }
}
