//! `labels`: every label with a frame, with its place and keyword.

use crate::decode::{self, Frame};
use crate::json;
use crate::open::open;
use crate::out::{Ink, Out};
use crate::plain;
use crate::source::Source;
use crate::status::Status;
use crate::words::Options;
use std::ffi::OsStr;
use std::io;

pub fn labels(out: &mut Out, file: &OsStr, bytes: bool, options: &Options) -> io::Result<Status> {
    let opened = match open(out, file, false, options)? {
        Ok(opened) => opened,
        Err(status) => return Ok(status),
    };
    let source = Source::of(file, &opened.text);
    let mut frames: Vec<Frame> = decode::frames(&opened.streams.frames).flatten().map(|(_, frame)| frame).collect();
    if bytes {
        frames.sort_by(|one, other| one.label().cmp(other.label()));
    }
    frames.iter().try_for_each(|frame| one(out, &source, frame))?;
    opened.aside(out, file, options)?;
    Ok(Status::Clean)
}

fn one(out: &mut Out, source: &Source, frame: &Frame) -> io::Result<()> {
    if out.json() {
        return out.line(&json::label(source, frame));
    }
    let (line, column) = source.place(frame.offset());
    let place = out.ink(Ink::Place, &format!("{}:{line}:{column}:", plain::file_name(source.name)));
    out.line(&format!("{place} {} {}", frame.keyword(), plain::ascii(frame.label())))
}
