//! `frame`: the frames of labels, each found by the core's look-up.

use crate::check;
use crate::decode::{self, Assertion, Float, Frame, Hypothesis};
use crate::input;
use crate::json;
use crate::lend::{self, Found};
use crate::open::open;
use crate::out::{complain, Ink, Out};
use crate::place::{bearer as bearer_of, token_at};
use crate::plain;
use crate::similar;
use crate::source::Source;
use crate::status::{Failure, Status};
use crate::words::{Format, Options};
use std::ffi::OsStr;
use std::io;

/// The most pairs with optional variables that are shown in text.
const MOST_PAIRS: usize = 100;

/// A frame stream, with the text that it was made from if that is at hand.
struct Stock<'a> {
    name: &'a OsStr,
    frames: &'a [u8],
    source: Option<&'a Source<'a>>,
}

pub fn in_text(out: &mut Out, file: &OsStr, labels: &[Vec<u8>], options: &Options) -> io::Result<Status> {
    let opened = match open(out, file, true, options)? {
        Ok(opened) => opened,
        Err(status) => return Ok(status),
    };
    let source = Source::of(file, &opened.text);
    let stock = Stock { name: file, frames: &opened.streams.frames, source: Some(&source) };
    let status = all(out, &stock, labels, options)?;
    opened.aside(out, file, options)?;
    Ok(status)
}

pub fn in_stream(out: &mut Out, file: &OsStr, labels: &[Vec<u8>], options: &Options) -> io::Result<Status> {
    let frames = match input::read(file, options.memory) {
        Ok(frames) if frames.len() as u64 <= options.memory => frames,
        Ok(_) => {
            let failure = Failure::failed("the stream is longer than --memory allows");
            return check::failed(out, file, &failure, options);
        }
        Err(failure) => return check::failed(out, file, &failure, options),
    };
    all(out, &Stock { name: file, frames: &frames, source: None }, labels, options)
}

fn all(out: &mut Out, stock: &Stock, labels: &[Vec<u8>], options: &Options) -> io::Result<Status> {
    let mut worst = Status::Clean;
    for label in labels {
        let status = match lend::look_up(stock.frames, label) {
            Ok(Found::At(at)) => found(out, stock, label, at, options)?,
            Ok(Found::Absent) => absent(out, stock, label, options)?,
            Ok(Found::Malformed(at)) if stock.source.is_none() => return malformed(out, stock.name, at),
            Ok(Found::Malformed(at)) => {
                let failure = Failure::fault(format!("look-up refuses the core's own stream at {at}"));
                return check::failed(out, stock.name, &failure, options);
            }
            Err(failure) => return check::failed(out, stock.name, &failure, options),
        };
        worst = worst.max(status);
    }
    Ok(worst)
}

fn malformed(out: &mut Out, name: &OsStr, at: usize) -> io::Result<Status> {
    let message = "this record is badly framed";
    if out.json() {
        out.line(&json::malformed(name, at, message))?;
        return Ok(Status::Refused);
    }
    let (name, word) = (plain::file_name(name), out.ink(Ink::Bad, "refused:"));
    out.line(&format!("{name}: offset {at}: {word} {message} [number 10]"))?;
    out.line(&format!("{name}: refused; no frame is given"))?;
    Ok(Status::Refused)
}

/// A label that no frame bears is not replaced by another: those that look like it are named.
fn absent(out: &mut Out, stock: &Stock, label: &[u8], options: &Options) -> io::Result<Status> {
    let borne: Vec<&[u8]> = decode::frames(stock.frames).flatten().map(|(_, frame)| frame.label()).collect();
    let (zeros, near) = (similar::in_zeros(label, &borne), similar::near(label, &borne));
    if out.json() {
        out.line(&json::absent(stock.name, label, &zeros, &near))?;
        return Ok(Status::Reported);
    }
    out.flush()?;
    let joined = |labels: &[&[u8]]| labels.iter().map(|label| plain::token(label)).collect::<Vec<_>>().join(" ");
    let (name, shown) = (plain::file_name(stock.name), plain::token(label));
    complain(options, &format!("janorembe: {name}: no frame bears the label `{shown}` [number 11]"));
    if let Some(bearer) = bearer(stock, label) {
        complain(options, &format!("  hint: {bearer}"));
    }
    if !zeros.is_empty() {
        complain(options, &format!("  differing in leading zeros: {}", joined(&zeros)));
    }
    if !near.is_empty() {
        complain(options, &format!("  hint: similar: {}", joined(&near)));
    }
    Ok(Status::Reported)
}

/// A statement that bears the label but has no frame: a `$e`, or one with an error.
fn bearer(stock: &Stock, label: &[u8]) -> Option<String> {
    let source = stock.source?;
    let at = bearer_of(source.text, label)?;
    Some(format!("borne in line {} by a statement that has no frame", source.place(at.start).0))
}

fn found(out: &mut Out, stock: &Stock, label: &[u8], at: usize, options: &Options) -> io::Result<Status> {
    let decoded = decode::frame_at(stock.frames, at).map(|(frame, _)| frame);
    let Some(frame) = decoded.filter(|frame| frame.label() == label) else {
        let why = format!("the record at {at} does not decode to the frame of this label");
        let failure = if stock.source.is_some() { Failure::fault(why) } else { Failure::failed(why) };
        return check::failed(out, stock.name, &failure, options);
    };
    if out.json() {
        out.line(&json::frame(stock.name, stock.source, &frame))?;
        return Ok(Status::Clean);
    }
    let place = match stock.source {
        Some(source) => {
            let (line, column) = source.place(frame.offset());
            format!("{}:{line}:{column}:", plain::file_name(stock.name))
        }
        None => format!("{}: offset {}:", plain::file_name(stock.name), frame.offset()),
    };
    let place = out.ink(Ink::Place, &place);
    let (label, keyword) = (plain::ascii(label), frame.keyword());
    match &frame {
        Frame::Float(float) => {
            out.line(&format!(
                "{place} {label} {keyword} {}",
                statement(float.typecode, std::slice::from_ref(&float.variable))
            ))?;
            float_parts(out, stock, float)?;
        }
        Frame::Assertion(a) => {
            let target = statement(a.target.typecode, &a.symbols(&a.target));
            out.line(&format!("{place} {label} {keyword} {target}"))?;
            assertion_parts(out, stock, a)?;
        }
    }
    Ok(Status::Clean)
}

/// A typecode and symbols, with blanks between.
fn statement(typecode: &[u8], symbols: &[Vec<u8>]) -> String {
    symbols.iter().fold(plain::ascii(typecode), |line, symbol| line + " " + &plain::ascii(symbol))
}

/// Where a statement stands: its line, or its offset if there is only a stream.
fn whereabouts(stock: &Stock, offset: u32) -> String {
    match stock.source {
        Some(source) => format!("line {}", source.place(offset as usize).0),
        None => format!("offset {offset}"),
    }
}

fn float_parts(out: &mut Out, stock: &Stock, float: &Float) -> io::Result<()> {
    if out.format == Format::Short {
        return Ok(());
    }
    let end =
        float.end.map_or("the end of the text".to_owned(), |end| format!("the $}} at {}", whereabouts(stock, end)));
    out.line(&format!("  active up to {end}"))
}

fn assertion_parts(out: &mut Out, stock: &Stock, a: &Assertion) -> io::Result<()> {
    if out.format == Format::Short {
        return Ok(());
    }
    out.line(if a.hypotheses.is_empty() { "  no hypotheses" } else { "  hypotheses, in order" })?;
    for (place, one) in a.hypotheses.iter().enumerate() {
        out.line(&hypothesis(stock, a, place + 1, one))?;
    }
    let names = |names: &[&[u8]]| {
        let all: Vec<String> = names.iter().map(|name| plain::ascii(name)).collect();
        if all.is_empty() {
            "none".to_owned()
        } else {
            all.join(" ")
        }
    };
    out.line(&format!("  mandatory variables: {}", names(&a.variables[..a.mandatory])))?;
    let optional = match (a.variables.len() > a.mandatory, stock.source) {
        (false, None) => "none in the stream".to_owned(),
        _ => names(&a.variables[a.mandatory..]),
    };
    out.line(&format!("  optional variables:  {optional}"))?;
    let pairs: Vec<(usize, usize)> = a.pairs.iter().map(|&(one, other)| (one.into(), other.into())).collect();
    out.line(&format!("  kept apart:          {}", pairs_in_words(a, &pairs)))?;
    let optional: Vec<_> = a.all_apart().filter(|&(_, other)| other >= a.mandatory).collect();
    if !optional.is_empty() {
        out.line(&format!("  apart, optional:     {}", pairs_in_words(a, &optional)))?;
    }
    Ok(())
}

fn pairs_in_words(a: &Assertion, pairs: &[(usize, usize)]) -> String {
    let name = |variable: usize| plain::ascii(a.variables[variable]);
    let shown = pairs.iter().take(MOST_PAIRS).map(|&(one, other)| format!("{} {}", name(one), name(other)));
    let shown = shown.collect::<Vec<_>>().join(", ");
    match pairs.len().saturating_sub(MOST_PAIRS) {
        0 if pairs.is_empty() => "none".to_owned(),
        0 => shown,
        left => format!("{shown} and {}", check::many(left, "more pair")),
    }
}

/// One hypothesis. Its label is read from the text, if that is at hand.
fn hypothesis(stock: &Stock, a: &Assertion, place: usize, hypothesis: &Hypothesis) -> String {
    let (offset, shown) = match hypothesis {
        Hypothesis::Float { offset, variable, typecode } => {
            (*offset, format!("$f {}", statement(typecode, &[a.variables[usize::from(*variable)].to_vec()])))
        }
        Hypothesis::Essential { offset, expression } => {
            (*offset, format!("$e {}", statement(expression.typecode, &a.symbols(expression))))
        }
    };
    let label =
        stock.source.and_then(|source| Some(plain::ascii(&source.text[token_at(source.text, offset as usize)?])));
    let label = label.map_or(String::new(), |label| format!("{label:<8} "));
    format!("{place:>5}  {label}{shown:<34} {}", whereabouts(stock, offset))
}
