//! Results as JSON, one object a line, in ASCII alone. Fields may be added under schema 1; none goes or changes its meaning.

use crate::decode::{Assertion, Diagnostic, Expression, Float, Frame, Hypothesis};
use crate::lend::Refusal;
use crate::place::{token_at, Span};
use crate::plain;
use crate::say::{self, Said};
use crate::source::Source;
use crate::version;
use std::ffi::OsStr;
use std::os::unix::ffi::OsStrExt;

/// A JSON string.
pub fn string(value: &str) -> String {
    let mut out = String::from("\"");
    for unit in value.encode_utf16() {
        match unit {
            0x22 => out.push_str("\\\""),
            0x5C => out.push_str("\\\\"),
            32..=126 => out.push(unit as u8 as char),
            _ => out.push_str(&format!("\\u{unit:04x}")),
        }
    }
    out + "\""
}

fn bytes(value: &[u8]) -> String {
    string(&plain::ascii(value))
}

pub fn list(values: impl Iterator<Item = String>) -> String {
    format!("[{}]", values.collect::<Vec<_>>().join(","))
}

/// An object that is being written: fields in the order in which they are put.
pub struct Object(String);

impl Object {
    fn empty() -> Object {
        Object(String::from("{"))
    }

    pub fn of(kind: &str) -> Object {
        Object::empty().put("type", string(kind))
    }

    pub fn put(mut self, key: &str, value: impl std::fmt::Display) -> Object {
        if self.0.len() > 1 {
            self.0.push(',');
        }
        self.0.push_str(&format!("{}:{value}", string(key)));
        self
    }

    pub fn text(self, key: &str, value: &str) -> Object {
        self.put(key, string(value))
    }

    /// Bytes as a string; in hex too if some of them are not ASCII.
    pub fn bytes(self, key: &str, value: &[u8]) -> Object {
        let plain = value.iter().all(|&byte| plain::shown(byte));
        let named = self.put(key, bytes(value));
        if plain {
            return named;
        }
        named.text(&format!("{key}_hex"), &hex(value))
    }

    /// A file name; in hex too if it is not UTF-8.
    pub fn file(self, name: &OsStr) -> Object {
        let named = self.text("file", &name.to_string_lossy());
        if name.to_str().is_some() {
            return named;
        }
        named.text("file_hex", &hex(name.as_bytes()))
    }

    pub fn end(self) -> String {
        self.0 + "}"
    }
}

fn hex(bytes: &[u8]) -> String {
    bytes.iter().map(|byte| format!("{byte:02x}")).collect()
}

/// The first line of every output.
pub fn begin() -> String {
    Object::of("begin").put("schema", 1).text("tool", version::TOOL).text("core", &version::core()).end()
}

fn place(source: &Source, span: &Span) -> String {
    let (line, column) = source.place(span.start);
    let at = Object::empty().file(source.name).put("segment", 0).put("offset", span.start);
    at.put("line", line).put("column", column).put("token", bytes(&source.text[span.clone()])).end()
}

/// The place of the statement at this offset: its first token.
fn statement(source: &Source, offset: usize) -> String {
    place(source, &token_at(source.text, offset).unwrap_or(offset..offset))
}

pub fn diagnostic(source: &Source, d: &Diagnostic, said: &Said) -> String {
    let record = list([u32::from(d.kind), d.statement, d.index, d.other].iter().map(u32::to_string));
    let object = Object::of("diagnostic").file(source.name).put("kind", d.kind).text("name", say::name(d.kind));
    let object = object.text("message", &said.message).put("at", at(source, said)).put("record", record);
    match &said.other {
        Some((span, note)) => object.text("note", note).put("note_at", place(source, span)).end(),
        None => object.end(),
    }
}

fn at(source: &Source, said: &Said) -> String {
    said.at.as_ref().map_or("null".to_owned(), |span| place(source, span))
}

pub fn refused(source: &Source, refusal: Refusal, said: &Said) -> String {
    let object = Object::of("refused").file(source.name).put("number", refusal.number).put("place", refusal.place);
    let object = object.text("message", &said.message).put("at", at(source, said));
    match &said.other {
        Some((span, _)) => object.put("hint_at", place(source, span)).end(),
        None => object.end(),
    }
}

/// A stream that look-up refuses: number 10 and the offset of the record.
pub fn malformed(name: &OsStr, record: usize, message: &str) -> String {
    let object = Object::of("refused").file(name).put("number", 10).put("place", record);
    object.text("message", message).put("at", "null").end()
}

/// How many frames of each kind, by keyword.
pub fn counts(frames: &[(&str, usize)]) -> String {
    frames.iter().fold(Object::empty(), |object, (keyword, count)| object.put(keyword, count)).end()
}

pub fn label(source: &Source, frame: &Frame) -> String {
    let object = Object::of("label").file(source.name).bytes("label", frame.label());
    object.text("kind", frame.keyword()).put("at", statement(source, frame.offset())).end()
}

pub fn absent(name: &OsStr, label: &[u8], zeros: &[&[u8]], similar: &[&[u8]]) -> String {
    let all = |labels: &[&[u8]]| list(labels.iter().map(|label| bytes(label)));
    let object = Object::of("absent").file(name).bytes("label", label).put("number", 11);
    object.put("zeros", all(zeros)).put("similar", all(similar)).end()
}

/// A frame. Without a source (a stream alone) a place is the offset in the text that the stream was made from.
pub fn frame(name: &OsStr, source: Option<&Source>, frame: &Frame) -> String {
    let at = |offset: u32| offset_of(source, offset);
    let object = Object::of("frame").file(name).bytes("label", frame.label());
    let object = object.text("kind", frame.keyword()).put("at", at(frame.offset() as u32));
    match frame {
        Frame::Float(float) => float_fields(object, float, at).end(),
        Frame::Assertion(assertion) => assertion_fields(object, assertion, source).end(),
    }
}

fn offset_of(source: Option<&Source>, offset: u32) -> String {
    source.map_or(offset.to_string(), |source| statement(source, offset as usize))
}

fn float_fields(object: Object, float: &Float, at: impl Fn(u32) -> String) -> Object {
    let end = float.end.map_or("null".to_owned(), at);
    object.put("typecode", bytes(float.typecode)).put("variable", bytes(&float.variable)).put("end", end)
}

fn assertion_fields(object: Object, a: &Assertion, source: Option<&Source>) -> Object {
    let named = |one: usize, other: usize| list([one, other].iter().map(|&v| bytes(a.variables[v])));
    let pairs = list(a.pairs.iter().map(|&(one, other)| named(one.into(), other.into())));
    let hypotheses = list(a.hypotheses.iter().map(|one| hypothesis(a, source, one)));
    let target = expression(Object::empty(), a, &a.target).end();
    let object = object.put("variables", list(a.variables.iter().map(|v| bytes(v)))).put("mandatory", a.mandatory);
    let object = object.put("hypotheses", hypotheses).put("target", target).put("pairs", pairs);
    object.put("apart", list(a.all_apart().map(|(one, other)| named(one, other))))
}

fn hypothesis(a: &Assertion, source: Option<&Source>, hypothesis: &Hypothesis) -> String {
    let (keyword, offset) = match hypothesis {
        Hypothesis::Float { offset, .. } => ("$f", *offset),
        Hypothesis::Essential { offset, .. } => ("$e", *offset),
    };
    let object = Object::empty().text("kind", keyword);
    let bearer = source.and_then(|source| Some(&source.text[token_at(source.text, offset as usize)?]));
    let object = object.put("label", bearer.map_or("null".to_owned(), bytes)).put("at", offset_of(source, offset));
    match hypothesis {
        Hypothesis::Float { variable, typecode, .. } => {
            object.put("typecode", bytes(typecode)).put("variable", bytes(a.variables[usize::from(*variable)])).end()
        }
        Hypothesis::Essential { expression: inside, .. } => expression(object, a, inside).end(),
    }
}

fn expression(object: Object, a: &Assertion, expression: &Expression) -> Object {
    let symbols = list(a.symbols(expression).iter().map(|symbol| bytes(symbol)));
    object.put("typecode", bytes(expression.typecode)).put("symbols", symbols)
}
