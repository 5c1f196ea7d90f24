//! Diagnostics and refusals as lines for people and editors: the place and the message, then the line of the text with its caret.

use crate::out::{Ink, Out};
use crate::place::Span;
use crate::plain;
use crate::say::Said;
use crate::source::Source;
use crate::words::Format;
use std::io;

/// The most columns of a text's line that are shown.
const WIDTH: usize = 100;

/// What a line says of its place.
#[derive(Clone, Copy)]
pub enum Level {
    Error,
    Note,
    Refused,
    Hint,
}

impl Level {
    fn word(self) -> (&'static str, Ink) {
        match self {
            Level::Error => ("error:", Ink::Bad),
            Level::Note => ("note:", Ink::Remark),
            Level::Refused => ("refused:", Ink::Bad),
            Level::Hint => ("hint:", Ink::Remark),
        }
    }
}

/// A message and, if there is one, the remark about another place. `tag` names the kind or the number.
pub fn said(out: &mut Out, source: &Source, said: &Said, tag: &str, levels: (Level, Level)) -> io::Result<()> {
    at(out, source, said.at.as_ref(), levels.0, &format!("{} [{tag}]", said.message))?;
    match &said.other {
        Some((place, remark)) => at(out, source, Some(place), levels.1, remark),
        None => Ok(()),
    }
}

fn at(out: &mut Out, source: &Source, span: Option<&Span>, level: Level, message: &str) -> io::Result<()> {
    let (word, ink) = level.word();
    let word = out.ink(ink, word);
    let name = plain::file_name(source.name);
    let Some(span) = span else {
        let place = out.ink(Ink::Place, &format!("{name}:"));
        return out.line(&format!("{place} {word} {message}"));
    };
    let (line, column) = source.place(span.start);
    let place = out.ink(Ink::Place, &format!("{name}:{line}:{column}:"));
    out.line(&format!("{place} {word} {message}"))?;
    if out.format == Format::Text && !span.is_empty() {
        excerpt(out, source, span, ink)?;
    }
    Ok(())
}

/// The line of the text, cut around the token, and carets under the token.
fn excerpt(out: &mut Out, source: &Source, span: &Span, ink: Ink) -> io::Result<()> {
    let (line, _) = source.place(span.start);
    let cut = Cut::around(source.text, &source.line(line), span);
    let number = format!("{line:>5}");
    out.line(format!("{number} | {}", cut.shown).trim_end())?;
    let carets = out.ink(ink, &"^".repeat(cut.width.max(1)));
    out.line(&format!("{} | {}{carets}", " ".repeat(number.len()), " ".repeat(cut.before)))
}

/// A part of a line as it is shown, and where the token stands in it, in columns.
pub struct Cut {
    pub shown: String,
    pub before: usize,
    pub width: usize,
}

/// The columns that a byte takes.
fn columns(byte: u8) -> usize {
    if plain::shown(byte) || matches!(byte, 9 | 12 | 13) {
        1
    } else {
        4
    }
}

/// Tab, form feed and return are shown as one blank.
fn part(text: &[u8], span: Span) -> String {
    let blank = |byte: &u8| if matches!(byte, 9 | 12 | 13) { b' ' } else { *byte };
    plain::ascii(&text[span].iter().map(blank).collect::<Vec<u8>>())
}

impl Cut {
    pub fn around(text: &[u8], line: &Span, token: &Span) -> Cut {
        let kept = window(text, line, token);
        let dots = |cut: bool| if cut { "..." } else { "" };
        let front = dots(kept.start > line.start);
        let end = token.end.min(kept.end);
        let before = part(text, kept.start..token.start);
        let marked = part(text, token.start..end);
        let after = part(text, end..kept.end);
        Cut {
            before: front.len() + before.len(),
            width: marked.len(),
            shown: format!("{front}{before}{marked}{after}{}", dots(kept.end < line.end)),
        }
    }
}

/// The bytes of a line that are shown: all, or as many around the token as fit between the dots.
fn window(text: &[u8], line: &Span, token: &Span) -> Span {
    let all = text[line.clone()].iter().map(|&byte| columns(byte)).take(WIDTH + 1).sum::<usize>();
    if all <= WIDTH {
        return line.clone();
    }
    let mut room = WIDTH - 6;
    let mut kept = token.start..token.start;
    while kept.end < token.end && take(&mut room, text[kept.end]) {
        kept.end += 1;
    }
    loop {
        let left = kept.start > line.start && take(&mut room, text[kept.start - 1]);
        kept.start -= usize::from(left);
        let right = kept.end < line.end && take(&mut room, text[kept.end]);
        kept.end += usize::from(right);
        if !left && !right {
            return kept;
        }
    }
}

/// Takes the columns of a byte from those that are left, if it fits.
fn take(room: &mut usize, byte: u8) -> bool {
    let left = room.checked_sub(columns(byte));
    *room = left.unwrap_or(*room);
    left.is_some()
}
