//! A text with its name, and its lines once they are asked for.

use crate::place::{Lines, Span};
use std::cell::OnceCell;
use std::ffi::OsStr;

pub struct Source<'a> {
    pub name: &'a OsStr,
    pub text: &'a [u8],
    lines: OnceCell<Lines>,
}

impl<'a> Source<'a> {
    pub fn of(name: &'a OsStr, text: &'a [u8]) -> Source<'a> {
        Source { name, text, lines: OnceCell::new() }
    }

    fn lines(&self) -> &Lines {
        self.lines.get_or_init(|| Lines::of(self.text))
    }

    /// Line and column of an offset.
    pub fn place(&self, offset: usize) -> (usize, usize) {
        self.lines().place(offset)
    }

    /// The bytes of a line, without its newline.
    pub fn line(&self, line: usize) -> Span {
        self.lines().span(line, self.text)
    }
}
