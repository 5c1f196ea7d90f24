//! Lines, columns and tokens of a text: the one walk over it that is not proved. A line is one more than the count of byte 10
//! before it, a column the byte in the line, from 1. Every text that comes here was read by the core, or refused by it at a known place.

use std::ops::Range;

pub type Span = Range<usize>;

pub fn white(byte: u8) -> bool {
    matches!(byte, 9 | 10 | 12 | 13 | 32)
}

/// Where each line begins.
pub struct Lines {
    starts: Vec<u32>,
}

impl Lines {
    pub fn of(text: &[u8]) -> Lines {
        let ends = text.iter().enumerate().filter(|(_, &byte)| byte == b'\n');
        Lines { starts: std::iter::once(0).chain(ends.map(|(at, _)| at as u32 + 1)).collect() }
    }

    /// Line and column of an offset.
    pub fn place(&self, offset: usize) -> (usize, usize) {
        let line = self.starts.partition_point(|&start| start as usize <= offset);
        (line, offset - self.starts[line - 1] as usize + 1)
    }

    /// The bytes of a line, without its newline.
    pub fn span(&self, line: usize, text: &[u8]) -> Span {
        let end = self.starts.get(line).map_or(text.len(), |&next| next as usize - 1);
        self.starts[line - 1] as usize..end
    }
}

/// The token whose first byte stands at this offset, or nothing if no token starts there.
pub fn token_at(text: &[u8], offset: usize) -> Option<Span> {
    let first = *text.get(offset)?;
    let starts = !white(first) && (offset == 0 || white(text[offset - 1]));
    starts.then(|| next_token(text, offset)).flatten()
}

fn next_token(text: &[u8], at: usize) -> Option<Span> {
    let start = at + text.get(at..)?.iter().position(|&byte| !white(byte))?;
    let end = text[start..].iter().position(|&byte| white(byte)).map_or(text.len(), |length| start + length);
    Some(start..end)
}

/// The next token that stands in no comment and bounds none.
fn next_visible(text: &[u8], mut at: usize) -> Option<Span> {
    loop {
        let token = next_token(text, at)?;
        if text[token.clone()] != *b"$(" {
            return Some(token);
        }
        at = comment_end(text, token.end)?;
    }
}

/// The end of the first token that is `$)`.
fn comment_end(text: &[u8], mut at: usize) -> Option<usize> {
    loop {
        let token = next_token(text, at)?;
        if text[token.clone()] == *b"$)" {
            return Some(token.end);
        }
        at = token.end;
    }
}

/// A statement's first token (its label if it has one), its keyword and its math tokens.
pub struct Statement {
    pub first: Span,
    pub keyword: Span,
    pub tokens: Vec<Span>,
}

/// The statement that begins at this offset.
pub fn statement(text: &[u8], offset: usize) -> Option<Statement> {
    let first = token_at(text, offset)?;
    let keyword = if text[first.start] == b'$' { first.clone() } else { next_visible(text, first.end)? };
    let mut tokens = Vec::new();
    let mut at = keyword.end;
    loop {
        let token = next_visible(text, at)?;
        if text[token.start] == b'$' {
            return Some(Statement { first, keyword, tokens });
        }
        at = token.end;
        tokens.push(token);
    }
}

/// What is open where a walk over the text stands: groups, and the first token of a statement.
struct Open {
    groups: Vec<Span>,
    statement: Option<Span>,
}

impl Open {
    /// One token further. The first token of a statement is handed back when it is met.
    fn take(&mut self, text: &[u8], token: Span) -> Option<Span> {
        match &text[token.clone()] {
            b"${" => self.groups.push(token),
            b"$}" => drop(self.groups.pop()),
            b"$." => self.statement = None,
            _ if self.statement.is_none() => {
                self.statement = Some(token.clone());
                return Some(token);
            }
            _ => {}
        }
        None
    }
}

/// What is open where the text ends: the first token of the last statement, or the innermost `${`.
pub fn unclosed(text: &[u8]) -> Option<Span> {
    let mut open = Open { groups: Vec::new(), statement: None };
    let mut at = 0;
    while let Some(token) = next_visible(text, at) {
        at = token.end;
        open.take(text, token);
    }
    open.statement.or(open.groups.pop())
}

/// The first statement that bears a label, frame or not.
pub fn bearer(text: &[u8], label: &[u8]) -> Option<Span> {
    let mut open = Open { groups: Vec::new(), statement: None };
    let mut at = 0;
    while let Some(token) = next_visible(text, at) {
        at = token.end;
        if let Some(first) = open.take(text, token).filter(|first| text[first.clone()] == *label) {
            return Some(first);
        }
    }
    None
}
