//! Diagnostics and refusals in words: what is marked in the text, the message, and the note at the other place.

use crate::decode::Diagnostic;
use crate::lend::Refusal;
use crate::place::{self, Span, Statement};
use crate::plain;
use crate::status::Failure;

/// A message about one place of a text, with a remark about another.
pub struct Said {
    pub at: Option<Span>,
    pub message: String,
    pub other: Option<(Span, &'static str)>,
}

/// The names of the kinds of diagnostic, from 1.
pub const NAMES: [&str; 13] = [
    "DuplicateLabel",
    "NotActiveSymbol",
    "ExprNotConstantPrefix",
    "VariableMissingFloat",
    "SymbolDuplicatesLabel",
    "SymbolRedeclared",
    "DjNotVariable",
    "DjRepeatedVariable",
    "FloatNotConstant",
    "FloatNotVariable",
    "FloatRedeclared",
    "VariableRedeclaredAsConstant",
    "NestedConstant",
];

pub fn name(kind: u16) -> &'static str {
    NAMES[usize::from(kind) - 1]
}

/// Diagnostics in words, one after the other: the tokens of the statement at hand are kept, so that a text is walked once.
pub struct Speaker<'a> {
    text: &'a [u8],
    held: Option<(u32, Statement)>,
}

impl<'a> Speaker<'a> {
    pub fn of(text: &'a [u8]) -> Speaker<'a> {
        Speaker { text, held: None }
    }

    pub fn say(&mut self, diagnostic: &Diagnostic) -> Result<Said, Failure> {
        let fault = || Failure::fault(format!("the places of {diagnostic:?} are not in the text"));
        if self.held.as_ref().is_none_or(|(at, _)| *at != diagnostic.statement) {
            let statement = place::statement(self.text, diagnostic.statement as usize).ok_or_else(fault)?;
            self.held = Some((diagnostic.statement, statement));
        }
        let (_, statement) = self.held.as_ref().ok_or_else(fault)?;
        let at = marked(diagnostic, statement).ok_or_else(fault)?;
        let other = self.other(diagnostic, statement, &at).ok_or_else(fault)?;
        let keyword = &self.text[statement.keyword.clone()];
        let message = message(diagnostic.kind, &plain::token(&self.text[at.clone()]), &plain::ascii(keyword));
        Ok(Said { at: Some(at), message, other })
    }

    /// The other place, if the kind has one. It must bear the same bytes, but for kind 11, where it is an earlier `$f`.
    fn other(&self, d: &Diagnostic, statement: &Statement, at: &Span) -> Option<Option<(Span, &'static str)>> {
        let Some(note) = note(d.kind) else { return Some(None) };
        let place = match d.kind {
            8 => statement.tokens.get(d.other as usize)?.clone(),
            _ => place::token_at(self.text, d.other as usize)?,
        };
        let same = self.text[place.clone()] == self.text[at.clone()];
        (same || d.kind == 11).then_some(Some((place, note)))
    }
}

/// What is marked: kinds 1, 11 and 13 name the statement, and the others a token of it.
fn marked(d: &Diagnostic, statement: &Statement) -> Option<Span> {
    match d.kind {
        1 => Some(statement.first.clone()),
        11 => statement.tokens.get(1).cloned(),
        13 => Some(statement.keyword.clone()),
        _ => statement.tokens.get(d.index as usize).cloned(),
    }
}

fn message(kind: u16, s: &str, w: &str) -> String {
    match kind {
        1 => format!("label `{s}` is already taken; this statement declares nothing and has no frame"),
        2 => format!("symbol `{s}` is not active here"),
        3 => format!("this {w} begins with the variable `{s}`; a constant must come first"),
        4 => format!("variable `{s}` has no active $f"),
        5 => format!("symbol `{s}` is also a label"),
        6 => format!("symbol `{s}` is already declared"),
        7 => format!("constant `{s}` in a $d; only variables may stand there"),
        8 => format!("variable `{s}` stands twice in this $d"),
        9 => format!("typecode `{s}` of this $f is a variable; a constant must stand there"),
        10 => format!("`{s}` in this $f is a constant; a variable must stand there"),
        11 => format!("variable `{s}` already has an active $f"),
        12 => format!("variable `{s}` is declared as a constant further down"),
        _ => "$c inside a group; it declares nothing".to_owned(),
    }
}

fn note(kind: u16) -> Option<&'static str> {
    match kind {
        1 => Some("it was first borne here"),
        5 => Some("the label is borne here"),
        6 => Some("it was declared here"),
        8 => Some("it stands here first"),
        11 => Some("this is its $f"),
        12 => Some("it is a constant from here on"),
        _ => None,
    }
}

/// A refusal in words. Its place must be what the number says.
pub fn refusal(text: &[u8], refusal: Refusal) -> Result<Said, Failure> {
    let place = refusal.place;
    let token = || place::token_at(text, place);
    let shown = |span: &Span| plain::token(&text[span.clone()]);
    let said = |at: Option<Span>, message: String| Some(Said { at, message, other: None });
    let found = match refusal.number {
        1 => said(None, "the text has over 16,777,216 bytes".to_owned()),
        3 => text
            .get(place)
            .and_then(|byte| said(Some(place..place + 1), format!("byte {byte} is neither printable nor white space"))),
        4 => token().and_then(|at| said(Some(at), "this comment is never closed".to_owned())),
        5 => token().and_then(|at| {
            let message = format!("`{}` is not allowed here", shown(&at));
            said(Some(at), message)
        }),
        6 => Some(Said {
            at: Some(place..place),
            message: "the text ends inside a statement or an open group".to_owned(),
            other: place::unclosed(text).map(|at| (at, "this is not closed")),
        }),
        7 => token().and_then(|at| {
            let message = format!("the frame of `{}` has over 4,095 variables", shown(&at));
            said(Some(at), message)
        }),
        _ => None,
    };
    found.ok_or_else(|| Failure::fault(format!("number {} at {place}", refusal.number)))
}
