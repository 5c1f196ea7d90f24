//! Records to values. Every read is checked, and a record must be used up to its last byte; `docs/FORMATS.md` has the layouts.

const FLOAT: u16 = 4;
/// The `$f` of streams from before kind 4: 128 is added to the last byte of its variable.
const STUB: u16 = 1;
const PROVABLE: u16 = 3;
const NO_END: u32 = u32::MAX;
const DIAGNOSTIC: u32 = 14;

/// A diagnostic: the statement's offset, a token's index in it, and an offset or an index, by the kind.
#[derive(Clone, Copy, Debug, PartialEq, Eq)]
pub struct Diagnostic {
    pub kind: u16,
    pub statement: u32,
    pub index: u32,
    pub other: u32,
}

#[derive(Debug, PartialEq, Eq)]
pub enum Frame<'a> {
    Float(Float<'a>),
    Assertion(Assertion<'a>),
}

/// The frame of a `$f`; it is active up to `end`, or to the end of the text.
#[derive(Debug, PartialEq, Eq)]
pub struct Float<'a> {
    pub start: u32,
    pub end: Option<u32>,
    pub label: &'a [u8],
    pub typecode: &'a [u8],
    pub variable: Vec<u8>,
}

/// The frame of a `$a` or `$p`. The first `mandatory` variables are mandatory.
#[derive(Debug, PartialEq, Eq)]
pub struct Assertion<'a> {
    pub provable: bool,
    pub offset: u32,
    pub label: &'a [u8],
    pub mandatory: usize,
    pub variables: Vec<&'a [u8]>,
    pub pool: &'a [u8],
    pub hypotheses: Vec<Hypothesis<'a>>,
    pub target: Expression<'a>,
    pub pairs: Vec<(u16, u16)>,
    pub rows: &'a [u8],
}

#[derive(Debug, PartialEq, Eq)]
pub enum Hypothesis<'a> {
    Float { offset: u32, variable: u16, typecode: &'a [u8] },
    Essential { offset: u32, expression: Expression<'a> },
}

/// Constants from the pool up to each variable, then those after the last.
#[derive(Debug, PartialEq, Eq)]
pub struct Expression<'a> {
    pub typecode: &'a [u8],
    pub fragments: Vec<Fragment>,
    pub rump: (u32, u32),
}

#[derive(Debug, PartialEq, Eq)]
pub struct Fragment {
    pub prefix: (u32, u32),
    pub variable: u16,
}

struct Cursor<'a> {
    rest: &'a [u8],
}

impl<'a> Cursor<'a> {
    fn take(&mut self, count: usize) -> Option<&'a [u8]> {
        let (front, rest) = self.rest.split_at_checked(count)?;
        self.rest = rest;
        Some(front)
    }

    fn u16(&mut self) -> Option<u16> {
        Some(u16::from_le_bytes(self.take(2)?.try_into().ok()?))
    }

    fn u32(&mut self) -> Option<u32> {
        Some(u32::from_le_bytes(self.take(4)?.try_into().ok()?))
    }

    fn string(&mut self) -> Option<&'a [u8]> {
        let length = self.u32()?;
        self.take(length as usize)
    }

    /// A value, if nothing is left after it.
    fn end<T>(&self, value: T) -> Option<T> {
        self.rest.is_empty().then_some(value)
    }
}

/// What an expression may name: so many variables, and places in this pool.
struct Around<'a> {
    variables: usize,
    pool: &'a [u8],
}

impl Around<'_> {
    fn variable(&self, number: u16) -> Option<u16> {
        (usize::from(number) < self.variables).then_some(number)
    }

    /// Two places in the pool that have whole constants between them.
    fn range(&self, cursor: &mut Cursor) -> Option<(u32, u32)> {
        let (start, end) = (cursor.u32()?, cursor.u32()?);
        let part = self.pool.get(start as usize..end as usize)?;
        part.last().is_none_or(|&byte| byte >= 128).then_some((start, end))
    }
}

/// The record at this offset of a stream: its kind and payload.
fn record_at(stream: &[u8], at: usize) -> Option<(u16, Cursor<'_>, usize)> {
    let mut cursor = Cursor { rest: stream.get(at..)? };
    let length = cursor.u32()? as usize;
    let mut payload = Cursor { rest: cursor.take(length)? };
    Some((payload.u16()?, payload, at + 4 + length))
}

/// The frame whose record stands at this offset, and where the next one stands.
pub fn frame_at(stream: &[u8], at: usize) -> Option<(Frame<'_>, usize)> {
    let (kind, mut cursor, next) = record_at(stream, at)?;
    let frame = match kind {
        FLOAT | STUB => Frame::Float(float(&mut cursor, kind == STUB)?),
        2 | PROVABLE => Frame::Assertion(assertion(&mut cursor, kind == PROVABLE)?),
        _ => return None,
    };
    cursor.end((frame, next))
}

fn float<'a>(cursor: &mut Cursor<'a>, stub: bool) -> Option<Float<'a>> {
    let (start, end) = (cursor.u32()?, cursor.u32()?);
    let (label, typecode, bytes) = (cursor.string()?, cursor.string()?, cursor.string()?);
    let variable = if stub { unstubbed(bytes)? } else { bytes.to_vec() };
    Some(Float { start, end: (end != NO_END).then_some(end), label, typecode, variable })
}

/// A stub string without its 128: it has it on its last byte and on no other.
fn unstubbed(stub: &[u8]) -> Option<Vec<u8>> {
    let (last, front) = stub.split_last()?;
    (*last >= 128 && front.iter().all(|&byte| byte < 128)).then(|| [front, &[last - 128]].concat())
}

fn assertion<'a>(cursor: &mut Cursor<'a>, provable: bool) -> Option<Assertion<'a>> {
    let (offset, label) = (cursor.u32()?, cursor.string()?);
    let (count, mandatory) = (usize::from(cursor.u16()?), usize::from(cursor.u16()?));
    let variables = (0..count).map(|_| cursor.string()).collect::<Option<Vec<_>>>()?;
    let pool = cursor.string()?;
    let around = Around { variables: count, pool };
    let hypotheses = (0..cursor.u32()?).map(|_| hypothesis(cursor, &around)).collect::<Option<Vec<_>>>()?;
    let target = expression(cursor, &around)?;
    let pairs = (0..cursor.u32()?).map(|_| pair(cursor, mandatory)).collect::<Option<Vec<_>>>()?;
    let rows = cursor.take(count * count.div_ceil(8))?;
    let frame = Assertion { provable, offset, label, mandatory, variables, pool, hypotheses, target, pairs, rows };
    (mandatory <= count).then_some(frame)
}

fn hypothesis<'a>(cursor: &mut Cursor<'a>, around: &Around) -> Option<Hypothesis<'a>> {
    let (kind, offset) = (cursor.u16()?, cursor.u32()?);
    match kind {
        1 => {
            let variable = around.variable(cursor.u16()?)?;
            Some(Hypothesis::Float { offset, variable, typecode: cursor.string()? })
        }
        2 => Some(Hypothesis::Essential { offset, expression: expression(cursor, around)? }),
        _ => None,
    }
}

fn expression<'a>(cursor: &mut Cursor<'a>, around: &Around) -> Option<Expression<'a>> {
    let typecode = cursor.string()?;
    let fragment = |cursor: &mut Cursor| {
        Some(Fragment { prefix: around.range(cursor)?, variable: around.variable(cursor.u16()?)? })
    };
    let fragments = (0..cursor.u32()?).map(|_| fragment(cursor)).collect::<Option<Vec<_>>>()?;
    Some(Expression { typecode, fragments, rump: around.range(cursor)? })
}

fn pair(cursor: &mut Cursor, mandatory: usize) -> Option<(u16, u16)> {
    let (one, other) = (cursor.u16()?, cursor.u16()?);
    (usize::from(one.max(other)) < mandatory && one != other).then_some((one, other))
}

/// Constants one after the other, each with 128 added to its last byte.
fn constants(bytes: &[u8]) -> Vec<Vec<u8>> {
    let whole = bytes.split_inclusive(|&byte| byte >= 128);
    whole.map(|raised| raised.iter().map(|byte| byte & 127).collect()).collect()
}

impl<'a> Frame<'a> {
    pub fn label(&self) -> &'a [u8] {
        match self {
            Frame::Float(float) => float.label,
            Frame::Assertion(assertion) => assertion.label,
        }
    }

    /// The offset of the statement in its text.
    pub fn offset(&self) -> usize {
        match self {
            Frame::Float(float) => float.start as usize,
            Frame::Assertion(assertion) => assertion.offset as usize,
        }
    }

    pub fn keyword(&self) -> &'static str {
        match self {
            Frame::Float(_) => "$f",
            Frame::Assertion(assertion) if assertion.provable => "$p",
            Frame::Assertion(_) => "$a",
        }
    }
}

impl<'a> Assertion<'a> {
    /// The symbols of an expression after its typecode.
    pub fn symbols(&self, expression: &Expression) -> Vec<Vec<u8>> {
        let part = |(start, end): (u32, u32)| constants(&self.pool[start as usize..end as usize]);
        let mut out = Vec::new();
        for fragment in &expression.fragments {
            out.extend(part(fragment.prefix));
            out.push(self.variables[usize::from(fragment.variable)].to_vec());
        }
        out.extend(part(expression.rump));
        out
    }

    /// Whether the rows say that two variables are kept apart.
    pub fn apart(&self, one: usize, other: usize) -> bool {
        let width = self.variables.len().div_ceil(8);
        self.rows[one * width + other / 8] >> (other % 8) & 1 == 1
    }

    /// All pairs of the rows, the lower number first.
    pub fn all_apart(&self) -> impl Iterator<Item = (usize, usize)> + '_ {
        let count = self.variables.len();
        (0..count)
            .flat_map(move |one| (one + 1..count).map(move |other| (one, other)))
            .filter(|&(a, b)| self.apart(a, b))
    }
}

/// The records of a frame stream, each with its offset; an offset alone for one that does not decode, which ends the walk.
pub struct Frames<'a> {
    stream: &'a [u8],
    at: usize,
}

pub fn frames(stream: &[u8]) -> Frames<'_> {
    Frames { stream, at: 0 }
}

impl<'a> Iterator for Frames<'a> {
    type Item = Result<(usize, Frame<'a>), usize>;

    fn next(&mut self) -> Option<Self::Item> {
        let at = self.at;
        if at >= self.stream.len() {
            return None;
        }
        let Some((frame, next)) = frame_at(self.stream, at) else {
            self.at = self.stream.len();
            return Some(Err(at));
        };
        self.at = next;
        Some(Ok((at, frame)))
    }
}

/// The diagnostics of a stream; nothing if one does not decode.
pub fn diagnostics(stream: &[u8]) -> Option<Vec<Diagnostic>> {
    stream.chunks(18).map(diagnostic).collect()
}

fn diagnostic(record: &[u8]) -> Option<Diagnostic> {
    let mut cursor = Cursor { rest: record };
    let (length, kind) = (cursor.u32()?, cursor.u16()?);
    let found = Diagnostic { kind, statement: cursor.u32()?, index: cursor.u32()?, other: cursor.u32()? };
    cursor.end(found).filter(|_| length == DIAGNOSTIC && (1..=13).contains(&kind))
}
