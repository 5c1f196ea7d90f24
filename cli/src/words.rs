//! The words of the command line: what is asked for, or what is wrong with it.

use std::ffi::{OsStr, OsString};
use std::os::unix::ffi::{OsStrExt, OsStringExt};
use std::str::FromStr;

use crate::plain;

#[derive(Clone, Copy, Debug, PartialEq, Eq)]
pub enum Format {
    Text,
    Short,
    Json,
}

#[derive(Clone, Copy, Debug, PartialEq, Eq)]
pub enum Color {
    Auto,
    Always,
    Never,
}

/// What all commands share.
#[derive(Clone, Debug)]
pub struct Options {
    pub format: Format,
    pub max: usize,
    pub memory: u64,
    pub jobs: usize,
    pub color: Color,
    pub quiet: bool,
}

/// What `explain` is asked about.
#[derive(Clone, Copy, Debug, PartialEq, Eq)]
pub enum Topic {
    Kind,
    Number,
}

#[derive(Debug)]
pub enum Command {
    Check { files: Vec<OsString> },
    Frame { file: OsString, labels: Vec<Vec<u8>>, stream: bool },
    Labels { file: OsString, bytes: bool },
    Streams { file: OsString, full: bool, frames: Option<OsString>, diags: Option<OsString> },
    Explain(Option<(Topic, u32)>),
    Help(Option<&'static str>),
    Version,
}

pub struct Order {
    pub command: Command,
    pub options: Options,
}

/// What is wrong with the words, and the command that they were for.
#[derive(Debug)]
pub struct Usage {
    pub message: String,
    pub command: Option<&'static str>,
}

const COMMANDS: [&str; 5] = ["check", "frame", "labels", "streams", "explain"];
const EVERY: &[&str] = &COMMANDS;

/// Every option: its name, whether a value follows, and the commands that take it.
const KNOWN: [(&str, bool, &[&str]); 15] = [
    ("--format", true, EVERY),
    ("--json", false, EVERY),
    ("--color", true, EVERY),
    ("--quiet", false, EVERY),
    ("--help", false, EVERY),
    ("--version", false, EVERY),
    ("--memory", true, &["check", "frame", "labels", "streams"]),
    ("--max", true, &["check"]),
    ("--jobs", true, &["check"]),
    ("--stream", false, &["frame"]),
    ("--bytes", false, &["labels"]),
    ("--frames", true, &["streams"]),
    ("--diags", true, &["streams"]),
    ("--full", false, &["streams"]),
    ("-h", false, EVERY),
];

/// The words taken apart: options with their values, and the rest in order.
struct Apart {
    options: Vec<(&'static str, OsString)>,
    rest: Vec<OsString>,
}

fn known(name: &[u8]) -> Option<(&'static str, bool)> {
    KNOWN.iter().find(|(option, ..)| option.as_bytes() == name).map(|&(option, value, _)| (option, value))
}

/// One option: its value stands after `=` or is the next word.
fn option(word: &OsStr, words: &mut impl Iterator<Item = OsString>) -> Result<(&'static str, OsString), String> {
    let bytes = word.as_bytes();
    let cut = bytes.iter().position(|&byte| byte == b'=').filter(|_| bytes.starts_with(b"--"));
    let (name, joined) = (&bytes[..cut.unwrap_or(bytes.len())], cut.map(|at| &bytes[at + 1..]));
    let shown = plain::token(name);
    let Some((name, takes)) = known(name) else {
        return Err(format!("there is no option {shown} (a word that begins with - can stand after --)"));
    };
    match (takes, joined) {
        (true, Some(value)) => Ok((name, OsStr::from_bytes(value).to_owned())),
        (true, None) => Ok((name, words.next().ok_or(format!("{name} asks for a value"))?)),
        (false, None) => Ok((name, OsString::new())),
        (false, Some(_)) => Err(format!("{name} takes no value")),
    }
}

fn apart(words: Vec<OsString>) -> Result<Apart, String> {
    let mut out = Apart { options: Vec::new(), rest: Vec::new() };
    let mut words = words.into_iter();
    while let Some(word) = words.next() {
        let bytes = word.as_bytes();
        if bytes == b"--" {
            out.rest.extend(words.by_ref());
        } else if bytes.len() > 1 && bytes[0] == b'-' {
            out.options.push(option(&word, &mut words)?);
        } else {
            out.rest.push(word);
        }
    }
    Ok(out)
}

impl Apart {
    /// The last value of an option.
    fn value(&self, name: &str) -> Option<&OsString> {
        self.options.iter().rev().find(|(option, _)| *option == name).map(|(_, value)| value)
    }

    fn given(&self, name: &str) -> bool {
        self.value(name).is_some()
    }

    fn number<T: FromStr>(&self, name: &str, without: T) -> Result<T, String> {
        let Some(value) = self.value(name) else { return Ok(without) };
        value.to_str().and_then(|value| value.parse().ok()).ok_or_else(|| wrong(name, value))
    }
}

fn wrong(name: &str, value: &OsStr) -> String {
    format!("{name} cannot be `{}`", plain::token(value.as_bytes()))
}

/// So many bytes; K, M and G stand for 1,024 of each other.
fn size(value: &OsStr) -> Option<u64> {
    let value = value.to_str()?;
    let (digits, power) = match value.as_bytes().last()? {
        b'K' => (&value[..value.len() - 1], 10),
        b'M' => (&value[..value.len() - 1], 20),
        b'G' => (&value[..value.len() - 1], 30),
        _ => (value, 0),
    };
    digits.parse::<u64>().ok()?.checked_mul(1 << power)
}

fn options(words: &Apart) -> Result<Options, String> {
    let jobs = words.number("--jobs", 1)?;
    if jobs == 0 {
        return Err("--jobs cannot be `0`".to_owned());
    }
    let memory = match words.value("--memory") {
        Some(value) => size(value).ok_or_else(|| wrong("--memory", value))?,
        None => 1 << 32,
    };
    let (format, color) = (format(words)?, color(words)?);
    Ok(Options { format, color, jobs, memory, max: words.number("--max", 100)?, quiet: words.given("--quiet") })
}

/// The last of `--format` and `--json` counts.
fn format(words: &Apart) -> Result<Format, String> {
    let last = words.options.iter().rev().find(|(name, _)| matches!(*name, "--format" | "--json"));
    match last {
        None => Ok(Format::Text),
        Some(("--json", _)) => Ok(Format::Json),
        Some((name, value)) => match value.as_bytes() {
            b"text" => Ok(Format::Text),
            b"short" => Ok(Format::Short),
            b"json" => Ok(Format::Json),
            _ => Err(wrong(name, value) + ": it is text, short or json"),
        },
    }
}

fn color(words: &Apart) -> Result<Color, String> {
    let Some(value) = words.value("--color") else { return Ok(Color::Auto) };
    match value.as_bytes() {
        b"auto" => Ok(Color::Auto),
        b"always" => Ok(Color::Always),
        b"never" => Ok(Color::Never),
        _ => Err(wrong("--color", value) + ": it is auto, always or never"),
    }
}

/// The words after `janorembe`.
pub fn read(words: Vec<OsString>) -> Result<Order, Usage> {
    let mut words = apart(words).map_err(|message| Usage { message, command: None })?;
    let first = if words.rest.is_empty() { None } else { Some(words.rest.remove(0)) };
    let name = first.map(|word| named(&word)).transpose()?;
    order(name, &words).map_err(|message| Usage { message, command: name })
}

/// Help and version are said whatever else is asked for, quiet or not.
fn order(name: Option<&'static str>, words: &Apart) -> Result<Order, String> {
    taken(words, name)?;
    let mut options = options(words)?;
    let command = if words.given("--version") {
        Command::Version
    } else if words.given("--help") || words.given("-h") {
        Command::Help(name)
    } else {
        command(name, words)?
    };
    options.quiet &= !matches!(command, Command::Version | Command::Help(_));
    Ok(Order { command, options })
}

/// The command that a word names; `help` is one of `janorembe help COMMAND`.
fn named(word: &OsStr) -> Result<&'static str, Usage> {
    let all = COMMANDS.iter().chain(&["help"]);
    all.into_iter().find(|name| word == **name).copied().ok_or_else(|| {
        let message = format!("there is no command `{}`", plain::token(word.as_bytes()));
        Usage { message, command: None }
    })
}

/// Whether the command takes each option that is given.
fn taken(words: &Apart, name: Option<&str>) -> Result<(), String> {
    let Some(name) = name.filter(|name| *name != "help") else { return Ok(()) };
    for (option, _) in &words.options {
        let takes = KNOWN.iter().any(|(known, _, commands)| known == option && commands.contains(&name));
        if !takes {
            return Err(format!("{name} takes no {option}"));
        }
    }
    Ok(())
}

fn command(name: Option<&'static str>, words: &Apart) -> Result<Command, String> {
    match name {
        Some("check") => check(words),
        Some("frame") => frame(words),
        Some("labels") => Ok(Command::Labels { file: one_file(words)?, bytes: words.given("--bytes") }),
        Some("streams") => streams(words),
        Some("explain") => explain(words),
        Some(_) => help(words),
        None => Err("a command must be named".to_owned()),
    }
}

fn check(words: &Apart) -> Result<Command, String> {
    let files = words.rest.clone();
    if files.is_empty() {
        return Err("check asks for a file".to_owned());
    }
    if files.iter().filter(|file| *file == "-").count() > 1 {
        return Err("standard input can be named once".to_owned());
    }
    Ok(Command::Check { files })
}

fn frame(words: &Apart) -> Result<Command, String> {
    let [file, labels @ ..] = &words.rest[..] else { return Err("frame asks for a file and a label".to_owned()) };
    if labels.is_empty() {
        return Err("frame asks for a label".to_owned());
    }
    let labels = labels.iter().map(|label| label.clone().into_vec()).collect();
    Ok(Command::Frame { file: file.clone(), labels, stream: words.given("--stream") })
}

fn one_file(words: &Apart) -> Result<OsString, String> {
    match &words.rest[..] {
        [file] => Ok(file.clone()),
        _ => Err("one file must be named".to_owned()),
    }
}

fn streams(words: &Apart) -> Result<Command, String> {
    let out = |name: &str| match words.value(name) {
        Some(value) if value == "-" => Err(format!("{name} asks for a file")),
        value => Ok(value.cloned()),
    };
    let (frames, diags) = (out("--frames")?, out("--diags")?);
    if frames.is_none() && diags.is_none() {
        return Err("streams asks for --frames OUT, --diags OUT or both".to_owned());
    }
    Ok(Command::Streams { file: one_file(words)?, full: words.given("--full"), frames, diags })
}

fn explain(words: &Apart) -> Result<Command, String> {
    let [topic, number] = &words.rest[..] else {
        let wrong = "explain asks for `kind N` or `number N`".to_owned();
        return if words.rest.is_empty() { Ok(Command::Explain(None)) } else { Err(wrong) };
    };
    let (topic, most) = match topic.as_bytes() {
        b"kind" => (Topic::Kind, 13),
        b"number" => (Topic::Number, 11),
        _ => return Err("explain asks for `kind N` or `number N`".to_owned()),
    };
    let found = number.to_str().and_then(|number| number.parse().ok()).filter(|number| (1..=most).contains(number));
    found.map(|number| Command::Explain(Some((topic, number)))).ok_or(format!("N is a number from 1 to {most}"))
}

fn help(words: &Apart) -> Result<Command, String> {
    let Some(word) = words.rest.first() else { return Ok(Command::Help(None)) };
    named(word).map(|name| Command::Help(Some(name))).map_err(|usage| usage.message)
}
