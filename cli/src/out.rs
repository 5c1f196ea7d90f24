//! Where results go: standard output, in the form that was asked for.

use crate::words::{Color, Format, Options};
use std::io::{self, BufWriter, IsTerminal, Write};

/// What a piece of a line is, by which it is coloured.
#[derive(Clone, Copy)]
pub enum Ink {
    Place,
    Bad,
    Remark,
}

pub struct Out {
    to: BufWriter<Box<dyn Write>>,
    pub format: Format,
    colored: bool,
}

impl Out {
    pub fn of(options: &Options) -> Out {
        let to: Box<dyn Write> = if options.quiet { Box::new(io::sink()) } else { Box::new(io::stdout()) };
        Out { to: BufWriter::with_capacity(1 << 16, to), format: options.format, colored: colored(options.color) }
    }

    pub fn json(&self) -> bool {
        self.format == Format::Json
    }

    pub fn line(&mut self, line: &str) -> io::Result<()> {
        self.to.write_all(line.as_bytes())?;
        self.to.write_all(b"\n")
    }

    pub fn flush(&mut self) -> io::Result<()> {
        self.to.flush()
    }

    /// A piece of a line in its colour.
    pub fn ink(&self, ink: Ink, piece: &str) -> String {
        if !self.colored || piece.is_empty() {
            return piece.to_owned();
        }
        let code = match ink {
            Ink::Place => "1",
            Ink::Bad => "1;31",
            Ink::Remark => "1;36",
        };
        format!("\x1b[{code}m{piece}\x1b[0m")
    }
}

fn colored(color: Color) -> bool {
    let set = |name: &str| std::env::var_os(name).filter(|value| !value.is_empty());
    match color {
        Color::Always => true,
        Color::Never => false,
        Color::Auto => {
            io::stdout().is_terminal() && set("NO_COLOR").is_none() && set("TERM").is_none_or(|term| term != "dumb")
        }
    }
}

/// A line to standard error, unless only the status is wanted. What cannot be said there is lost.
pub fn complain(options: &Options, line: &str) {
    if !options.quiet {
        let _ = writeln!(io::stderr(), "{line}");
    }
}
