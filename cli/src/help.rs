//! What `--help` says.

const GENERAL: &str = "\
janorembe: checks the scopes of Metamath texts; every answer is proved

  janorembe check FILE...                  errors or the refusal of each file, then its counts
  janorembe frame FILE LABEL...            the frames of these labels
  janorembe labels FILE                    every label that has a frame
  janorembe streams FILE --frames OUT --diags OUT
                                           both record streams, byte for byte
  janorembe explain [kind N | number N]    a rule, a smallest wrong text and a mended one

`janorembe COMMAND --help` says more of a command. A FILE of - is standard input; -- ends the options.
Proofs are not checked: a frame says what an assertion needs, not that it is proved.

Options of every command:
  --format text|short|json   with carets (text), one line each (short), one JSON object a line (json)
  --json                     the same as --format json
  --color auto|always|never  auto: on a terminal, if NO_COLOR is not set and TERM is not dumb
  --quiet                    only the exit status
  --version                  this tool's version, the kit that proved the core, the core's SHA-256

Exit status (of several files, the highest):
  0  all was read, nothing to report
  1  all was read, something to report: an error, a label that is not there
  2  a text or a stream was refused
  3  the command could not be done
  4  a fault in this tool, to be reported";

const CHECK: &str = "\
janorembe check [OPTION...] FILE...

Shows each error with file, line and column (a byte of the line, from 1), or why a text was refused; then one line of counts
for each file. Each file is a text of its own. A refused text has no frames and no other errors. Proofs are not checked.

  --max N         at most N errors for each file in text and short (100; 0: all); what is left out is counted
  --jobs N        files checked at the same time (1); the output is in the order of the files
  --memory BYTES  the most to lend to the core for each file (4G); K, M and G stand for 1,024 of each other

and the options of every command (`janorembe --help`).";

const FRAME: &str = "\
janorembe frame [OPTION...] FILE LABEL...

Shows the frame of each label: its statement, its hypotheses in order, its variables and which of them are kept apart. A label
is bytes: 417, 0417 and 00417 are three. A label that no frame bears is status 1; labels that look like it are named, and
never taken instead. Errors elsewhere in the text do not change the status; a line on standard error counts them. A label may begin
with -, after --.

  --stream        FILE is a frame stream, as `janorembe streams` writes it; offsets are shown for lines. Optional variables
                  are shown if the stream has them
  --memory BYTES  the most to lend to the core (4G)

and the options of every command (`janorembe --help`).";

const LABELS: &str = "\
janorembe labels [OPTION...] FILE

Lists every label that has a frame, in the order of the text: its place, $f, $a or $p, and the label. Errors in the text do not
change the status; a line on standard error counts them.

  --bytes         in byte order of the labels
  --memory BYTES  the most to lend to the core (4G)

and the options of every command (`janorembe --help`).";

const STREAMS: &str = "\
janorembe streams [OPTION...] FILE --frames OUT --diags OUT

Writes the frame stream and the diagnostics stream of a text to files, byte for byte as the core gives them (docs/FORMATS.md has
every record), then shows the line of counts. One of the two may be left out. An output is whole or not there: it is written beside
its place and renamed. It is never an input. Nothing is written if the text is refused. Frames have their mandatory variables
only, unless --full is given.

  --frames OUT    the frame stream
  --diags OUT     the diagnostics stream
  --full          frames with their optional variables and all rows
  --memory BYTES  the most to lend to the core (4G)

and the options of every command (`janorembe --help`).";

const EXPLAIN: &str = "\
janorembe explain [OPTION...] [kind N | number N]

Says the rule behind a kind of error (1 to 13) or a number (1 to 11), with a smallest wrong text and a mended one. Without
words: all kinds and numbers, a line each.

Takes the options of every command (`janorembe --help`).";

pub fn of(command: Option<&str>) -> &'static str {
    match command {
        Some("check") => CHECK,
        Some("frame") => FRAME,
        Some("labels") => LABELS,
        Some("streams") => STREAMS,
        Some("explain") => EXPLAIN,
        _ => GENERAL,
    }
}
