//! The built program on standard input. Skipped, with a line that says so, if `crates/janorembe/out/janorembe` is not there.

mod common;

use common::{all_vectors, words_needed};
use janorembe::streams;
use std::io::Write;
use std::path::PathBuf;
use std::process::{Command, Stdio};

const MOST_BYTES: usize = 8_192;
const MOST_TOKENS: usize = 1_023;
const WHOLE: &[u8] = b"$c ( ) wff $. $v x $. wx $f wff x $. ax $a wff ( x ) $.";

/// The built program, if it is there.
fn program() -> Option<PathBuf> {
    let path = PathBuf::from(env!("CARGO_MANIFEST_DIR")).join("../crates/janorembe/out/janorembe");
    if path.exists() {
        return Some(path);
    }
    // Not by `println!`, which the test harness keeps to itself when a test passes.
    let test = std::thread::current().name().unwrap_or("a test").to_owned();
    let _ = writeln!(
        std::io::stderr(),
        "SKIPPED {test}: crates/janorembe/out/janorembe is not there (`rt run <stdin` in its crate builds it)"
    );
    None
}

/// What the program writes for an input.
fn written(program: &PathBuf, input: &[u8]) -> Vec<u8> {
    let mut child =
        Command::new(program).stdin(Stdio::piped()).stdout(Stdio::piped()).spawn().expect("the program starts");
    // It may end before it has read an input that is too long.
    let _ = child.stdin.take().expect("standard input").write_all(input);
    child.wait_with_output().expect("the program ends").stdout
}

/// What it must write: both streams, or nothing if the text is refused or longer than the program takes.
fn expected(input: &[u8]) -> Vec<u8> {
    let tokens = words_needed(input) / 16 - 1;
    match streams(input, false) {
        Ok(s) if input.len() <= MOST_BYTES && tokens <= MOST_TOKENS => [s.frames, s.diags].concat(),
        _ => Vec::new(),
    }
}

fn padded(text: &[u8], length: usize) -> Vec<u8> {
    let mut out = text.to_vec();
    out.resize(length, b' ');
    out
}

/// `$c a a .. $.` with so many tokens.
fn tokens(count: usize) -> Vec<u8> {
    format!("$c {}$.", "a ".repeat(count - 2)).into_bytes()
}

#[test]
fn whole_case() {
    let Some(program) = program() else { return };
    let out = written(&program, WHOLE);
    assert_eq!(out.len(), 116);
    assert_eq!(out, expected(WHOLE));
    let both = b"$c c $. $v x $. f $f c x $. ${ e $e c x $. $c d $. p $p c x $= ? $. $} $d x x $. f $a c $.";
    let s = streams(both, false).expect("not refused");
    assert_eq!(s.diags.len(), 3 * 18);
    assert_eq!(written(&program, both), [s.frames, s.diags].concat());
}

#[test]
fn refusals_and_nothing() {
    let Some(program) = program() else { return };
    for input in [
        &b""[..],
        b" \n",
        b"$( a remark $)",
        b"$}",
        b"${",
        b"$(",
        b"$c $.",
        b"\x80",
        b"$c c $. a $a c",
        b"$c c $. \x00",
    ] {
        assert_eq!(written(&program, input), b"", "{input:?}");
    }
    assert_eq!(written(&program, &[WHOLE, b" $}"].concat()), b"");
}

#[test]
fn bytes_at_the_limit() {
    let Some(program) = program() else { return };
    let most = padded(WHOLE, MOST_BYTES);
    assert_eq!(written(&program, &most), expected(WHOLE));
    assert_eq!(written(&program, &padded(WHOLE, MOST_BYTES - 1)), expected(WHOLE));
    for longer in [MOST_BYTES + 1, MOST_BYTES + 2, 3 * MOST_BYTES, 1_000_000] {
        assert_eq!(written(&program, &padded(WHOLE, longer)), b"", "{longer} bytes");
    }
    let late = [vec![b'\n'; MOST_BYTES - WHOLE.len()], WHOLE.to_vec()].concat();
    assert_eq!(written(&program, &late), expected(&late));
    assert_eq!(written(&program, &late).len(), 116);
}

#[test]
fn tokens_at_the_limit() {
    let Some(program) = program() else { return };
    let most = written(&program, &tokens(MOST_TOKENS));
    assert_eq!(most.len(), (MOST_TOKENS - 3) * 18);
    assert_eq!(most, expected(&tokens(MOST_TOKENS)));
    for more in [MOST_TOKENS + 1, MOST_TOKENS + 2, 2_000, 4_000] {
        assert_eq!(written(&program, &tokens(more)), b"", "{more} tokens");
    }
}

/// Nearly the most diagnostics: two for each token but one of a `$c`.
#[test]
fn most_diagnostics() {
    let Some(program) = program() else { return };
    let text = format!("$c {}$. x $e y $.", "x ".repeat(MOST_TOKENS - 6)).into_bytes();
    let out = written(&program, &text);
    assert_eq!(out.len(), 36_612);
    assert_eq!(out, expected(&text));
}

/// Nearly the longest frame stream: 108 assertions, each with 72 mandatory variables, all pairs of these, and every byte that is
/// left of the text in the typecodes of their `$f`. No variable is optional: both settings give these bytes.
fn longest_frames() -> Vec<u8> {
    let label = |i: usize| {
        let bytes: Vec<char> = ('a'..='z').chain('A'..='Z').chain('0'..='9').chain("-_.".chars()).collect();
        if i < 65 {
            bytes[i].to_string()
        } else {
            format!("{}{}", bytes[i / 65], bytes[i % 65])
        }
    };
    let names: Vec<String> = ('!'..='~').filter(|c| !"$c".contains(*c)).map(|c| c.to_string()).take(72).collect();
    let typecode = "c".repeat(77);
    let floats: String = names.iter().enumerate().map(|(i, v)| format!("{} $f {typecode} {v} $. ", label(i))).collect();
    let assertions: String = (0..108).map(|i| format!("{} $a c $. ", label(73 + i))).collect();
    let all = names.join(" ");
    format!("$c c {typecode} $. $v {all} $. {floats}$d {all} $. {} $e {typecode} {all} $. {assertions}", label(72))
        .into_bytes()
}

/// The bytes of that stream by the layout of its records: lengths, fields and strings one by one.
fn longest_bytes() -> usize {
    let (names, typecode, pairs) = (72, 4 + 77, 72 * 71 / 2);
    let float = |label: usize| 4 + 2 + 4 + 4 + (4 + label) + typecode + (4 + 1);
    let head = 4 + 2 + 4 + (4 + 2) + 2 + 2 + names * (4 + 1) + 4;
    let hypotheses = 4 + names * (2 + 4 + 2 + typecode) + (2 + 4 + typecode + 4 + names * (4 + 4 + 2) + 4 + 4);
    let target = (4 + 1) + 4 + 4 + 4;
    let apart = 4 + pairs * 4 + names * 9;
    65 * float(1) + 7 * float(2) + 108 * (head + hypotheses + target + apart)
}

#[test]
fn long_frames() {
    let text = longest_frames();
    assert!(text.len() <= MOST_BYTES && words_needed(&text) <= 16 * (MOST_TOKENS + 1));
    for full in [false, true] {
        assert_eq!(streams(&text, full).expect("not refused").frames.len(), longest_bytes());
    }
    assert_eq!(longest_bytes(), 2_006_431);
    let Some(program) = program() else { return };
    assert!(written(&program, &text) == expected(&text));
}

/// Optional variables are left out: the program writes short frames, and they are not the full ones.
#[test]
fn short_frames() {
    let text = b"$c w $. $v x y z $. fx $f w x $. $d z y x $. a $a w x $. b $a w $.";
    let [short, full] = [false, true].map(|full| streams(text, full).expect("not refused").frames);
    // for `a` y, z and two rows of a byte; for `b` x, y, z and three rows
    assert_eq!(full.len() - short.len(), (2 * 5 + 2) + (3 * 5 + 3));
    let Some(program) = program() else { return };
    assert_eq!(written(&program, text), short);
}

#[test]
fn every_short_text_of_the_vectors() {
    let Some(program) = program() else { return };
    for v in all_vectors().iter().step_by(3) {
        assert_eq!(written(&program, &v.text), expected(&v.text), "{}", v.name);
    }
}
