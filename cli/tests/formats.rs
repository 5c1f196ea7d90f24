//! The examples of `docs/FORMATS.md` are what the core gives.

use janorembe_cli::lend::{streams, Answer};

const FORMATS: &str = include_str!("../../docs/FORMATS.md");

/// The bytes in the left column of the code lines from this remark to the next.
fn listed(from: &str, to: &str) -> Vec<u8> {
    let part = FORMATS.split(from).nth(1).expect("the example").split(to).next().expect("its end");
    let rows = part.lines().filter(|line| line.starts_with("    ") && line.len() > 20);
    let digits: Vec<u32> = rows.flat_map(|row| row[4..20].chars().filter_map(|c| c.to_digit(16))).collect();
    digits.chunks(2).map(|pair| (pair[0] * 16 + pair[1]) as u8).collect()
}

fn given(text: &[u8]) -> (Vec<u8>, Vec<u8>) {
    match streams(text, 1 << 32, false).expect("an answer") {
        Answer::Read(streams) => (streams.frames, streams.diags),
        Answer::Refused(refusal) => panic!("{refusal:?}"),
    }
}

#[test]
fn examples() {
    let frames = listed("Its frame stream, 116 bytes", "And the diagnostics stream");
    assert_eq!(given(b"$c ( ) wff $. $v x $. wx $f wff x $. ax $a wff ( x ) $."), (frames, vec![]));
    let diags = listed("And the diagnostics stream", "\u{0}");
    assert_eq!(given(b"$c x $. $v x $."), (vec![], diags));
}
