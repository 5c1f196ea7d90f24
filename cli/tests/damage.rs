//! Damaged texts, as `host/tests/damage.rs` makes them, through everything that `check` does: status 0, 1 or 2, never 4, and no panic.

mod common;

use common::host::{all_vectors, damaged, Random};
use janorembe_cli::check;
use janorembe_cli::job::Done;
use janorembe_cli::lend;
use janorembe_cli::out::Out;
use janorembe_cli::status::Status;
use janorembe_cli::words::{Color, Format, Options};
use std::ffi::OsStr;

const PUT: &[u8] = b"$$$ \n\t.({})=cvdfeapx0\x00\x7F\x80\xFF";

/// The status of a text in each form; all are the same.
fn status(text: &[u8]) -> Status {
    let answers = [Format::Text, Format::Short, Format::Json].map(|format| {
        let options = Options { format, max: 0, memory: 1 << 32, jobs: 1, color: Color::Never, quiet: true };
        let answer = lend::streams(text, options.memory, false).expect("an answer");
        let done = Done { text: text.to_vec(), answer };
        check::one(&mut Out::of(&options), OsStr::new("damaged.mm"), &done, &options).expect("nothing is written")
    });
    assert!(answers.iter().all(|&answer| answer == answers[0]));
    assert!(answers[0] <= Status::Refused, "{:?}", String::from_utf8_lossy(text));
    answers[0]
}

#[test]
fn hurt_texts() {
    let mut random = Random(0x1234_5678_9ABC_DEF1);
    let texts: Vec<_> = all_vectors().into_iter().map(|v| v.text).filter(|t| t.len() <= 700).collect();
    let mut counts = [0; 3];
    for _ in 0..5_000 {
        let text = &texts[random.below(texts.len())];
        counts[status(&damaged(&mut random, text, PUT)) as usize] += 1;
    }
    assert!(counts.iter().all(|&count| count > 100), "{counts:?}");
}

#[test]
fn any_bytes() {
    let mut random = Random(0x0F1E_2D3C_4B5A_6979);
    for _ in 0..5_000 {
        let text: Vec<u8> = (0..random.below(40)).map(|_| random.pick(PUT)).collect();
        status(&text);
        let text: Vec<u8> = (0..random.below(40)).map(|_| random.below(256) as u8).collect();
        status(&text);
    }
}
