//! The operation on a file.
//!
//! `on-file [--short] TEXT FRAMES DIAGNOSTICS` writes both streams to files and prints number, place and used lengths; frames
//! are full, or short ones.
//! `on-file --time [--short] TEXT ROUNDS` prints, in ms of processor time, the writer's best over buffers that were touched before, its
//! best over buffers that were not, the measure's best, and the best time that clearing the work area alone takes.

#[path = "../../../bench/cpu.rs"]
mod cpu;

use cpu::Instant;
use janorembe::{measure, streams, words, write};
use std::hint::black_box;

fn read(path: &str) -> Vec<u8> {
    std::fs::read(path).unwrap_or_else(|e| fail(&format!("{path}: {e}")))
}

fn save(path: &str, bytes: &[u8]) {
    std::fs::write(path, bytes).unwrap_or_else(|e| fail(&format!("{path}: {e}")));
}

fn fail(why: &str) -> ! {
    eprintln!("{why}");
    std::process::exit(1)
}

fn answer(text: &str, frames: &str, diags: &str, full: bool) {
    match streams(&read(text), full) {
        Ok(s) => {
            save(frames, &s.frames);
            save(diags, &s.diags);
            println!("0 0 {} {}", s.frames.len(), s.diags.len());
        }
        Err(a) => println!("{} {} 0 0", a.number, a.place),
    }
}

fn milliseconds(run: impl FnOnce()) -> f64 {
    let begin = Instant::now();
    run();
    begin.elapsed().as_secs_f64() * 1e3
}

/// The work area is asked for anew in each round, so that its pages are not there yet in the first call.
fn time(path: &str, rounds: &str, full: bool) {
    let rounds = rounds.parse().unwrap_or_else(|_| fail("ROUNDS is a number"));
    let text = read(path);
    let words = words(&text);
    let s = streams(&text, full).unwrap_or_else(|a| fail(&format!("{path}: number {} at {}", a.number, a.place)));
    let (frames_length, diags_length) = (s.frames.len(), s.diags.len());
    let mut best = [f64::MAX; 4];
    for _ in 0..rounds {
        let (mut work, mut frames, mut diags) = (vec![0u32; words], vec![0u8; frames_length], vec![0u8; diags_length]);
        let untouched = milliseconds(|| _ = black_box(write(&text, &mut work, &mut frames, &mut diags, full)));
        let touched = milliseconds(|| _ = black_box(write(&text, &mut work, &mut frames, &mut diags, full)));
        let measured = milliseconds(|| _ = black_box(measure(&text, &mut work, full)));
        let clearing = milliseconds(|| black_box(&mut work).fill(0));
        if frames != s.frames || diags != s.diags {
            fail("two calls gave different streams");
        }
        for (least, now) in best.iter_mut().zip([touched, untouched, measured, clearing]) {
            *least = least.min(now);
        }
    }
    println!(
        "touched {:.3} untouched {:.3} measured {:.3} clearing {:.3} words {words} frames {frames_length}",
        best[0], best[1], best[2], best[3]
    );
}

fn main() {
    let args: Vec<String> = std::env::args().skip(1).collect();
    let args: Vec<&str> = args.iter().map(String::as_str).collect();
    match args[..] {
        ["--time", "--short", text, rounds] => time(text, rounds, false),
        ["--time", text, rounds] => time(text, rounds, true),
        ["--short", text, frames, diags] => answer(text, frames, diags, false),
        [text, frames, diags] => answer(text, frames, diags, true),
        _ => fail("on-file [--short] TEXT FRAMES DIAGNOSTICS | on-file --time [--short] TEXT ROUNDS"),
    }
}
