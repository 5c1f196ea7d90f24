//! The line of a refusal: what the core answers for numbers 3, 4 and 5 is what `place` counts, and what is shown.

mod common;

use common::host::all_vectors;
use common::Folder;
use janorembe_cli::lend::{streams, Answer, Refusal};
use janorembe_cli::place::Lines;

const MEMORY: u64 = 1 << 30;

fn refused(text: &[u8]) -> Option<Refusal> {
    match streams(text, MEMORY, false) {
        Ok(Answer::Refused(refusal)) => Some(refusal),
        _ => None,
    }
}

/// Whether the number has a line.
fn lined(refusal: &Refusal) -> bool {
    (3..=5).contains(&refusal.number)
}

#[test]
fn the_core_and_the_tool_count_alike() {
    let mut seen = [0; 10];
    for vector in all_vectors() {
        let Some(refusal) = refused(&vector.text) else { continue };
        let counted = Lines::of(&vector.text).place(refusal.place).0;
        assert_eq!(refusal.line, if lined(&refusal) { counted } else { 0 }, "{}", vector.name);
        seen[refusal.number as usize] += 1;
    }
    assert!(seen[3] > 20 && seen[4] > 5 && seen[5] > 100 && seen[6] > 5, "{seen:?}");
}

#[test]
fn the_line_is_shown() {
    let folder = Folder::of("lines");
    let texts: [(&[u8], &str); 4] = [
        (b"$( one\r\ntwo $)\n  $}\n", "a:3:3:"),
        (b"a\r$}", "a:1:3:"),
        (b"\n\n$(", "a:3:1:"),
        (b"$c a\n\x80 $.", "a:2:1:"),
    ];
    for (text, place) in texts {
        folder.put("a", text);
        let ran = folder.run(&["check", "--format", "short", "a"]);
        assert!(ran.out.starts_with(place), "{}", ran.out);
        assert_eq!(ran.status, 2);
    }
}
