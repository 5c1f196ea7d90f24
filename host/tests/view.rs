//! The view of a record: every place of the vectors' frame streams, against a reading of the test's own.

mod common;

use common::{all_vectors, damaged, number_at, stub_after_typecode, Random};
use janorembe::{lookup, view, View};

/// The strings of `count` that stand one after the other, and the bytes after them.
fn after_strings(mut rest: &[u8], count: usize) -> Option<&[u8]> {
    for _ in 0..count {
        let bytes = rest.get(..4).and(rest.get(4..))?;
        rest = bytes.get(number_at(rest, 0, 4)..)?;
    }
    Some(rest)
}

/// The record at a place, read by document 01 once more.
fn expected(stream: &[u8], at: usize) -> Option<View<'_>> {
    let rest = stream.get(at..)?;
    let record = rest.get(..4).and(rest.get(4..))?.get(..number_at(rest, 0, 4))?;
    let kind = record.get(..2).map(|k| number_at(k, 0, 2))?;
    let strings = match kind {
        1 | 4 => record.get(10..)?,
        2 | 3 => record.get(6..)?,
        _ => return None,
    };
    let counts = after_strings(strings, 1)?;
    let label = &strings[4..strings.len() - counts.len()];
    if kind == 1 && !stub_after_typecode(counts) {
        return None;
    }
    let full = kind != 1 && kind != 4 && counts.len() >= 4;
    let count = |from: usize| full.then(|| number_at(counts, from, 2) as u64);
    let variables = count(0);
    let hypotheses = variables
        .and_then(|v| after_strings(&counts[4..], v as usize + 1))
        .filter(|l| l.len() >= 4)
        .map(|l| number_at(l, 0, 4) as u64);
    Some(View { kind: kind as u64, label, variables, mandatory: count(2), hypotheses })
}

#[test]
fn every_place_of_the_vectors() {
    for v in all_vectors() {
        for at in 0..v.frames.len() + 2 {
            assert_eq!(view(&v.frames, at as u64), expected(&v.frames, at), "{} at {at}", v.name);
        }
    }
}

#[test]
fn what_look_up_finds() {
    for v in all_vectors() {
        let mut at = 0;
        while at < v.frames.len() {
            let seen = view(&v.frames, at as u64).expect("a well framed record");
            assert_eq!(lookup(&v.frames, seen.label).number, 0, "{} at {at}", v.name);
            at += 4 + number_at(&v.frames[at..], 0, 4);
        }
    }
}

#[test]
fn damaged_streams() {
    let mut random = Random(0x2545_F491_4F6C_DD1D);
    for v in all_vectors().iter().filter(|v| !v.frames.is_empty()).step_by(3) {
        let stream = damaged(&mut random, &v.frames, &[0, 1, 2, 3, 4, 128, 255]);
        for at in 0..stream.len() + 1 {
            assert_eq!(view(&stream, at as u64), expected(&stream, at), "{} at {at}", v.name);
        }
    }
}

#[test]
fn no_place_is_too_far() {
    for place in [0, 1, u64::from(u32::MAX), u64::MAX - 3, u64::MAX] {
        assert_eq!(view(b"", place), None);
    }
}
