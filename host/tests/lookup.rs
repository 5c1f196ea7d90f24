//! Look-up: the recorded lines, every record of the vectors' frame streams, and damaged streams.

mod common;

use common::{all_vectors, damaged, look_ups, number_at, stub_after_typecode, Random};
use janorembe::lookup;

fn found(stream: &[u8], label: &[u8]) -> (u32, u64) {
    let f = lookup(stream, label);
    (f.number, f.place)
}

/// The label of the record at `at` and the place after the record, if it is well framed: document 01, read once more.
fn framed(stream: &[u8], at: usize) -> Option<(&[u8], usize)> {
    let rest = &stream[at..];
    let record = rest.get(4..)?.get(..number_at(rest, 0, 4))?;
    if record.len() < 2 {
        return None;
    }
    let kind = number_at(record, 0, 2);
    let front = match kind {
        1 | 4 => 10,
        2 | 3 => 6,
        _ => return None,
    };
    let after_front = record.get(front..)?;
    if after_front.len() < 4 {
        return None;
    }
    let label = after_front[4..].get(..number_at(after_front, 0, 4))?;
    if kind == 1 && !stub_after_typecode(&after_front[4 + label.len()..]) {
        return None;
    }
    Some((label, at + 4 + record.len()))
}

/// The labels of a stream with their places, or the place of the first bad record.
fn labels(stream: &[u8]) -> Result<Vec<(Vec<u8>, usize)>, usize> {
    let (mut at, mut out) = (0, Vec::new());
    while at < stream.len() {
        let (label, after) = framed(stream, at).ok_or(at)?;
        out.push((label.to_vec(), at));
        at = after;
    }
    Ok(out)
}

fn expected(stream: &[u8], label: &[u8]) -> (u32, u64) {
    match labels(stream) {
        Err(at) => (10, at as u64),
        Ok(all) => match all.iter().find(|(l, _)| l == label) {
            Some((_, at)) => (0, *at as u64),
            None => (11, 0),
        },
    }
}

#[test]
fn every_recorded_line() {
    for l in look_ups() {
        assert_eq!(found(&l.stream, &l.label), (l.number, l.place), "{}", l.name);
        assert_eq!(expected(&l.stream, &l.label), (l.number, l.place), "{}", l.name);
    }
}

#[test]
fn every_record_of_the_vectors() {
    for v in all_vectors() {
        let all = labels(&v.frames).expect("a well framed stream");
        for (label, at) in &all {
            assert_eq!(found(&v.frames, label), (0, *at as u64), "{}", v.name);
            let longer = [&label[..], b"0"].concat();
            assert_eq!(found(&v.frames, &longer), expected(&v.frames, &longer), "{}", v.name);
        }
        assert_eq!(found(&v.frames, b""), (11, 0), "{}", v.name);
    }
}

/// A stream cut anywhere is malformed, but between two records; so is one with bytes after it.
#[test]
fn every_cut() {
    for v in all_vectors().iter().filter(|v| !v.frames.is_empty()).step_by(7) {
        for cut in 0..v.frames.len() {
            assert_eq!(found(&v.frames[..cut], b"x"), expected(&v.frames[..cut], b"x"), "{} cut at {cut}", v.name);
        }
        let longer = [&v.frames[..], &[0; 5]].concat();
        assert_eq!(found(&longer, b"x"), (10, v.frames.len() as u64), "{}", v.name);
    }
}

#[test]
fn damaged_streams() {
    let mut random = Random(0x2545_F491_4F6C_DD1D);
    let streams: Vec<_> = all_vectors().into_iter().map(|v| v.frames).filter(|s| !s.is_empty()).collect();
    let mut numbers = [0; 12];
    for _ in 0..30_000 {
        let stream = &streams[random.below(streams.len())];
        let all = labels(stream).expect("a well framed stream");
        let label = &all[random.below(all.len())].0;
        let hurt = damaged(&mut random, stream, &[0, 1, 2, 3, 4, 14, 127, 128, 255]);
        let answer = found(&hurt, label);
        assert_eq!(answer, expected(&hurt, label));
        numbers[answer.0 as usize] += 1;
    }
    assert!([0, 10, 11].iter().all(|&n| numbers[n] > 100), "{numbers:?}");
}

#[test]
fn bytes_that_are_no_stream() {
    let mut random = Random(0x9E37_79B9_7F4A_7C15);
    for _ in 0..30_000 {
        let stream: Vec<u8> = (0..random.below(60)).map(|_| random.pick(&[0, 0, 0, 1, 2, 3, 6, 14, 97, 255])).collect();
        let label = vec![97; random.below(3)];
        assert_eq!(found(&stream, &label), expected(&stream, &label), "{stream:?} {label:?}");
    }
}
