//! The converter: streams with every `$f` made kind 1 come back as they were; damaged ones are refused or keep their other bytes.

mod common;

use common::{all_vectors, damaged, number_at, Random};
use janorembe::convert;

/// A stream with kind 1 for kind 4: 128 added to the last byte, which is the variable's.
fn stubbed(stream: &[u8]) -> Vec<u8> {
    let (mut out, mut at) = (stream.to_vec(), 0);
    while at < out.len() {
        let after = at + 4 + number_at(&out[at..], 0, 4);
        if number_at(&out[at..], 4, 2) == 4 {
            out[at + 4] = 1;
            out[after - 1] += 128;
        }
        at = after;
    }
    out
}

/// A stream with kind 4 for kind 1: 128 taken off the last byte. Every record of the stream fits its layout.
fn renewed(stream: &[u8]) -> Vec<u8> {
    let (mut out, mut at) = (stream.to_vec(), 0);
    while at < out.len() {
        let after = at + 4 + number_at(&out[at..], 0, 4);
        if number_at(&out[at..], 4, 2) == 1 {
            out[at + 4] = 4;
            out[after - 1] -= 128;
        }
        at = after;
    }
    out
}

fn converted(stream: &[u8], room: usize) -> (u32, u64, u64, Vec<u8>) {
    let mut out = vec![0xA5; room];
    let a = convert(stream, &mut out);
    (a.number, a.place, a.used, out)
}

#[test]
fn back_from_kind_1() {
    for v in all_vectors() {
        let n = v.frames.len();
        assert_eq!(converted(&stubbed(&v.frames), n), (0, 0, n as u64, v.frames.clone()), "{}", v.name);
        assert_eq!(converted(&v.frames, n), (0, 0, n as u64, v.frames.clone()), "{}", v.name);
        if n > 0 {
            assert_eq!(converted(&stubbed(&v.frames), n - 1), (8, n as u64, 0, vec![0xA5; n - 1]), "{}", v.name);
        }
    }
}

#[test]
fn damaged_streams() {
    let mut random = Random(20_480_113);
    for v in all_vectors().iter().filter(|v| !v.frames.is_empty()) {
        let stream = damaged(&mut random, &stubbed(&v.frames), &[0, 1, 2, 3, 4, 127, 128, 255]);
        let (number, place, used, out) = converted(&stream, stream.len());
        match number {
            0 => assert_eq!((place, used, out), (0, stream.len() as u64, renewed(&stream)), "{}", v.name),
            10 => assert!(place < stream.len() as u64 && used == 0 && out.iter().all(|b| *b == 0xA5), "{}", v.name),
            _ => panic!("{}: number {number}", v.name),
        }
    }
}
