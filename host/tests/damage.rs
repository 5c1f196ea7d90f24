//! Damaged texts: an answer each time, and everything that holds of every call. `common::run` tests the buffers.

mod common;

use common::{all_vectors, damaged, number_at, refusal, settle, Random};

const PUT: &[u8] = b"$$$ \n\t.({})=cvdfeapx0\x00\x7F\x80\xFF";

/// The places where the records of a stream start; each must fit, with one of these kinds.
fn records(stream: &[u8], kinds: std::ops::RangeInclusive<usize>) -> Vec<usize> {
    let (mut at, mut out) = (0, Vec::new());
    while at < stream.len() {
        assert!(kinds.contains(&number_at(stream, at + 4, 2)), "kind");
        out.push(at);
        at += 4 + number_at(stream, at, 4);
    }
    assert_eq!(at, stream.len(), "the last record ends the stream");
    out
}

/// Number by number, what the place must be; and both streams in text order.
fn assert_sound(text: &[u8]) -> u32 {
    let name = format!("{:?}", String::from_utf8_lossy(text));
    let (words, r) = settle(&name, text);
    let place = r.answer.place as usize;
    match r.answer.number {
        0 => {}
        3 => assert!(!matches!(text[place], 9 | 10 | 12 | 13 | 32..=126), "{name}"),
        4 => assert!(text[place..].starts_with(b"$("), "{name}"),
        5 => assert!(place < text.len() && text[place] > 32 && (place == 0 || text[place - 1] <= 32), "{name}"),
        6 => assert_eq!(place, text.len(), "{name}"),
        other => panic!("{name}: number {other}"),
    }
    let offset = |at: &usize| number_at(&r.frames, at + 6, 4);
    let frames = records(&r.frames, 2..=4);
    assert!(frames.windows(2).all(|w| offset(&w[0]) < offset(&w[1])), "{name}: frames in text order");
    assert!(frames.iter().all(|at| offset(at) < text.len()), "{name}");
    let statement = |at: &usize| number_at(&r.diags, at + 6, 4);
    let diags = records(&r.diags, 1..=13);
    assert!(diags.windows(2).all(|w| statement(&w[0]) <= statement(&w[1])), "{name}: diagnostics in text order");
    assert!(diags.iter().all(|&at| number_at(&r.diags, at, 4) == 14), "{name}");
    assert_eq!(refusal(&name, text, words - 1, 0, 0), (2, words as u64), "{name}");
    r.answer.number
}

#[test]
fn hurt_texts() {
    let mut random = Random(0x1234_5678_9ABC_DEF1);
    let texts: Vec<_> = all_vectors().into_iter().map(|v| v.text).filter(|t| t.len() <= 700).collect();
    let mut numbers = [0; 10];
    for _ in 0..20_000 {
        let text = &texts[random.below(texts.len())];
        numbers[assert_sound(&damaged(&mut random, text, PUT)) as usize] += 1;
    }
    assert!([0, 3, 4, 5, 6].iter().all(|&n| numbers[n] > 100), "{numbers:?}");
}

#[test]
fn words_in_any_order() {
    let words: [&[u8]; 22] = [
        b"$c", b"$v", b"$d", b"$f", b"$e", b"$a", b"$p", b"$=", b"$.", b"$.", b"$.", b"${", b"$}", b"$(", b"$)", b"x",
        b"x", b"y", b"c", b"c", b"0417", b"417",
    ];
    let mut random = Random(0xFEDC_BA98_7654_3211);
    for _ in 0..20_000 {
        let text: Vec<_> = (0..random.below(25)).map(|_| words[random.below(words.len())]).collect();
        assert_sound(&text.join(&b' '));
    }
}

#[test]
fn any_bytes() {
    let mut random = Random(0x0F1E_2D3C_4B5A_6979);
    for _ in 0..20_000 {
        let text: Vec<u8> = (0..random.below(40)).map(|_| random.pick(PUT)).collect();
        assert_sound(&text);
        let text: Vec<u8> = (0..random.below(40)).map(|_| random.below(256) as u8).collect();
        assert_sound(&text);
    }
}
