//! Every line of the vectors, with the buffers' contents before and after, and each line's buffers one short.

mod common;

use common::{all_vectors, refusal, run, settle};
use janorembe::cases::cases;

#[test]
fn every_line() {
    for v in all_vectors() {
        let r = run(&v.name, &v.text, v.words, v.frames_length, v.diags_length);
        assert_eq!((r.answer.number, r.answer.place), (v.number, v.place), "{}", v.name);
        assert_eq!(r.frames, v.frames, "{}: frames", v.name);
        assert_eq!(r.diags, v.diags, "{}: diagnostics", v.name);
    }
}

/// The lengths that numbers 2, 8 and 9 ask for are just enough, and longer buffers change nothing.
#[test]
fn buffers_just_long_enough() {
    for v in all_vectors() {
        let (words, just) = settle(&v.name, &v.text);
        let longer = run(&v.name, &v.text, words + 5, just.frames.len() + 9, just.diags.len() + 7);
        assert_eq!(just, longer, "{}", v.name);
        match v.number {
            0 => assert_eq!((&just.frames, &just.diags), (&v.frames, &v.diags), "{}", v.name),
            2 => assert_eq!(words as u64, v.place, "{}", v.name),
            8 => assert_eq!(just.frames.len() as u64, v.place, "{}", v.name),
            9 => assert_eq!(just.diags.len() as u64, v.place, "{}", v.name),
            _ => assert_eq!((just.answer.number, just.answer.place), (v.number, v.place), "{}", v.name),
        }
    }
}

/// One word short is number 2 whatever else is wrong; one byte short is 8, and 9 only if the frames fit.
#[test]
fn buffers_one_short() {
    for v in all_vectors() {
        let (words, just) = settle(&v.name, &v.text);
        let (f, d) = (just.frames.len(), just.diags.len());
        assert_eq!(refusal(&v.name, &v.text, words - 1, f, d), (2, words as u64), "{}", v.name);
        assert_eq!(refusal(&v.name, &v.text, 0, 0, 0), (2, words as u64), "{}", v.name);
        if just.answer.number != 0 {
            let same = (just.answer.number, just.answer.place);
            assert_eq!(refusal(&v.name, &v.text, words, 1000, 1000), same, "{}", v.name);
        }
        if f > 0 {
            assert_eq!(refusal(&v.name, &v.text, words, f - 1, d), (8, f as u64), "{}", v.name);
            assert_eq!(refusal(&v.name, &v.text, words, f - 1, 0), (8, f as u64), "{}", v.name);
            assert_eq!(refusal(&v.name, &v.text, words, 0, d + 1), (8, f as u64), "{}", v.name);
        }
        if d > 0 {
            assert_eq!(refusal(&v.name, &v.text, words, f, d - 1), (9, d as u64), "{}", v.name);
            assert_eq!(refusal(&v.name, &v.text, words, f + 1, 0), (9, d as u64), "{}", v.name);
        }
    }
}

/// Every case of the requests that have landed, and of both settings.
#[test]
fn every_case_of_the_requests() {
    for file in ["requests.txt", "short.txt"] {
        let path = format!("{}/../vectors/{file}", env!("CARGO_MANIFEST_DIR"));
        let all = cases(&std::fs::read_to_string(path).expect("the cases")).expect("cases");
        assert!(!all.is_empty());
        for case in all {
            assert_eq!(case.agrees(), Ok(true), "{file}: {}", case.name);
        }
    }
}
