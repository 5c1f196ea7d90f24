//! Every text of `explain` is what it says: the wrong one gives its kind or number and nothing else, the mended one nothing.

use janorembe_cli::decode;
use janorembe_cli::explain::{KINDS, NUMBERS};
use janorembe_cli::lend::{streams, Answer};

/// The kinds that a text gets, or the number that refuses it.
fn given(text: &str) -> Result<Vec<u16>, u32> {
    let text = text.replace("<e9>", "\u{1}").into_bytes();
    match streams(&text, 1 << 32, false).expect("an answer") {
        Answer::Refused(refusal) => Err(refusal.number),
        Answer::Read(streams) => {
            Ok(decode::diagnostics(&streams.diags).expect("records").iter().map(|d| d.kind).collect())
        }
    }
}

#[test]
fn kinds() {
    for (place, rule) in KINDS.iter().enumerate() {
        let mut kinds = given(rule.wrong).expect("a text that is read");
        kinds.dedup();
        assert_eq!(kinds, [place as u16 + 1], "{}", rule.wrong);
        assert_eq!(given(rule.mended), Ok(vec![]), "{}", rule.mended);
    }
}

#[test]
fn numbers() {
    for number in [3, 4, 5, 6] {
        let rule = &NUMBERS[number - 1];
        assert_eq!(given(rule.wrong), Err(number as u32), "{}", rule.wrong);
        assert!(given(rule.mended).is_ok(), "{}", rule.mended);
    }
}
