//! The texts on the bench of document 01, and the order of its numbers.

mod common;

use common::{refusal, run, words_needed};

const WHOLE: &[u8] = b"$c ( ) wff $. $v x $. wx $f wff x $. ax $a wff ( x ) $.";
const WHOLE_FRAMES: &str = "1C000000 0400 16000000 FFFFFFFF 02000000 7778 03000000 776666 01000000 78 \
    50000000 0200 25000000 02000000 6178 0100 0100 01000000 78 02000000 A8A9 01000000 0100 16000000 0000 03000000 776666 \
    03000000 776666 01000000 00000000 01000000 0000 01000000 02000000 00000000 00";

fn bytes(hex: &str) -> Vec<u8> {
    let digits: Vec<u32> = hex.chars().filter_map(|c| c.to_digit(16)).collect();
    digits.chunks(2).map(|d| (d[0] * 16 + d[1]) as u8).collect()
}

fn name(text: &[u8]) -> String {
    String::from_utf8_lossy(text).into_owned()
}

/// A text with long buffers gives these streams.
fn given(text: &[u8], frames: &str, diags: &str) {
    let r = run(&name(text), text, words_needed(text), 1000, 1000);
    assert_eq!(r.answer.number, 0, "{}", name(text));
    assert_eq!((r.frames, r.diags), (bytes(frames), bytes(diags)), "{}", name(text));
}

/// A text with long buffers is refused with this number and place.
fn refused(text: &[u8], number: u32, place: u64) {
    assert_eq!(refusal(&name(text), text, words_needed(text), 1000, 1000), (number, place), "{}", name(text));
}

#[test]
fn texts_on_the_bench() {
    given(b"", "", "");
    given(WHOLE, WHOLE_FRAMES, "");
    given(b"$c x $. $v x $.", "", "0E000000 0600 08000000 00000000 03000000");
    refused(b"$}", 5, 0);
    refused(b"${", 6, 2);
    refused(b"$(", 4, 0);
    refused(&[128], 3, 0);
    refused(b"$c $.", 5, 3);
    given(
        b"${ $v x $. $} $d x x $.",
        "",
        "0E000000 0200 0E000000 00000000 00000000 0E000000 0200 0E000000 01000000 00000000",
    );
    assert_eq!(refusal("whole", WHOLE, 335, 116, 0), (2, 336));
    assert_eq!(refusal("whole", WHOLE, 336, 115, 0), (8, 116));
    assert_eq!(run("whole", WHOLE, 336, 116, 0).frames, bytes(WHOLE_FRAMES));
}

#[test]
fn earlier_numbers_come_first() {
    // 2 before 3 before 4, 5 and 6; of 4 and 5 the one at the earlier token.
    assert_eq!(refusal("2, 3", &[128], 31, 0, 0), (2, 32));
    refused(b"$} \x7F", 3, 3);
    refused(b"$( $} \x01", 3, 6);
    refused(b"$c x $. \x0B", 3, 8);
    refused(b"$} $(", 5, 0);
    refused(b"$( $}", 4, 0);
    refused(b"$c $(", 4, 3);
    refused(b"${ x $( y", 4, 5);
    refused(b"${ x $. $(", 5, 5);
    refused(b"a ", 6, 2);
    refused(b"a $c", 5, 2);
    // 8 before 9.
    let both = b"$c c $. $v x $. f $f c x $. $c c $.";
    assert_eq!(refusal("8, 9", both, words_needed(both), 0, 0), (8, 29));
    assert_eq!(refusal("8, 9", both, words_needed(both), 28, 18), (8, 29));
    assert_eq!(refusal("8, 9", both, words_needed(both), 29, 17), (9, 18));
    assert_eq!(refusal("8, 9", both, words_needed(both), 29, 18), (0, 0));
}

#[test]
fn slips_to_catch() {
    // Two `$d` name one pair: it is listed once, as first discovered. The first variable of the second `$d` is mandatory, the
    // others are not. Hypotheses go by offset, though the `$e` is seen before a variable's `$f`.
    let text = b"$c c $. $v x y z $. a $f c x $. e $e c x $. b $f c y $. $d y x $. $d x y z $. p $a c y $.";
    let r = run("slips", text, words_needed(text), 1000, 0);
    let frame = bytes(
        "87000000 0200 4E000000 01000000 70 0300 0200 01000000 78 01000000 79 01000000 7A 00000000 \
         03000000 0100 14000000 0000 01000000 63 \
         0200 20000000 01000000 63 01000000 00000000 00000000 0000 00000000 00000000 \
         0100 2C000000 0100 01000000 63 \
         01000000 63 01000000 00000000 00000000 0100 00000000 00000000 \
         01000000 0100 0000 06 05 03",
    );
    assert_eq!(r.frames[58..], frame[..]);
}
