//! What the tool writes, word for word: every kind and number in every form, every explanation, help and usage. The recorded
//! outputs stand in `tests/golden`; with JANOREMBE_GOLDEN=write in the environment they are written again.

mod common;

use common::{many_variables, Folder, Ran, KINDS};
use std::fs;
use std::path::PathBuf;

const ORDER: &[u8] = b"$c wff |- ( ) -> $.
$v x y z $.
wx $f wff x $.
wy $f wff y $.
wz $f wff z $.
${
  $v q $.
  wq $f wff q $.
  $d x y q $.
  0417 $a |- ( x -> y ) $.
  417 $e |- x $.
  e-1 $p |- ( x -> ( y -> x ) ) $= ? $.
$}
ax2 $a |- ( q -> z ) $.
wx $a wff ( x ) $.
";

/// The kit and the archive's sum change with every landing.
fn without_core(line: &str) -> String {
    match line.split_once("\"core\":") {
        Some((front, _)) => format!("{front}\"core\":..}}"),
        None => line.to_owned(),
    }
}

fn shown(words: &[&str], ran: &Ran) -> String {
    let lines = |text: &str| text.lines().map(|line| without_core(line) + "\n").collect::<String>();
    let err = if ran.err.is_empty() { String::new() } else { format!("-- standard error\n{}", lines(&ran.err)) };
    format!("$ janorembe {}\n{}{err}-- status {}\n\n", words.join(" "), lines(&ran.out), ran.status)
}

/// Compares runs with the recorded ones.
fn golden(name: &str, folder: &Folder, runs: &[&[&str]]) {
    let place = PathBuf::from(env!("CARGO_MANIFEST_DIR")).join("tests/golden").join(name);
    let got: String = runs.iter().map(|words| shown(words, &folder.run(words))).collect();
    if std::env::var_os("JANOREMBE_GOLDEN").is_some_and(|value| value == "write") {
        fs::write(&place, &got).expect("the recorded output is written");
    }
    let recorded = fs::read_to_string(&place).expect("the recorded output");
    for (one, other) in got.split("\n\n$ ").zip(recorded.split("\n\n$ ")) {
        assert_eq!(one, other, "{name}");
    }
    assert_eq!(got, recorded, "{name}");
}

#[test]
fn kinds() {
    let folder = Folder::of("golden-kinds");
    folder.put("kinds.mm", KINDS);
    golden("kinds.text", &folder, &[&["check", "kinds.mm"], &["check", "--max", "3", "kinds.mm"]]);
    golden("kinds.short", &folder, &[&["check", "--format", "short", "kinds.mm"]]);
    golden("kinds.json", &folder, &[&["check", "--json", "kinds.mm"]]);
    golden("kinds.color", &folder, &[&["check", "--color=always", "kinds.mm"]]);
}

/// A text for every number that `check` shows.
fn refused() -> Folder {
    let folder = Folder::of("golden-numbers");
    folder.put("one.mm", &vec![b' '; 16_777_217]);
    folder.put("three.mm", b"$c c $.\n$( caf\xC3\xA9 $)\n");
    folder.put("four.mm", b"$c c $.\n  $( a remark\n");
    folder.put("five.mm", b"$c c $.\na $a c $= c $.\n");
    folder.put("inside.mm", b"$c c $.\n$( a remark, x$) and more $)\n");
    folder.put("six.mm", b"$c c $.\n${\n$c d $.\n");
    folder.put("half.mm", b"$c c $.\n${\na $( with $) $a c c\n");
    folder.put("seven.mm", &many_variables(4_096));
    folder.put("short.frames", &[1, 0, 0, 0, 2]);
    folder
}

const REFUSED: [&str; 8] = ["one.mm", "three.mm", "four.mm", "five.mm", "inside.mm", "six.mm", "half.mm", "seven.mm"];

#[test]
fn numbers() {
    let folder = refused();
    let all = |form: &'static str| [&["check", "--format", form][..], &REFUSED].concat();
    let stream = |form: &'static str| vec!["frame", "--format", form, "--stream", "short.frames", "a"];
    for form in ["text", "short", "json"] {
        golden(&format!("numbers.{form}"), &folder, &[&all(form), &stream(form)]);
    }
}

#[test]
fn memory() {
    let folder = Folder::of("golden-memory");
    folder.put("kinds.mm", KINDS);
    let runs: [&[&str]; 4] = [
        &["check", "--memory", "100", "kinds.mm"],
        &["check", "--memory", "18500", "kinds.mm"],
        &["check", "--json", "--memory", "18500", "kinds.mm"],
        &["check", "--memory", "24K", "--max", "1", "kinds.mm"],
    ];
    golden("memory", &folder, &runs);
}

#[test]
fn frames() {
    let folder = Folder::of("golden-frames");
    folder.put("order.mm", ORDER);
    folder.run(&["streams", "order.mm", "--frames", "order.frames"]);
    folder.run(&["streams", "--full", "order.mm", "--frames", "full.frames"]);
    for form in ["text", "short", "json"] {
        let runs: [&[&str]; 6] = [
            &["frame", "--format", form, "order.mm", "0417", "e-1", "wq", "wx"],
            &["frame", "--format", form, "order.mm", "417", "--", "-0"],
            &["frame", "--format", form, "--stream", "order.frames", "0417", "wq", "00417"],
            &["frame", "--format", form, "--stream", "full.frames", "0417"],
            &["labels", "--format", form, "order.mm"],
            &["labels", "--format", form, "--bytes", "order.mm"],
        ];
        golden(&format!("frames.{form}"), &folder, &runs);
    }
}

#[test]
fn streams() {
    let folder = Folder::of("golden-streams");
    folder.put("order.mm", ORDER);
    folder.put("six.mm", b"${");
    let runs: [&[&str]; 4] = [
        &["streams", "order.mm", "--frames", "f", "--diags", "d"],
        &["streams", "--json", "order.mm", "--diags", "d"],
        &["streams", "six.mm", "--frames", "none", "--diags", "none too"],
        &["streams", "order.mm", "--frames", "order.mm"],
    ];
    golden("streams", &folder, &runs);
    assert_eq!(folder.names(), ["d", "f", "order.mm", "six.mm"]);
}

#[test]
fn explanations() {
    let folder = Folder::of("golden-explain");
    let numbers: Vec<String> = (1..=13).map(|n| n.to_string()).collect();
    let mut runs: Vec<Vec<&str>> = vec![vec!["explain"], vec!["explain", "--json"]];
    runs.extend(numbers.iter().map(|n| vec!["explain", "kind", n]));
    runs.extend(numbers[..11].iter().map(|n| vec!["explain", "number", n]));
    let runs: Vec<&[&str]> = runs.iter().map(|words| &words[..]).collect();
    golden("explain", &folder, &runs);
}

#[test]
fn help_and_usage() {
    let folder = Folder::of("golden-help");
    let runs: [&[&str]; 12] = [
        &["--help"],
        &["check", "--help"],
        &["frame", "-h"],
        &["help", "labels"],
        &["streams", "--help"],
        &["explain", "--help"],
        &[],
        &["chek"],
        &["check"],
        &["check", "--colour", "a.mm"],
        &["labels", "--max", "3", "a.mm"],
        &["explain", "kind", "14"],
    ];
    golden("help", &folder, &runs);
    let wrong: [&[&str]; 12] = [
        &["check", "-", "-"],
        &["check", "--format", "yaml", "a.mm"],
        &["check", "--json=1", "a.mm"],
        &["check", "--jobs", "0", "a.mm"],
        &["check", "--max", "-1", "a.mm"],
        &["check", "--memory", "4GB", "a.mm"],
        &["check", "--memory"],
        &["frame", "a.mm"],
        &["frame", "a.mm", "-0"],
        &["labels", "a.mm", "b.mm"],
        &["streams", "a.mm"],
        &["streams", "a.mm", "--frames", "-"],
    ];
    golden("usage", &folder, &wrong);
}
