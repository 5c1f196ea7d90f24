//! Files and words at their edges: lengths, line ends, names, standard input, pipes, outputs, labels that are not numbers.

mod common;

use common::host::look_ups;
use common::{many_variables, Folder, Ran, KINDS};
use std::ffi::OsStr;
use std::io::{BufRead, BufReader, Write};
use std::os::unix::ffi::OsStrExt;
use std::process::Stdio;

fn ran(text: &[u8], words: &[&str]) -> Ran {
    Folder::of("edge").fed(words, text)
}

fn checked(text: &[u8]) -> Ran {
    ran(text, &["check", "-"])
}

#[test]
fn empty_and_blank() {
    let nothing = "-: no errors; 0 frames ($f 0, $a 0, $p 0); proofs were not checked\n";
    for text in [&b""[..], b"\n", b" \t\r\n\x0C", b"$( a remark $)"] {
        let got = checked(text);
        assert_eq!((got.out.as_str(), got.status), (nothing, 0), "{text:?}");
    }
}

/// Without a last newline, with CR LF, and with tabs, the column is the byte in the line.
#[test]
fn line_ends() {
    let got = checked(b"$c c $.\r\n\ta\t$a q $.");
    let shown = "-:2:7: error: symbol `q` is not active here [kind 2]\n    2 |  a $a q $.\n      |       ^\n";
    assert!(got.out.starts_with(shown), "{}", got.out);
    let got = checked(b"a $a q $.\r\n\r\n");
    assert!(got.out.contains("    1 | a $a q $.\n      |      ^\n"), "{}", got.out);
    let got = checked(b"$c c $.\n\n\n${");
    assert!(got.out.starts_with("-:4:3: refused: "), "{}", got.out);
}

/// One line of 260 kB is cut to 100 columns around the token, wherever it stands; a long token is cut too.
#[test]
fn long_lines() {
    let blanks = " ".repeat(130_000);
    for text in [
        format!("a $a q $.{blanks}{blanks}"),
        format!("{blanks}a $a q $.{blanks}"),
        format!("{blanks}{blanks}a $a q $."),
    ] {
        let got = checked(text.as_bytes());
        let lines: Vec<&str> = got.out.lines().collect();
        assert!(lines[0].ends_with("error: symbol `q` is not active here [kind 2]"), "{}", lines[0]);
        assert!(lines[1].len() <= 108 && lines[1].contains("..."), "{}", lines[1]);
        assert_eq!(lines[1].as_bytes()[lines[2].find('^').expect("a caret")], b'q');
    }
    let token = "q".repeat(200_000);
    let got = checked(format!("$c c $. a $a c {token} c $.").as_bytes());
    assert!(
        got.out.len() < 700 && got.out.contains("qqq... | ") || got.out.contains("...` is not active"),
        "{}",
        got.out
    );
    let json = ran(format!("a $a {token} $.").as_bytes(), &["check", "--json", "-"]);
    assert!(json.out.contains(&format!("\"token\":\"{token}\"")), "JSON is never cut");
}

#[test]
fn bytes_at_the_limit() {
    let folder = Folder::of("limit");
    let mut text = b"$c c $. a $a c $.".to_vec();
    text.resize(16_777_216, b'\n');
    folder.put("most.mm", &text);
    text.push(b'\n');
    folder.put("more.mm", &text);
    let got = folder.run(&["check", "most.mm", "more.mm"]);
    assert!(got.out.starts_with("most.mm: no errors; 1 frame ($f 0, $a 1, $p 0);"), "{}", got.out);
    assert!(got.out.contains("more.mm: refused: the text has over 16,777,216 bytes [number 1]\n"), "{}", got.out);
    assert_eq!(got.status, 2);
    text.truncate(16_777_214);
    text.extend_from_slice(b"${");
    folder.put("open.mm", &text);
    let got = folder.run(&["check", "--format", "short", "open.mm"]);
    assert!(got.out.starts_with("open.mm:16777198:3: refused: "), "{}", got.out);
    assert!(got.out.contains("open.mm:16777198:1: hint: this is not closed\n"), "{}", got.out);
}

/// As many diagnostics as a text of this length can have, each placed: two for each token.
#[test]
fn many_diagnostics() {
    let text = format!("$c {}$.\nx $a c $.", "x ".repeat(200_000));
    let got = ran(text.as_bytes(), &["check", "--max", "2", "-"]);
    assert!(got.out.contains("-: 399998 more errors not shown; --max 0 shows all\n"), "{}", got.out);
    let got = ran(text.as_bytes(), &["check", "--format=short", "--max=0", "-"]);
    assert_eq!(got.out.lines().filter(|line| line.contains(": error: ")).count(), 400_000);
    assert_eq!(got.status, 1);
}

#[test]
fn variables_at_the_limit() {
    let folder = Folder::of("variables");
    folder.put("most.mm", &many_variables(4_095));
    folder.put("more.mm", &many_variables(4_096));
    let got = folder.run(&["check", "--format", "short", "most.mm", "more.mm"]);
    assert!(got.out.starts_with("most.mm: no errors; 1 frame "), "{}", got.out);
    assert!(
        got.out.contains("more.mm:3:1: refused: the frame of `a` has over 4,095 variables [number 7]"),
        "{}",
        got.out
    );
    let got = folder.run(&["frame", "most.mm", "a"]);
    assert!(got.out.contains(" and 8382365 more pairs\n"), "the pairs are counted");
}

/// More memory than is allowed is asked for by name; just as much is enough.
#[test]
fn memory() {
    let folder = Folder::of("memory");
    folder.put("a.mm", &many_variables(1_000));
    assert_eq!(folder.run(&["check", "--memory", "200000", "a.mm"]).status, 0, "it asks for no optional variables");
    let got = folder.run(&["frame", "--memory", "200000", "a.mm", "a"]);
    let needed: u64 = got.err.split(' ').nth(2).and_then(|word| word.parse().ok()).expect("a number of bytes");
    assert_eq!((got.out.as_str(), got.status), ("", 3));
    assert!(got.err.ends_with(" bytes of memory are needed, and --memory allows less\n"), "{}", got.err);
    assert_eq!(folder.run(&["frame", "--memory", &(needed - 1).to_string(), "a.mm", "a"]).status, 3);
    assert_eq!(folder.run(&["frame", "--memory", &needed.to_string(), "a.mm", "a"]).status, 0);
}

#[test]
fn files_that_cannot_be_read() {
    let folder = Folder::of("unread");
    folder.put("a.mm", b"");
    let got = folder.run(&["check", "missing.mm", ".", "a.mm"]);
    assert_eq!(got.err, "janorembe: missing.mm: No such file or directory\njanorembe: .: Is a directory\n");
    assert!(got.out.starts_with("a.mm: no errors;"), "the others are still checked");
    assert_eq!(got.status, 3);
    let got = folder.run(&["labels", "--json", "missing.mm"]);
    assert!(got.out.contains(
        "{\"type\":\"failed\",\"file\":\"missing.mm\",\"message\":\"No such file or directory\",\"status\":3}"
    ));
}

/// A file name cannot steer a terminal, and one that is not UTF-8 is given in hex too.
#[test]
fn file_names() {
    let folder = Folder::of("names");
    for (name, shown) in
        [(&b"a\x1b[31m\n.mm"[..], "a<1b>[31m<0a>.mm"), (b"\xC3\xA9.mm", "\u{e9}.mm"), (b"\xE9.mm", "<e9>.mm")]
    {
        let name = OsStr::from_bytes(name);
        folder.put(name, b"a $a q $.");
        let got = folder.run(&[OsStr::new("check"), name]);
        assert!(got.out.starts_with(&format!("{shown}:1:6: error:")), "{}", got.out);
    }
    let got = folder.run(&[OsStr::new("labels"), OsStr::new("--json"), OsStr::from_bytes(b"\xE9.mm")]);
    assert_eq!(got.status, 0);
    let got = folder.run(&[OsStr::new("check"), OsStr::new("--json"), OsStr::from_bytes(b"\xE9.mm")]);
    assert!(got.out.contains("\"file\":\"\\ufffd.mm\",\"file_hex\":\"e92e6d6d\""), "{}", got.out);
    assert!(got.out.is_ascii());
}

/// Quotes and backslashes are legal in a symbol.
#[test]
fn json_strings() {
    let got = ran(br#"a $a \" <b>&'{} $."#, &["check", "--json", "-"]);
    assert!(got.out.contains(r#""token":"\\\"""#) && got.out.contains(r#""token":"<b>&'{}""#), "{}", got.out);
}

/// 417, 0417, 00417, 1e3 and -0 are five labels, never trimmed, padded or taken for one another.
#[test]
fn labels_are_bytes() {
    let folder = Folder::of("labels");
    let labels = ["417", "0417", "00417", "1e3", "-0", "1000", "0", "A", "a"];
    let text: String = labels.iter().map(|label| format!("{label} $a c $.\n")).collect();
    folder.put("five.mm", format!("$c c $.\n{text}").as_bytes());
    let got = folder.run(&["labels", "five.mm"]);
    let listed: Vec<&str> = got.out.lines().map(|line| line.rsplit(' ').next().expect("a label")).collect();
    assert_eq!(listed, labels, "in the order of the text");
    let got = folder.run(&["labels", "--bytes", "five.mm"]);
    let listed: Vec<&str> = got.out.lines().map(|line| line.rsplit(' ').next().expect("a label")).collect();
    assert_eq!(listed, ["-0", "0", "00417", "0417", "1000", "1e3", "417", "A", "a"]);
    for (place, label) in labels.iter().enumerate() {
        let got = folder.run(&["frame", "--format", "short", "five.mm", "--", label]);
        assert_eq!(got.out, format!("five.mm:{}:1: {label} $a c\n", place + 2));
    }
    for absent in ["000417", " 417", "417 ", "+417", "00", "417.0", "1E3", ""] {
        let got = folder.run(&["frame", "five.mm", "--", absent]);
        assert_eq!((got.out.as_str(), got.status), ("", 1), "{absent}");
    }
    let got = folder.run(&["frame", "five.mm", "000417"]);
    assert!(got.err.ends_with("  differing in leading zeros: 417 0417 00417\n"), "{}", got.err);
    let got = folder.run(&["frame", "--json", "five.mm", "000417", "caf\u{e9}"]);
    assert!(
        got.out.contains("\"label\":\"000417\",\"number\":11,\"zeros\":[\"417\",\"0417\",\"00417\"]"),
        "{}",
        got.out
    );
    assert!(got.out.contains("\"label\":\"caf<c3><a9>\",\"label_hex\":\"636166c3a9\""), "{}", got.out);
}

/// The recorded look-ups: number 10 is status 2 with the record's offset, number 11 status 1; a record that is found is shown if its
/// payload fits its layout, and status 3 if it does not.
#[test]
fn recorded_look_ups() {
    let folder = Folder::of("look-ups");
    let mut statuses = [0; 4];
    for v in look_ups() {
        folder.put("stream", &v.stream);
        let words = ["frame", "--json", "--stream", "stream", "--"].map(OsStr::new);
        let got = folder.run(&[&words[..], &[OsStr::from_bytes(&v.label)]].concat());
        let place = format!("\"number\":10,\"place\":{},", v.place);
        match v.number {
            10 => assert!(got.status == 2 && got.out.contains(&place), "{}: {}", v.name, got.out),
            11 => assert!(got.status == 1 && got.out.contains("\"absent\""), "{}: {}", v.name, got.out),
            _ => assert!(got.status == 0 || got.status == 3, "{}: {}", v.name, got.out),
        }
        statuses[got.status as usize] += 1;
    }
    assert!(statuses.iter().all(|&count| count > 0), "{statuses:?}");
}

/// The output of several files is in their order, whatever is done at the same time.
#[test]
fn jobs() {
    let folder = Folder::of("jobs");
    let names: Vec<String> = (0..40).map(|i| format!("{i}.mm")).collect();
    for (i, name) in names.iter().enumerate() {
        folder.put(name, &[KINDS, &b" ".repeat(i * 7_000)].concat());
    }
    let run = |jobs: &str| {
        let words: Vec<&str> = ["check", "--jobs", jobs].into_iter().chain(names.iter().map(String::as_str)).collect();
        folder.run(&words)
    };
    assert_eq!(run("1"), run("7"));
    assert_eq!(run("1").out.matches("18 errors; 10 frames").count(), 40);
}

#[test]
fn quiet() {
    let folder = Folder::of("quiet");
    folder.put("kinds.mm", KINDS);
    folder.put("open.mm", b"${");
    for (words, status) in [
        (&["check", "--quiet", "kinds.mm"][..], 1),
        (&["check", "--quiet", "kinds.mm", "open.mm"], 2),
        (&["check", "--quiet", "missing.mm"], 3),
        (&["frame", "--quiet", "kinds.mm", "wi"], 0),
        (&["frame", "--quiet", "--json", "kinds.mm", "no"], 1),
    ] {
        let got = folder.run(words);
        assert_eq!((got.out.as_str(), got.err.as_str(), got.status), ("", "", status), "{words:?}");
    }
}

/// Nobody reads the output any more: silent, status 3.
#[test]
fn closed_pipe() {
    let folder = Folder::of("pipe");
    let text = format!("$c {}$.", "x ".repeat(100_000));
    let mut child = folder.command(&["check", "--max=0", "-"]).stderr(Stdio::piped()).spawn().expect("it starts");
    child.stdin.take().expect("standard input").write_all(text.as_bytes()).expect("the text is taken");
    let mut line = String::new();
    let mut out = BufReader::new(child.stdout.take().expect("standard output"));
    out.read_line(&mut line).expect("a line");
    drop(out);
    let done = child.wait_with_output().expect("it ends");
    assert_eq!((done.stderr.as_slice(), done.status.code()), (&b""[..], Some(3)));
}

/// An output is whole or not there, goes where a link leads, and is never an input, a folder or a device.
#[test]
fn outputs() {
    let folder = Folder::of("outputs");
    folder.put("kinds.mm", KINDS);
    folder.put("old", b"old");
    std::os::unix::fs::symlink("old", folder.0.join("link")).expect("a link");
    std::os::unix::fs::symlink("kinds.mm", folder.0.join("text")).expect("a link");
    std::os::unix::fs::symlink("nowhere", folder.0.join("lost")).expect("a link");
    for (out, why) in [
        ("text", "it is the text itself"),
        ("./kinds.mm", "it is the text itself"),
        (".", "only a file can be written"),
        ("/dev/null", "only a file can be written"),
        ("no/such", "No such file or directory"),
        ("lost", "No such file or directory"),
    ] {
        let got = folder.run(&["streams", "kinds.mm", "--frames", "link", "--diags", out]);
        assert!(got.err.ends_with(&format!("{why}\n")) && got.status == 3, "{out}: {}", got.err);
    }
    let got = folder.run(&["streams", "kinds.mm", "--frames", "link", "--diags", "./old"]);
    assert!(got.err.ends_with("both streams cannot go to one file\n"), "{}", got.err);
    assert_eq!(folder.get("old").as_deref(), Some(&b"old"[..]), "nothing was written so far");
    assert_eq!(folder.run(&["streams", "kinds.mm", "--frames", "link", "--diags", "d"]).status, 1);
    let [short, full] = [false, true].map(|full| janorembe::streams(KINDS, full).expect("it is read"));
    assert!(short.frames.len() < full.frames.len());
    assert_eq!((folder.get("old"), folder.get("d")), (Some(short.frames), Some(short.diags)));
    assert_eq!(folder.run(&["streams", "--full", "kinds.mm", "--frames", "link", "--diags", "d"]).status, 1);
    assert_eq!((folder.get("old"), folder.get("d")), (Some(full.frames), Some(full.diags)));
    assert_eq!(folder.names(), ["d", "kinds.mm", "link", "lost", "old", "text"]);
    assert_eq!(folder.get("kinds.mm").as_deref(), Some(KINDS));
}
