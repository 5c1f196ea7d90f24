//! What the README shows of the tool is what comes out, and the text it shows is the one in `examples/`.

use std::process::Command;

const README: &str = include_str!("../../README.md");
const SMALL: &str = include_str!("../../examples/small.mm");

fn indented(text: &str) -> String {
    text.lines().map(|line| format!("    {line}\n")).collect()
}

#[test]
fn examples() {
    assert!(README.contains(&indented(SMALL)), "the text in examples/small.mm");
    let runs = README.lines().filter_map(|line| line.strip_prefix("    $ janorembe "));
    let mut count = 0;
    for words in runs {
        let root = concat!(env!("CARGO_MANIFEST_DIR"), "/..");
        let mut command = Command::new(env!("CARGO_BIN_EXE_janorembe"));
        let done = command.args(words.split(' ')).current_dir(root).output().expect("it runs");
        let shown = format!("    $ janorembe {words}\n{}\n", indented(&String::from_utf8_lossy(&done.stdout)));
        assert!(README.contains(&shown), "{shown}");
        count += 1;
    }
    assert!(count >= 2, "the README shows the tool");
}
