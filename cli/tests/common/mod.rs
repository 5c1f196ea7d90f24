//! What the tests of the tool share: folders of their own, runs of the built program, and the vectors of `host/`.
#![allow(dead_code)]

#[path = "../../../host/tests/common/mod.rs"]
pub mod host;

use std::ffi::OsStr;
use std::fs;
use std::io::Write;
use std::path::{Path, PathBuf};
use std::process::{Command, Stdio};
use std::sync::atomic::{AtomicUsize, Ordering};

/// A text with a frame of every kind and a diagnostic of every kind.
pub const KINDS: &[u8] = include_bytes!("../../../crates/janorembe/stdin");

static COUNT: AtomicUsize = AtomicUsize::new(0);

/// What a run wrote, and its exit status.
#[derive(Debug, PartialEq, Eq)]
pub struct Ran {
    pub out: String,
    pub err: String,
    pub status: i32,
}

/// A folder that goes when the test ends.
pub struct Folder(pub PathBuf);

impl Folder {
    pub fn of(name: &str) -> Folder {
        let number = COUNT.fetch_add(1, Ordering::Relaxed);
        let place = std::env::temp_dir().join(format!("janorembe-{name}-{}-{number}", std::process::id()));
        fs::create_dir_all(&place).expect("a folder for the test");
        Folder(place)
    }

    pub fn put(&self, name: impl AsRef<Path>, bytes: &[u8]) {
        fs::write(self.0.join(name), bytes).expect("a file for the test");
    }

    pub fn get(&self, name: &str) -> Option<Vec<u8>> {
        fs::read(self.0.join(name)).ok()
    }

    /// The names of all files, in order.
    pub fn names(&self) -> Vec<String> {
        let entries = fs::read_dir(&self.0).expect("the folder").flatten();
        let mut names: Vec<_> = entries.map(|entry| entry.file_name().to_string_lossy().into_owned()).collect();
        names.sort();
        names
    }

    pub fn run(&self, words: &[impl AsRef<OsStr>]) -> Ran {
        self.fed(words, b"")
    }

    /// A run with this on standard input.
    pub fn fed(&self, words: &[impl AsRef<OsStr>], input: &[u8]) -> Ran {
        let mut child = self.command(words).spawn().expect("the program starts");
        let mut to = child.stdin.take().expect("standard input");
        let input = input.to_vec();
        let feeder = std::thread::spawn(move || drop(to.write_all(&input)));
        let done = child.wait_with_output().expect("the program ends");
        feeder.join().expect("the input is given");
        let text = |bytes: Vec<u8>| String::from_utf8(bytes).expect("output in UTF-8");
        Ran { out: text(done.stdout), err: text(done.stderr), status: done.status.code().expect("a status") }
    }

    pub fn command(&self, words: &[impl AsRef<OsStr>]) -> Command {
        let mut command = Command::new(env!("CARGO_BIN_EXE_janorembe"));
        command.args(words).current_dir(&self.0).env_remove("NO_COLOR");
        command.stdin(Stdio::piped()).stdout(Stdio::piped()).stderr(Stdio::piped());
        command
    }
}

impl Drop for Folder {
    fn drop(&mut self) {
        let _ = fs::remove_dir_all(&self.0);
    }
}

/// `$c c $.`, a `$v` and a `$d` with so many variables, and an assertion.
pub fn many_variables(count: usize) -> Vec<u8> {
    let names = (0..count).map(|i| format!("v{i}")).collect::<Vec<_>>().join(" ");
    format!("$c c $. $v {names} $.\n$d {names} $.\na $a c $.\n").into_bytes()
}
