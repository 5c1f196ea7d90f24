//! Puts into the program what `--version` says of the core: the kit that proved the archive, and the archive's SHA-256.

use std::path::Path;
use std::process::Command;

/// The first line that a command writes, if it can be run.
fn said(program: &str, argument: &str) -> Option<String> {
    let out = Command::new(program).arg(argument).output().ok().filter(|out| out.status.success())?;
    Some(String::from_utf8(out.stdout).ok()?.lines().next()?.trim().to_owned())
}

fn main() {
    let archive = Path::new(env!("CARGO_MANIFEST_DIR")).join("../target/staticlib/libcapi.a");
    let sum = said("sha256sum", &archive.to_string_lossy());
    let sum = sum.as_deref().and_then(|line| line.split(' ').next()).unwrap_or("unknown");
    let kit = said("rt", "version").unwrap_or("unknown kit".to_owned());
    println!("cargo:rustc-env=JANOREMBE_KIT={kit}");
    println!("cargo:rustc-env=JANOREMBE_ARCHIVE={sum}");
    println!("cargo:rerun-if-changed={}", archive.display());
}
