//! Reads files and standard input, whole and never mapped: what the core is lent must not change during the call.

use crate::status::Failure;
use std::ffi::OsStr;
use std::fs::File;
use std::io::Read;

/// Whether a name stands for standard input.
pub fn is_standard(name: &OsStr) -> bool {
    name == "-"
}

/// At most `most` bytes and one more, by which a longer file is known.
pub fn read(name: &OsStr, most: u64) -> Result<Vec<u8>, Failure> {
    let mut bytes = Vec::new();
    let limit = most.saturating_add(1);
    let done = if is_standard(name) {
        std::io::stdin().lock().take(limit).read_to_end(&mut bytes)
    } else {
        File::open(name).and_then(|file| {
            let length = file.metadata().map_or(0, |about| about.len());
            bytes.reserve(length.min(limit).min(1 << 32) as usize);
            file.take(limit).read_to_end(&mut bytes)
        })
    };
    done.map(|_| bytes).map_err(|error| Failure::failed(reason(&error)))
}

/// What the system says of an error, without the number that Rust puts after it.
pub fn reason(error: &std::io::Error) -> String {
    let said = error.to_string();
    said.split(" (os error").next().unwrap_or(&said).to_owned()
}
